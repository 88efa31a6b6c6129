//! The C functions that take a tuning, with floors of the caller's own. Beside a call stand others at the usual floor that must write
//! the same bytes, whether they lend it or not.
use crate::call::{Call, Spoiled, Tuning, REFUSED_LENGTHS};
use crate::called::each_seed;
use crate::made::Made;
use crate::reached::tell;
use oracle::draw::{draw_big_tuned, draw_tuned};
use oracle::marks::{Owed, Tally};
use oracle::problem::{Entry, Problem, LAST_REFUSAL, MOST_PASSES, USUAL_FLOOR};
use oracle::random::Random;
use oracle::run::Answer;

struct Counts {
    made: Made,
    tally: Tally,
    /// Calls with a tuning of each of those lengths, and with another that is refused.
    lengths: [u64; REFUSED_LENGTHS.len()],
    other: u64,
    null: u64,
    /// Calls at the usual floor, three for each that was made before.
    usual: u64,
    /// Those of them that were accepted.
    accepted: u64,
}

impl Counts {
    /// Makes the call, and those beside it.
    fn call(&mut self, g: &mut Random, seed: u64, p: Problem, spoiled: Spoiled) -> Answer {
        let spoiled = match spoiled {
            Spoiled::Nothing if g.one_in(25) => Spoiled::Tuning,
            other => other,
        };
        let lends = match p.floor == USUAL_FLOOR && g.coin() {
            true => Tuning::Empty,
            false => Tuning::Floor,
        };
        let mut call = Call::tuned(g, p, spoiled, lends);
        let answer = self.made.call(seed, &mut call);
        self.null += u64::from(call.tuning.null);
        if spoiled == Spoiled::Tuning {
            match REFUSED_LENGTHS
                .iter()
                .position(|len| *len == call.tuning.len)
            {
                Some(k) => self.lengths[k] += 1,
                None => self.other += 1,
            }
        }
        self.tally.add(&call.p, &answer);
        self.beside(g, seed, &call.p);
        answer
    }

    /// At the usual floor it is the same whether it is lent, not lent, or not to be lent.
    fn beside(&mut self, g: &mut Random, seed: u64, p: &Problem) {
        let mut p = p.clone();
        p.floor = USUAL_FLOOR;
        if p.budget <= MOST_PASSES {
            // a large one was given to a run that ends before, with another floor
            p.budget = p.budget.min(2000);
        }
        let mut first = None;
        for lends in [Tuning::Without, Tuning::Empty, Tuning::Floor] {
            let mut call = Call::tuned(g, p.clone(), Spoiled::Nothing, lends);
            let (answer, differs) = call.compare();
            let places = answer.accepted().map_or(0, |a| a.home.len());
            let written = call.written(places);
            let same = *first.get_or_insert_with(|| written.clone()) == written;
            let parted = (!same).then_some("at the usual floor other bytes");
            self.made.tell(seed, &call, differs.or(parted));
            self.usual += 1;
            self.accepted += u64::from(places > 0);
        }
    }

    fn counts(&mut self) -> Vec<(u64, String)> {
        let refusals: Vec<usize> = (1..=LAST_REFUSAL as usize).collect();
        let mut all = self.made.counts(&Entry::ALL, &refusals);
        for (name, owed, count) in self.tally.carried() {
            match owed {
                Owed::None => self.made.differ += count,
                _ => all.push((count, name)),
            }
        }
        for (bytes, count) in REFUSED_LENGTHS.iter().zip(self.lengths) {
            all.push((count, format!("with a tuning of {bytes} bytes")));
        }
        let rest = [
            (self.other, "with one of another number that isn't known"),
            (self.null, "with the tuning lent as NULL"),
            (self.usual, "made beside them at the usual floor"),
            (self.accepted, "of those accepted"),
        ];
        all.extend(rest.map(|(count, name)| (count, name.to_string())));
        all
    }
}

/// Compares on every seed from the first to the last, and says how many differ.
pub fn compare(first: u64, last: u64) -> u64 {
    let mut counts = Counts {
        made: Made::default(),
        tally: Tally::owing(&[Owed::Tuned]),
        lengths: [0; REFUSED_LENGTHS.len()],
        other: 0,
        null: 0,
        usual: 0,
        accepted: 0,
    };
    let big = |g: &mut Random, seed, n| {
        let entry = g.pick(&Entry::ALL);
        draw_big_tuned(seed, n, entry, entry != Entry::Retired && g.coin())
    };
    each_seed((first, last), draw_tuned, big, |g, seed, p, spoiled| {
        counts.call(g, seed, p, spoiled)
    });
    let told = counts.counts();
    tell(&told, last.saturating_sub(first), counts.made.differ)
}
