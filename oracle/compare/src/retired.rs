//! The C function with retired samples. Beside an accepted call stands another one that must write the same bytes.
use crate::call::{Call, Spoiled, MODE};
use crate::called::each_seed;
use crate::made::Made;
use crate::reached::tell;
use oracle::draw::{draw_big, redraw_retired};
use oracle::marks::RETIRED;
use oracle::problem::{Entry, Problem, BAD_FLOOR};
use oracle::random::Random;
use oracle::run::Answer;

#[derive(Default)]
struct Counts {
    made: Made,
    /// One for each mark of the retired entry.
    marks: Vec<u64>,
    tuned: u64,
    /// Those with a floor and a mode, which this function doesn't know.
    with_mode: u64,
    null_tuning: u64,
    null_retired: u64,
    /// Accepted calls made again with other retired samples.
    others: u64,
    /// Accepted calls with nobody retired, made again as general ones.
    general: u64,
}

impl Counts {
    /// Makes the call and, where it is accepted, the one beside it.
    fn call(&mut self, g: &mut Random, seed: u64, p: Problem, spoiled: Spoiled) -> Answer {
        let mut call = Call::new(g, p, spoiled);
        let answer = self.made.call(seed, &mut call);
        self.tuned += u64::from(call.tuning.len > 0);
        self.with_mode += u64::from(call.tuning.len == MODE);
        self.null_tuning += u64::from(call.tuning.null);
        self.null_retired += u64::from(call.retired.null);
        self.marks.resize(RETIRED.len(), 0);
        for (count, (_, test)) in self.marks.iter_mut().zip(RETIRED) {
            *count += u64::from(test(&call.p, &answer));
        }
        if answer.accepted().is_some() {
            self.beside(g, seed, &call);
        }
        answer
    }

    /// Other retired samples have no say, and with nobody retired the general function answers the same.
    fn beside(&mut self, g: &mut Random, seed: u64, call: &Call) {
        let mut p = call.p.clone();
        let differs = if p.retired.contains(&1) {
            self.others += 1;
            redraw_retired(g, &mut p);
            "retired samples have a say"
        } else {
            self.general += 1;
            p.entry = Entry::General;
            "the general function answers otherwise"
        };
        let n = p.n as usize;
        let mut other = Call::new(g, p, Spoiled::Nothing);
        let (_, found) = other.compare();
        let parted = call.written(n) != other.written(n);
        self.made
            .tell(seed, &other, found.or(parted.then_some(differs)));
    }

    fn counts(&self) -> Vec<(u64, String)> {
        let refusals = Entry::Retired.judged().filter(|k| *k != BAD_FLOOR);
        let refusals: Vec<usize> = refusals.map(|k| k as usize).collect();
        let mut all = self.made.counts(&[Entry::Retired], &refusals);
        for (count, (name, _)) in self.marks.iter().zip(RETIRED) {
            all.push((*count, format!("retired: {name}")));
        }
        let rest = [
            (self.tuned, "with a tuning that isn't empty"),
            (self.with_mode, "of those with one of 16 bytes"),
            (self.null_tuning, "with the tuning lent as NULL"),
            (self.null_retired, "with empty retired bytes lent as NULL"),
            (self.others, "made again with other retired samples"),
            (self.general, "made again by the general function"),
        ];
        all.extend(rest.map(|(count, name)| (count, name.to_string())));
        all
    }
}

/// Compares on every seed from the first to the last, and says how many differ.
pub fn compare(first: u64, last: u64) -> u64 {
    let mut counts = Counts::default();
    let big = |_: &mut Random, seed, n| draw_big(seed, n, Entry::Retired, false);
    let draw = oracle::draw_retired;
    each_seed((first, last), draw, big, |g, seed, p, spoiled| {
        counts.call(g, seed, p, spoiled)
    });
    let seeds = last.saturating_sub(first);
    tell(&counts.counts(), seeds, counts.made.differ)
}
