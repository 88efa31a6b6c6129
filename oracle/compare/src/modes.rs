//! The four C functions that know a mode, in both: each call beside the Rust in that mode. Where all have one ceiling, and with
//! shrinking off, the two must write the same bytes.
use crate::call::{Call, Spoiled, Tuning, ON, REFUSED_LENGTHS};
use crate::called::each_seed;
use crate::made::Made;
use crate::reached::tell;
use oracle::draw::{draw_big_modes, draw_modes};
use oracle::marks::{ceilings_differ, Owed, Tally};
use oracle::problem::{Entry, Problem, MOST_PASSES, USUAL_FLOOR};
use oracle::random::Random;
use oracle::run::Answer;

/// The most passes of a run in the crate's mode. A larger budget was given to a run that ends before, in the travelling one.
const PASSES: u64 = 5000;

struct Counts {
    made: Made,
    tally: Tally,
    /// Calls by what is lent as a tuning: nothing, an empty one, a floor, a floor and the mode.
    lent: [u64; 4],
    /// Travelling calls by word 1, in the order of [`ON`].
    words: [u64; ON.len()],
    /// Calls with a tuning of each of those lengths, and with another that is refused.
    lengths: [u64; REFUSED_LENGTHS.len()],
    other: u64,
    /// Accepted calls whose two modes must write the same bytes: one common ceiling with shrinking on, and shrinking off.
    common: u64,
    off: u64,
    /// Accepted in both modes, with other bytes.
    parted: u64,
}

impl Counts {
    /// Makes the call in both modes.
    fn call(&mut self, g: &mut Random, seed: u64, p: Problem, spoiled: Spoiled) -> Answer {
        let spoiled = match spoiled {
            Spoiled::Nothing if g.one_in(25) => Spoiled::Tuning,
            other => other,
        };
        let mut theirs = p.clone();
        theirs.travelling = false;
        if p.budget <= MOST_PASSES {
            theirs.budget = p.budget.min(PASSES);
        }
        let lends = match (g.below(4), p.floor == USUAL_FLOOR) {
            (0, true) => Tuning::Without,
            (1, true) => Tuning::Empty,
            (0..=1, false) | (2, _) => Tuning::Floor,
            _ => Tuning::Mode,
        };
        let (theirs, _) = self.one(g, seed, theirs, spoiled, lends);
        let (ours, answer) = self.one(g, seed, p, spoiled, Tuning::Mode);
        self.tally.add(&ours.p, &answer);
        if spoiled == Spoiled::Nothing {
            // else a list may be longer in one call and shorter in the other
            let parted = self.beside(&theirs, &ours, &answer);
            self.made.tell(seed, &ours, parted);
        }
        answer
    }

    fn one(
        &mut self,
        g: &mut Random,
        seed: u64,
        p: Problem,
        spoiled: Spoiled,
        lends: Tuning,
    ) -> (Call, Answer) {
        // the function without a tuning has none to spoil
        let lends = match (spoiled, lends) {
            (Spoiled::Tuning, Tuning::Without) => Tuning::Empty,
            (_, lends) => lends,
        };
        let mut call = Call::tuned(g, p, spoiled, lends);
        let answer = self.made.call(seed, &mut call);
        if spoiled == Spoiled::Tuning {
            let len = call.tuning.len;
            match REFUSED_LENGTHS.iter().position(|known| *known == len) {
                Some(k) => self.lengths[k] += 1,
                None => self.other += 1,
            }
            return (call, answer);
        }
        self.lent[lends as usize] += 1;
        if call.p.travelling {
            let word = call.tuning.words(2)[1];
            let at = ON.iter().position(|on| *on == word);
            self.words[at.expect("it was picked from them")] += 1;
        }
        (call, answer)
    }

    /// Where the modes part and mustn't, in a word.
    fn beside(&mut self, theirs: &Call, ours: &Call, answer: &Answer) -> Option<&'static str> {
        let n = answer.accepted()?.home.len();
        let p = &ours.p;
        // a call in the crate's mode that was refused with 11 has written no readings, which hold what was lent there
        let parted = theirs.written(n) != ours.written(n);
        self.parted += u64::from(parted);
        if p.shrinking && ceilings_differ(p) {
            return None;
        }
        let count = if p.shrinking {
            &mut self.common
        } else {
            &mut self.off
        };
        *count += 1;
        parted.then_some("the modes part")
    }

    fn counts(&mut self) -> Vec<(u64, String)> {
        let refusals = [1, 2, 3, 4, 5, 6, 7, 8, 9, 10, 11, 14];
        let mut all = self.made.counts(&Entry::DRAWN, &refusals);
        for (name, owed, count) in self.tally.carried() {
            match owed {
                Owed::None => self.made.differ += count,
                _ => all.push((count, name)),
            }
        }
        let lent = [
            "by the function without a tuning",
            "with an empty tuning",
            "with a tuning of 8 bytes",
            "with a tuning of 16 bytes",
        ];
        all.extend(
            self.lent
                .iter()
                .zip(lent)
                .map(|(k, name)| (*k, name.into())),
        );
        for (word, count) in ON.iter().zip(self.words) {
            all.push((count, format!("travelling by a word 1 of {word}")));
        }
        for (bytes, count) in REFUSED_LENGTHS.iter().zip(self.lengths) {
            all.push((count, format!("with a tuning of {bytes} bytes")));
        }
        let rest = [
            (self.other, "with one of another number that isn't known"),
            (self.parted, "accepted in travelling, and the modes part"),
            (self.common, "must be the same: one common ceiling"),
            (self.off, "must be the same: shrinking off"),
        ];
        all.extend(rest.map(|(count, name)| (count, name.to_string())));
        all
    }
}

/// Compares on every seed from the first to the last, and says how many differ.
pub fn compare(first: u64, last: u64) -> u64 {
    let mut counts = Counts {
        made: Made::default(),
        tally: Tally::owing(&[Owed::Modes]),
        lent: [0; 4],
        words: [0; ON.len()],
        lengths: [0; REFUSED_LENGTHS.len()],
        other: 0,
        common: 0,
        off: 0,
        parted: 0,
    };
    let big = |_: &mut Random, seed, n| draw_big_modes(seed, n);
    each_seed((first, last), draw_modes, big, |g, seed, p, spoiled| {
        counts.call(g, seed, p, spoiled)
    });
    let told = counts.counts();
    tell(&told, last.saturating_sub(first), counts.made.differ)
}
