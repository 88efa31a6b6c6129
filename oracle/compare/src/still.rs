//! The C functions with shrinking off, which train without an order table. Beside an accepted call the first trainer runs on the same
//! problem: through the general function, whose answer is finished here as the entry's fit does, and by position.
use crate::call::{Call, Spoiled, Tuning};
use crate::called::each_seed;
use crate::made::Made;
use crate::reached::tell;
use crate::trial;
use oracle::draw::{draw_big_still, draw_still};
use oracle::general::{finished, general};
use oracle::marks::{Owed, Tally};
use oracle::problem::{Entry, Problem, USUAL_FLOOR};
use oracle::random::Random;
use oracle::run::Answer;

struct Counts {
    made: Made,
    tally: Tally,
    /// Calls of a function with a tuning, and those with a floor of their own.
    tuned: u64,
    floors: u64,
    /// Accepted calls made again through the general function, and their passes.
    first: u64,
    passes: u64,
    /// Those of them that were run by position, too.
    by_position: u64,
    /// Refused ones made again with shrinking on.
    refused: u64,
}

impl Counts {
    /// Makes the call, and those beside it.
    fn call(&mut self, g: &mut Random, seed: u64, p: Problem, spoiled: Spoiled) -> Answer {
        let usual = p.floor == USUAL_FLOOR;
        let lends = match usual {
            true => g.pick(&[
                Tuning::Without,
                Tuning::Without,
                Tuning::Empty,
                Tuning::Floor,
            ]),
            false => Tuning::Floor,
        };
        let mut call = Call::tuned(g, p, spoiled, lends);
        let answer = self.made.call(seed, &mut call);
        self.tuned += u64::from(lends != Tuning::Without);
        self.floors += u64::from(!usual);
        self.tally.add(&call.p, &answer);
        let beside = match answer.accepted() {
            Some(_) => self.first(g, &call, lends),
            None if spoiled == Spoiled::Nothing => self.refused(g, &call, lends),
            None => None,
        };
        self.made.tell(seed, &call, beside);
        answer
    }

    /// The first trainer on the same problem: where it parts from the Rust or from the call, in a word.
    fn first(&mut self, g: &mut Random, call: &Call, lends: Tuning) -> Option<&'static str> {
        let p = &call.p;
        let n = p.n as usize;
        let mut other = Call::tuned(g, general(p), Spoiled::Nothing, lends);
        let (answer, differs) = other.compare();
        self.first += 1;
        self.passes += answer.accepted().map_or(0, |a| a.iterations);
        let parted = finished(p, &other.written(n)) != call.written(n);
        differs
            .map(|_| "the first trainer parts from the Rust")
            .or(parted.then_some("the trainers part"))
            .or_else(|| self.by_position(&other.p, &answer))
    }

    /// The first trainer by position, which has the usual floor.
    fn by_position(&mut self, p: &Problem, answer: &Answer) -> Option<&'static str> {
        if p.floor != USUAL_FLOOR {
            return None;
        }
        self.by_position += 1;
        trial::differs(p, answer, &trial::run(p))
    }

    /// With shrinking on the first trainer's function is refused with the same number and index.
    fn refused(&mut self, g: &mut Random, call: &Call, lends: Tuning) -> Option<&'static str> {
        let mut p = call.p.clone();
        p.shrinking = true;
        let mut other = Call::tuned(g, p, Spoiled::Nothing, lends);
        let (_, differs) = other.compare();
        self.refused += 1;
        let parted = other.written(0) != call.written(0);
        differs.or(parted.then_some("the refusals part"))
    }

    fn counts(&mut self) -> Vec<(u64, String)> {
        let refusals = [1, 2, 3, 4, 5, 8, 9, 10, 14];
        let mut all = self.made.counts(&Entry::STILL, &refusals);
        for (name, owed, count) in self.tally.carried() {
            match owed {
                Owed::None => self.made.differ += count,
                _ => all.push((count, name)),
            }
        }
        let rest = [
            (self.tuned, "through a function with a tuning"),
            (self.floors, "with a floor that isn't 1e-10"),
            (
                self.first,
                "made again by the first trainer: general function",
            ),
            (self.passes, "passes of those"),
            (self.by_position, "of them run by position, too"),
            (self.refused, "refused ones made again with shrinking on"),
        ];
        all.extend(rest.map(|(count, name)| (count, name.to_string())));
        all
    }
}

/// Compares on every seed from the first to the last, and says how many differ.
pub fn compare(first: u64, last: u64) -> u64 {
    let mut counts = Counts {
        made: Made::default(),
        tally: Tally::owing(&[Owed::Still]),
        tuned: 0,
        floors: 0,
        first: 0,
        passes: 0,
        by_position: 0,
        refused: 0,
    };
    let big = |_: &mut Random, seed, n| draw_big_still(seed, n);
    each_seed((first, last), draw_still, big, |g, seed, p, spoiled| {
        counts.call(g, seed, p, spoiled)
    });
    let told = counts.counts();
    tell(&told, last.saturating_sub(first), counts.made.differ)
}
