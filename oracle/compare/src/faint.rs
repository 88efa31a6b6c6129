//! All five C functions on problems with weights near the support limit.
use crate::call::Call;
use crate::called::each_seed;
use crate::made::Made;
use crate::reached::tell;
use oracle::draw::{draw_big_faint, draw_faint};
use oracle::marks::{Owed, Tally};
use oracle::problem::Entry;
use oracle::random::Random;

/// Compares on every seed from the first to the last, and says how many differ.
pub fn compare(first: u64, last: u64) -> u64 {
    let mut made = Made::default();
    let mut tally = Tally::owing(&[Owed::Faint]);
    let big = |g: &mut Random, seed, n| {
        let entry = g.pick(&Entry::ALL);
        draw_big_faint(seed, n, entry, entry != Entry::Retired && g.coin())
    };
    each_seed((first, last), draw_faint, big, |g, seed, p, spoiled| {
        let mut call = Call::new(g, p, spoiled);
        let answer = made.call(seed, &mut call);
        if answer.accepted().is_some() {
            tally.add(&call.p, &answer);
        }
        answer
    });
    let mut counts = made.counts(&Entry::ALL, &[1, 2, 11]);
    for (name, owed, count) in tally.carried() {
        match owed {
            Owed::None => made.differ += count,
            _ => counts.push((count, name)),
        }
    }
    tell(&counts, last.saturating_sub(first), made.differ)
}
