//! The four C functions without retired samples, and how calls are drawn for all five.
use crate::call::{spoil, Call, Spoiled};
use crate::made::Made;
use crate::reached::tell;
use oracle::draw::draw_big;
use oracle::problem::{Entry, Problem};
use oracle::random::Random;
use oracle::run::Answer;

/// The calls of every seed from the first to the last: of the problem drawn, often with its lists lent otherwise; of an accepted
/// one again with a smaller budget; now and then of one of many samples, which `big` draws.
pub fn each_seed(
    (first, last): (u64, u64),
    draw: fn(u64) -> Problem,
    big: fn(&mut Random, u64, usize) -> Problem,
    mut call: impl FnMut(&mut Random, u64, Problem, Spoiled) -> Answer,
) {
    for seed in first..=last {
        let g = &mut Random::new(!seed);
        let mut p = draw(seed);
        let spoiled = spoil(g, &mut p);
        let answer = call(g, seed, p.clone(), spoiled);
        if let Some(a) = answer.accepted().filter(|a| a.iterations > 1) {
            p.budget = 1 + g.below(a.iterations);
            call(g, seed, p, Spoiled::Nothing);
        }
        if seed % 500 == 0 {
            let n = g.pick(&[64, 64, 65, 100, 100, 127, 128, 200, 256, 512]);
            let p = big(g, seed, n);
            call(g, seed, p, Spoiled::Nothing);
        }
    }
}

fn tell_all(made: &Made, seeds: u64) -> u64 {
    let refusals: Vec<usize> = (1..=11).collect();
    tell(&made.counts(&Entry::DRAWN, &refusals), seeds, made.differ)
}

/// Compares on given problems, which have their places in the list for seeds. Says how many differ.
pub fn compare_given(problems: impl Iterator<Item = Problem>) -> u64 {
    let mut made = Made::default();
    for (k, p) in problems.enumerate() {
        let g = &mut Random::new(!(k as u64));
        made.call(k as u64, &mut Call::new(g, p, Spoiled::Nothing));
    }
    tell_all(&made, 0)
}

/// Compares on every seed from the first to the last, and says how many differ.
pub fn compare(first: u64, last: u64) -> u64 {
    let mut made = Made::default();
    let big = |g: &mut Random, seed, n| draw_big(seed, n, g.pick(&Entry::DRAWN), !g.one_in(4));
    each_seed((first, last), oracle::draw, big, |g, seed, p, spoiled| {
        made.call(seed, &mut Call::new(g, p, spoiled))
    });
    tell_all(&made, last.saturating_sub(first))
}
