//! The refusals that are given before anything runs.

use crate::problem::{Entry, Problem, BAD_FLOOR, LIMIT, LIMIT_BITS, MOST_PASSES, MOST_SAMPLES};

/// A refusal: its number, and the first offending index for 3 to 7, else 0.
#[derive(Clone, Copy, Debug, PartialEq, Eq)]
pub struct Refusal {
    pub number: u64,
    pub index: u64,
}

/// The first refusal that applies, in the order 1 to 10, 14, 12, 13.
pub fn judge(p: &Problem) -> Option<Refusal> {
    p.entry.judged().find_map(|number| refused(p, number))
}

/// Every number but 11 that applies by itself, in that order.
pub fn faults(p: &Problem) -> Vec<u64> {
    p.entry
        .judged()
        .filter(|number| refused(p, *number).is_some())
        .collect()
}

/// Whether the refusal of that number applies, whatever the others say.
///
/// Lists are scanned as they are lent, so each number can be asked for alone
/// even where lengths are wrong.
fn refused(p: &Problem, number: u64) -> Option<Refusal> {
    let index = match number {
        1 => whole(p.n == 0 || p.n > MOST_SAMPLES),
        2 => whole(!sized(p)),
        3 => first(p.patterns(), |x| magnitude(x) > LIMIT_BITS),
        4 => first(p.labels.iter(), |y| bad_byte(**y)),
        5 => match p.entry {
            Entry::C => first([p.cpos, p.cneg].iter(), |c| bad_ceiling(**c)),
            _ => first(p.ceilings.iter(), |c| bad_ceiling(**c)),
        },
        6 => first(p.alphas.iter().zip(&p.ceilings), |(a, c)| {
            a.is_nan() || **a < 0.0 || *a > *c
        }),
        7 => first(p.linear.iter(), |x| !x.is_finite()),
        8 => whole(!p.eps.is_finite() || p.eps.is_sign_negative()),
        9 => whole(bad_share(p.nu)),
        10 => whole(p.budget == 0 || p.budget > MOST_PASSES),
        12 => whole(p.retired.iter().any(|b| bad_byte(*b))),
        13 => whole(p.shrinking),
        BAD_FLOOR => whole(bad_share(p.floor)),
        _ => None,
    };
    index.map(|index| Refusal { number, index })
}

/// The index of a refusal that isn't about one place of a list.
fn whole(applies: bool) -> Option<u64> {
    applies.then_some(0)
}

fn first<T>(items: impl Iterator<Item = T>, bad: impl Fn(&T) -> bool) -> Option<u64> {
    items
        .enumerate()
        .find(|(_, x)| bad(x))
        .map(|(k, _)| k as u64)
}

fn magnitude(pattern: &u64) -> u64 {
    pattern & !(1 << 63)
}

fn bad_byte(b: u8) -> bool {
    b > 1
}

fn bad_ceiling(c: f64) -> bool {
    c.is_nan() || c <= 0.0 || c > LIMIT
}

/// Of what must be above 0 and at most 1.
fn bad_share(x: f64) -> bool {
    x.is_nan() || x <= 0.0 || x > 1.0
}

/// Whether every list that the entry takes is as long as n asks. In 128 bits,
/// so that no n wraps round to a length that seems right.
fn sized(p: &Problem) -> bool {
    let n = u128::from(p.n);
    let is_n = |len: usize| len as u128 == n;
    let floats = [&p.ceilings, &p.alphas, &p.linear];
    let inputs = (!p.entry.has_labels() || is_n(p.labels.len()))
        && (!p.entry.has_lists() || floats.iter().all(|l| is_n(l.len())))
        && (p.entry != Entry::Retired || is_n(p.retired.len()));
    // 8·n·n is below 2^128 only for n below 2^62; no list is longer than that
    let square = n.checked_mul(n).and_then(|q| q.checked_mul(8));
    let room = |len: u64, each: u128| u128::from(len) >= each * n;
    inputs
        && square == Some(p.matrix.len() as u128)
        && room(p.crate_len, 1)
        && room(p.home_len, 1)
        && room(p.scratch_floats, 7)
        && room(p.scratch_numbers, 2)
        && room(p.scratch_bytes, 1)
}
