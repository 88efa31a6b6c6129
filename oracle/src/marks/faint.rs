//! What answers with weights near the support limit reach.

use crate::draw::{PAST_SUPPORT, SHORT_OF_SUPPORT, TINY};
use crate::problem::{Entry, SUPPORT_LIMIT};
use crate::run::Accepted;

type Test = fn(&Accepted) -> bool;
type Rule = fn(f64) -> bool;

/// Marks of the home reading. A faint weight isn't 0 and is at most the limit.
pub(super) const FAINT: &[(&str, Test)] = &[
    ("100·2^-52 itself", |a| has(a, SUPPORT_LIMIT)),
    ("-100·2^-52 itself", |a| has(a, -SUPPORT_LIMIT)),
    ("the next f64 above 100·2^-52", |a| has(a, PAST_SUPPORT)),
    ("minus the next f64 above 100·2^-52", |a| {
        has(a, -PAST_SUPPORT)
    }),
    ("the next f64 below 100·2^-52", |a| {
        has(a, SHORT_OF_SUPPORT)
    }),
    ("minus the next f64 below 100·2^-52", |a| {
        has(a, -SHORT_OF_SUPPORT)
    }),
    ("5e-324", |a| has(a, TINY)),
    ("-5e-324", |a| has(a, -TINY)),
    ("1e-15", |a| has(a, 1e-15)),
    ("-1e-15", |a| has(a, -1e-15)),
    ("NaN", |a| a.home.iter().any(|x| x.is_nan())),
    ("infinity", |a| has(a, f64::INFINITY)),
    ("minus infinity", |a| has(a, f64::NEG_INFINITY)),
    ("faint weights, none that counts", |a| {
        a.support == 0 && a.home.iter().any(|x| faint(*x))
    }),
    (
        "a faint weight where the crate's reading has one that counts",
        |a| {
            let mut both = a.home.iter().zip(&a.crate_reading);
            both.any(|(x, y)| faint(*x) && supports(*y))
        },
    ),
];

/// Rules that one could count by, with the entries whose answers can tell them
/// from the one that holds. Weights below 0 and NaN come by a sign and by r.
pub(super) const WRONG: &[(&str, &[Entry], Rule)] = &[
    ("the limit counted", &Entry::ALL, |x| {
        x.abs() >= SUPPORT_LIMIT
    }),
    (
        "the limit were a unit in the last place more",
        &Entry::ALL,
        |x| x.abs() > PAST_SUPPORT,
    ),
    ("all but zeros counted", &Entry::ALL, |x| x != 0.0),
    ("NaN counted", &[Entry::Nu], |x| supports(x) || x.is_nan()),
    (
        "weights below 0 didn't count",
        &[Entry::C, Entry::Nu],
        |x| x > SUPPORT_LIMIT,
    ),
];

fn has(a: &Accepted, x: f64) -> bool {
    a.home.iter().any(|y| *y == x)
}

fn supports(x: f64) -> bool {
    x.abs() > SUPPORT_LIMIT
}

fn faint(x: f64) -> bool {
    x != 0.0 && x.abs() <= SUPPORT_LIMIT
}

/// Whether a list has another count by that rule than the answer says.
pub(super) fn differs(a: &Accepted, list: &[f64], rule: Rule) -> bool {
    list.iter().filter(|x| rule(**x)).count() as u64 != a.support
}

/// Whether the crate's reading has another count than home.
pub(super) fn readings_part(a: &Accepted) -> bool {
    differs(a, &a.crate_reading, supports)
}
