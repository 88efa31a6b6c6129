//! What a step reaches.

use super::is_negative_zero;
use crate::run::Given;

type Test = fn(&Given, [f64; 2]) -> bool;

/// Marks of a step by what it was given and what it left. A weight is brought
/// to an end where it wasn't there before. With false stand those that no step
/// of a run carries.
pub const STEP: &[(&str, bool, Test)] = &[
    ("labels agree", true, |s, _| s.agree),
    ("labels differ", true, |s, _| !s.agree),
    ("ceilings differ", true, |s, _| {
        s.ceilings[0] != s.ceilings[1]
    }),
    ("curvature above 0", true, |s, _| s.curvature() > 0.0),
    ("curvature 0", true, |s, _| s.curvature() == 0.0),
    ("curvature below 0", true, |s, _| s.curvature() < 0.0),
    ("labels agree, i brought to 0", true, |s, l| {
        s.agree && to_zero(s, l, 0)
    }),
    ("labels agree, j brought to 0", true, |s, l| {
        s.agree && to_zero(s, l, 1)
    }),
    ("labels agree, i brought to its ceiling", true, |s, l| {
        s.agree && to_ceiling(s, l, 0)
    }),
    ("labels agree, j brought to its ceiling", true, |s, l| {
        s.agree && to_ceiling(s, l, 1)
    }),
    ("labels differ, i brought to 0", true, |s, l| {
        !s.agree && to_zero(s, l, 0)
    }),
    ("labels differ, j brought to 0", true, |s, l| {
        !s.agree && to_zero(s, l, 1)
    }),
    ("labels differ, i brought to its ceiling", true, |s, l| {
        !s.agree && to_ceiling(s, l, 0)
    }),
    ("labels differ, j brought to its ceiling", true, |s, l| {
        !s.agree && to_ceiling(s, l, 1)
    }),
    ("neither brought to an end", true, |s, l| {
        !(0..2).any(|k| to_zero(s, l, k) || to_ceiling(s, l, k))
    }),
    ("a weight outside its range", true, |s, _| {
        (0..2).any(|k| s.weights[k] < 0.0 || s.weights[k] > s.ceilings[k])
    }),
    ("a gradient infinite", true, |s, _| {
        s.gradients.iter().any(|x| x.is_infinite())
    }),
    ("-0 left", true, |_, l| {
        l.iter().any(|x| is_negative_zero(*x))
    }),
    ("a weight left outside its range", true, |s, l| {
        (0..2).any(|k| l[k] < 0.0 || l[k] > s.ceilings[k])
    }),
    ("curvature infinite", false, |s, _| {
        s.curvature().is_infinite()
    }),
    ("curvature NaN", false, |s, _| s.curvature().is_nan()),
    ("a weight NaN", false, |s, _| {
        s.weights.iter().any(|x| x.is_nan())
    }),
    ("a ceiling NaN", false, |s, _| {
        s.ceilings.iter().any(|x| x.is_nan())
    }),
    ("a gradient NaN", false, |s, _| {
        s.gradients.iter().any(|x| x.is_nan())
    }),
    ("a ceiling below 0", false, |s, _| {
        s.ceilings.iter().any(|x| *x < 0.0)
    }),
    ("a ceiling infinite", false, |s, _| {
        s.ceilings.iter().any(|x| x.is_infinite())
    }),
    ("both NaN left", false, |_, l| l.iter().all(|x| x.is_nan())),
    ("one NaN left", false, |_, l| l[0].is_nan() != l[1].is_nan()),
    ("an infinity left", false, |_, l| {
        l.iter().any(|x| x.is_infinite())
    }),
];

fn to_zero(s: &Given, left: [f64; 2], k: usize) -> bool {
    s.weights[k] != 0.0 && left[k] == 0.0
}

fn to_ceiling(s: &Given, left: [f64; 2], k: usize) -> bool {
    s.weights[k] != s.ceilings[k] && left[k] == s.ceilings[k]
}
