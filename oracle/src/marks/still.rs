//! What runs with shrinking off reach, of the entries that then train without an
//! order table.

use crate::problem::{Entry, Problem, USUAL_FLOOR};
use crate::run::{solve, Accepted, Answer, Step};

type Test = fn(&Still) -> bool;

/// An accepted problem of 16 samples or more with its steps, and what stood
/// there before the last of them.
pub(super) struct Still<'a> {
    p: &'a Problem,
    w: &'a Answer,
    a: &'a Accepted,
    steps: Vec<Step>,
    before: Option<Accepted>,
}

/// How many are looked at side by side.
const LANES: usize = 8;

impl<'a> Still<'a> {
    pub(super) fn of(p: &'a Problem, w: &'a Answer) -> Option<Still<'a>> {
        let a = w.accepted()?;
        if p.shrinking || p.n < 16 || !Entry::STILL.contains(&p.entry) {
            return None;
        }
        let with = |budget: u64, trace: bool| {
            let mut q = p.clone();
            q.lend_exactly();
            q.budget = budget;
            solve(&q, trace).accepted().cloned()
        };
        let mut still = Still {
            p,
            w,
            a,
            steps: Vec::new(),
            before: None,
        };
        if a.iterations > 0 {
            still.steps = with(a.iterations, true)?.trace;
        }
        if a.iterations > 1 {
            still.before = with(a.iterations - 1, false);
        }
        Some(still)
    }

    /// A test of the gradients before the last step and of that step.
    fn last(&self, test: impl Fn(&Accepted, &Step) -> bool) -> bool {
        match (&self.before, self.steps.last()) {
            (Some(before), Some(step)) => test(before, step),
            _ => false,
        }
    }

    /// Whether another sample has the label, gradient and weight that k had.
    fn has_equal(&self, before: &Accepted, k: usize) -> bool {
        let same = |list: &[f64], m: usize| list[m].to_bits() == list[k].to_bits();
        (0..before.gradient.len()).any(|m| {
            let label = before.labels[m] == before.labels[k];
            m != k && label && same(&before.gradient, m) && same(&before.weights, m)
        })
    }

    fn any_step(&self, test: impl Fn(f64) -> bool) -> bool {
        self.steps.iter().map(gap).any(test)
    }
}

/// How far the two of a step were apart.
fn gap(step: &Step) -> f64 {
    let [x, y] = step.given.gradients;
    if step.given.agree {
        (x - y).abs()
    } else {
        (x + y).abs()
    }
}

pub(super) const STILL: &[(&str, Test)] = &[
    ("n 16", |s| s.p.n == 16),
    ("n 17 to 23", |s| (17..24).contains(&s.p.n)),
    ("n 24", |s| s.p.n == 24),
    ("n 25 to 31", |s| (25..32).contains(&s.p.n)),
    ("n 32", |s| s.p.n == 32),
    ("n 33 to 63", |s| (33..64).contains(&s.p.n)),
    ("n 64", |s| s.p.n == 64),
    ("n above 64", |s| s.p.n > 64),
    ("C", |s| s.p.entry == Entry::C),
    ("nu", |s| s.p.entry == Entry::Nu),
    ("one-class", |s| s.p.entry == Entry::OneClass),
    ("above 100 passes", |s| s.a.iterations > 100),
    ("a gradient NaN", |s| {
        s.a.gradient.iter().any(|x| x.is_nan())
    }),
    ("some gradients NaN, others numbers", |s| {
        let nan = s.a.gradient.iter().filter(|x| x.is_nan()).count();
        nan > 0 && s.a.gradient.iter().any(|x| x.is_finite())
    }),
    ("a gradient infinite", |s| {
        s.a.gradient.contains(&f64::INFINITY)
    }),
    ("a gradient minus infinity", |s| {
        s.a.gradient.contains(&f64::NEG_INFINITY)
    }),
    ("a step among NaN gradients", |s| {
        s.last(|before, _| before.gradient.iter().any(|x| x.is_nan()))
    }),
    ("a first eight places behind a NaN", |s| {
        s.last(|before, step| {
            let upper = step.i % (2 * LANES) >= LANES;
            upper && before.gradient[step.i - LANES].is_nan()
        })
    }),
    ("a first eight places before a NaN", |s| {
        s.last(|before, step| {
            let lower = step.i % (2 * LANES) < LANES;
            let other = before.gradient.get(step.i + LANES);
            lower && other.map_or(false, |x| x.is_nan())
        })
    }),
    ("a step among infinite gradients", |s| {
        s.last(|before, _| before.gradient.iter().any(|x| x.is_infinite()))
    }),
    ("a first that has an equal", |s| {
        s.last(|before, step| s.has_equal(before, step.i))
    }),
    ("a second that has an equal", |s| {
        s.last(|before, step| s.has_equal(before, step.j))
    }),
    ("a step over an infinite gap", |s| {
        s.any_step(f64::is_infinite)
    }),
    ("a gap whose square is infinite", |s| {
        s.any_step(|d| d.is_finite() && (d * d).is_infinite())
    }),
    ("a gap whose square vanishes", |s| {
        s.any_step(|d| d > 0.0 && d * d == 0.0)
    }),
    ("a gap whose square is subnormal", |s| {
        s.any_step(|d| (d * d).is_subnormal())
    }),
    ("a step of curvature at most 0", |s| {
        s.steps.iter().any(|step| step.given.curvature() <= 0.0)
    }),
    ("asked for a floor that isn't 1e-10", |s| {
        s.p.floor != USUAL_FLOOR && s.w.events.floored.iter().any(|k| *k > 0)
    }),
    ("rho NaN", |s| s.a.rho.is_nan()),
    ("rho infinite", |s| s.a.rho.is_infinite()),
    ("zero pair", |s| s.w.zero_pair),
];
