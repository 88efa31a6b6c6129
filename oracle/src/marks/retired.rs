//! What problems with retired samples reach.

use super::{is_negative_zero, told};
use crate::judge::{faults, Refusal};
use crate::problem::{Entry, Problem, LIMIT};
use crate::run::{solve, Accepted, Answer, Reason};

type Test = fn(&Problem, &Answer) -> bool;

/// Marks of the retired entry's problems. Those that don't begin with
/// 'refused' are of accepted ones, and where they don't speak of how many are
/// retired, somebody is.
pub const RETIRED: &[(&str, Test)] = &[
    ("nobody retired", |p, w| left(p, w, |r, _| r == 0)),
    ("one retired", |p, w| left(p, w, |r, k| r == 1 && k > 0)),
    ("several retired, several left", |p, w| {
        left(p, w, |r, k| r > 1 && k > 1)
    }),
    ("one left", |p, w| left(p, w, |r, k| r > 0 && k == 1)),
    ("everybody retired", |p, w| left(p, w, |_, k| k == 0)),
    ("everybody retired, nu rule", |p, w| {
        p.nu_rule && left(p, w, |_, k| k == 0)
    }),
    ("nu rule", |p, w| p.nu_rule && some_retired(p, w)),
    ("no pass", |p, w| run(p, w, |a| a.iterations == 0)),
    ("above 100 passes", |p, w| run(p, w, |a| a.iterations > 100)),
    ("ran out of budget", |p, w| {
        run(p, w, |a| a.reason == Reason::Iterations)
    }),
    ("n above 24", |p, w| p.n > 24 && some_retired(p, w)),
    ("lent zeros for all retired", |p, w| {
        some_retired(p, w) && retired_entries(p).all(|x| x == 0.0)
    }),
    ("lent 2^1000 for a retired", |p, w| {
        some_retired(p, w) && retired_entries(p).any(|x| x.abs() == LIMIT)
    }),
    ("lent the largest linear term for a retired", |p, w| {
        any_retired(p, w, |k| p.linear[k].abs() == f64::MAX)
    }),
    ("lent a start alpha above 0 for a retired", |p, w| {
        any_retired(p, w, |k| p.alphas[k] > 0.0)
    }),
    ("gradient of a retired infinite at the start", |p, w| {
        any_retired(p, w, |k| gradient(p, &p.alphas, k).is_infinite())
    }),
    ("gradient of a retired NaN at the start", |p, w| {
        any_retired(p, w, |k| gradient(p, &p.alphas, k).is_nan())
    }),
    ("gradient of a retired becomes infinite or NaN", |p, w| {
        let finite = |of: &[f64], k| gradient(p, of, k).is_finite();
        run(p, w, |a| {
            any_retired(p, w, |k| finite(&p.alphas, k) && !finite(&a.weights, k))
        })
    }),
    ("another answer if nobody were passed over", |p, w| {
        run(p, w, |a| passing_tells(p, w, a))
    }),
    ("rho NaN with somebody left", |p, w| {
        run(p, w, |a| a.rho.is_nan()) && left(p, w, |_, k| k > 0)
    }),
    ("rho infinite", |p, w| run(p, w, |a| a.rho.is_infinite())),
    ("obj NaN", |p, w| run(p, w, |a| a.obj.is_nan())),
    ("weight -0", |p, w| {
        run(p, w, |a| a.weights.iter().any(|x| is_negative_zero(*x)))
    }),
    ("zero pair", |p, w| w.zero_pair && some_retired(p, w)),
    ("refused for what a retired has", |p, w| {
        w.refusal().map_or(false, |r| at_retired(p, r))
    }),
    ("refused with 10 where 12 holds too", |p, w| {
        refused_before(p, w, 10, 12)
    }),
    ("refused with 10 where 13 holds too", |p, w| {
        refused_before(p, w, 10, 13)
    }),
    ("refused with 12 where 13 holds too", |p, w| {
        refused_before(p, w, 12, 13)
    }),
];

/// Of an accepted problem: a test of how many are retired and how many left.
fn left(p: &Problem, w: &Answer, test: impl Fn(usize, usize) -> bool) -> bool {
    let retired = p.retired.iter().filter(|b| **b == 1).count();
    w.accepted().is_some() && test(retired, p.retired.len() - retired)
}

/// Of an accepted problem: a test of some retired sample.
fn any_retired(p: &Problem, w: &Answer, test: impl Fn(usize) -> bool) -> bool {
    w.accepted().is_some() && (0..p.retired.len()).any(|k| p.retired[k] == 1 && test(k))
}

fn some_retired(p: &Problem, w: &Answer) -> bool {
    any_retired(p, w, |_| true)
}

/// Of an accepted problem with retired samples: a test of its answer.
fn run(p: &Problem, w: &Answer, test: impl Fn(&Accepted) -> bool) -> bool {
    some_retired(p, w) && w.accepted().map_or(false, test)
}

/// The kernel rows and columns of the retired samples.
fn retired_entries(p: &Problem) -> impl Iterator<Item = f64> + '_ {
    let n = p.n as usize;
    let of_retired = move |k: usize| p.retired[k / n] == 1 || p.retired[k % n] == 1;
    p.patterns()
        .enumerate()
        .filter(move |(k, _)| of_retired(*k))
        .map(|(_, pattern)| f64::from_bits(pattern))
}

/// The gradient that a run would keep at retired place k for these weights of
/// the others.
fn gradient(p: &Problem, weights: &[f64], k: usize) -> f64 {
    let n = p.n as usize;
    let others = (0..n).filter(|j| p.retired[*j] == 0 && weights[*j] != 0.0);
    others.fold(0.0, |sum, j| {
        let at = 8 * (j * n + k);
        let x = f64::from_le_bytes(p.matrix[at..at + 8].try_into().unwrap());
        let alike = p.labels[j] == p.labels[k];
        sum + weights[j] * if alike { x } else { -x }
    })
}

/// Whether the answer would be another with the retired samples left in, at
/// alpha 0 with linear term 0.
fn passing_tells(p: &Problem, w: &Answer, a: &Accepted) -> bool {
    let mut q = p.clone();
    q.lend_exactly();
    q.entry = Entry::General;
    q.budget = p.budget.min(a.iterations + 1);
    for k in (0..p.retired.len()).filter(|k| p.retired[*k] == 1) {
        q.alphas[k] = 0.0;
        q.linear[k] = 0.0;
    }
    told(&solve(&q, false)) != told(w)
}

/// Whether the offending index is a retired sample's.
fn at_retired(p: &Problem, r: Refusal) -> bool {
    let at = |k: u64| p.retired.get(k as usize) == Some(&1);
    match r.number {
        3 => at(r.index / p.n) || at(r.index % p.n),
        4..=7 => at(r.index),
        _ => false,
    }
}

pub(super) fn refused_before(p: &Problem, w: &Answer, number: u64, later: u64) -> bool {
    w.refusal().map_or(false, |r| r.number == number) && faults(p).contains(&later)
}
