//! Retired samples: the published solver runs on the problem without them, and
//! its answer is put back at the old numbers.

use crate::problem::{Entry, Problem};
use crate::run::{solve_judged, Accepted, Answer, Outcome};

/// The answer to a problem of the retired entry that passed the judge. Where
/// everybody is retired the solver runs on no sample at all: it finds no pair,
/// sums nothing for obj, and rho and r are half of infinity less infinity.
pub(crate) fn solve(p: &Problem, trace: bool) -> Answer {
    let kept = kept(p);
    let mut answer = solve_judged(&without(p, &kept), trace);
    if let Outcome::Accepted(a) = &mut answer.outcome {
        put_back(p, &kept, a);
    }
    answer
}

/// The samples that aren't retired.
pub fn kept(p: &Problem) -> Vec<usize> {
    (0..p.retired.len())
        .filter(|k| p.retired[*k] == 0)
        .collect()
}

/// The general problem of the kept samples alone, with shrinking off.
pub fn without(p: &Problem, kept: &[usize]) -> Problem {
    let n = p.n as usize;
    let all = p.entries();
    let pairs = kept.iter().flat_map(|c| kept.iter().map(move |r| (c, r)));
    let entries: Vec<f64> = pairs.map(|(c, r)| all[c * n + r]).collect();
    let of = |list: &[f64]| kept.iter().map(|k| list[*k]).collect();
    let mut rest = Problem::over(Entry::General, kept.len(), &entries);
    rest.labels = kept.iter().map(|k| p.labels[*k]).collect();
    rest.ceilings = of(&p.ceilings);
    rest.alphas = of(&p.alphas);
    rest.linear = of(&p.linear);
    rest.nu_rule = p.nu_rule;
    rest.eps = p.eps;
    rest.budget = p.budget;
    rest.floor = p.floor;
    rest
}

/// The answer for the kept samples becomes one for all. A retired place has
/// +0 everywhere, but for the label and the ceiling that are lent for it. A +0
/// is no support, so the count stays.
fn put_back(p: &Problem, kept: &[usize], a: &mut Accepted) {
    let n = p.n as usize;
    for list in [
        &mut a.crate_reading,
        &mut a.home,
        &mut a.weights,
        &mut a.gradient,
        &mut a.fixed,
        &mut a.linear,
    ] {
        let mut all = vec![0.0; n];
        for (k, x) in kept.iter().zip(list.iter()) {
            all[*k] = *x;
        }
        *list = all;
    }
    a.order = (0..n).collect();
    a.ceilings = p.ceilings.clone();
    a.labels = p.labels.iter().map(|y| *y == 1).collect();
    for step in &mut a.trace {
        step.i = kept[step.i];
        step.j = kept[step.j];
    }
}
