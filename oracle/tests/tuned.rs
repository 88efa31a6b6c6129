//! The floor: what stands in for a curvature that isn't above 0, in both choices
//! and in the update.

use oracle::run::{canonical, solve_usual_at, Place};
use oracle::{draw, draw_retired, judge, solve, Accepted, Entry, Problem};

fn accepted(p: &Problem) -> Accepted {
    let answer = solve(p, true);
    answer.accepted().expect("accepted").clone()
}

/// Two samples without a curvature, one pass.
fn flat(labels: [u8; 2], floor: f64) -> Problem {
    let mut p = Problem::over(Entry::General, 2, &[0.0; 4]);
    p.labels = labels.to_vec();
    p.ceilings = vec![4.0; 2];
    p.floor = floor;
    p
}

/// Gradients of -1/4 and -1/4: both weights rise by half a unit over the floor.
#[test]
fn a_step_between_different_labels() {
    for (floor, weight) in [
        (1.0, 0.5),
        (0.5, 1.0),
        (0.25, 2.0),
        (0.1, 4.0),
        (1e-10, 4.0),
    ] {
        let mut p = flat([1, 0], floor);
        p.alphas = vec![0.0; 2];
        p.linear = vec![-0.25; 2];
        assert_eq!(accepted(&p).weights, [weight; 2], "{floor}");
    }
}

/// Gradients of -1/4 and 1/4: the first weight gains what the second loses.
#[test]
fn a_step_between_like_labels() {
    for nu_rule in [false, true] {
        for (floor, weight) in [(1.0, 0.5), (0.5, 1.0), (0.25, 2.0), (5e-324, 4.0)] {
            let mut p = flat([1, 1], floor);
            p.alphas = vec![0.0, 4.0];
            p.linear = vec![-0.25, 0.25];
            p.nu_rule = nu_rule;
            assert_eq!(accepted(&p).weights, [weight, 4.0 - weight], "{floor}");
        }
    }
}

#[test]
fn a_step_beside_a_retired_sample() {
    let mut p = Problem::over(Entry::Retired, 3, &[0.0; 9]);
    p.labels = vec![1, 1, 0];
    p.ceilings = vec![4.0; 3];
    p.alphas = vec![0.0, 4.0, 0.0];
    p.linear = vec![-0.25, 9.0, -0.25];
    p.retired = vec![0, 1, 0];
    p.floor = 0.25;
    assert_eq!(accepted(&p).home, [2.0, 0.0, 2.0]);
}

/// i is 0. With 1 the curvature is 0 and the gradients differ by 1, with 2 they
/// are 2 and 2: so 1 gains 1 over the floor, and 2 gains 2.
fn three(labels: u8, alphas: [f64; 3], linear: [f64; 3]) -> Problem {
    let matrix = [0.0, 0.0, 0.0, 0.0, 0.0, 0.0, 0.0, 0.0, 2.0];
    let mut p = Problem::over(Entry::General, 3, &matrix);
    p.labels = vec![labels; 3];
    p.ceilings = vec![4.0; 3];
    p.alphas = alphas.to_vec();
    p.linear = linear.to_vec();
    p
}

#[test]
fn the_choice_weighs_by_the_floor() {
    // those that may fall stand at 1, and 2 has a gradient of 2 from there
    let positive = three(1, [0.0, 1.0, 1.0], [-1.0, 0.0, -1.0]);
    let mut nu_positive = positive.clone();
    nu_positive.nu_rule = true;
    // those that may rise stand at 0
    let mut negative = three(0, [0.0; 3], [-1.0, 0.0, -1.0]);
    negative.labels[0] = 1;
    let mut nu_negative = three(0, [1.0, 0.0, 0.0], [1.0, 0.0, -1.0]);
    nu_negative.nu_rule = true;
    for (p, place) in [
        (positive, Place::CPositive),
        (negative, Place::CNegative),
        (nu_positive, Place::NuPositive),
        (nu_negative, Place::NuNegative),
    ] {
        for (floor, j) in [(1.0, 2), (0.75, 2), (0.25, 1), (1e-300, 1)] {
            let mut p = p.clone();
            p.floor = floor;
            let answer = solve(&p, true);
            let step = answer.accepted().expect("accepted").trace[0];
            assert_eq!((step.i, step.j), (0, j), "{place:?} {floor}");
            assert!(answer.events.floored[place as usize] > 0);
            // with the published one there, 1 is always chosen
            let kept = solve_usual_at(place, &p, true);
            assert_eq!(kept.accepted().expect("accepted").trace[0].j, 1);
        }
    }
}

/// A curvature above 0 is taken as it is, however small.
#[test]
fn a_curvature_above_zero_is_no_floor() {
    let mut p = Problem::over(Entry::General, 2, &[0.125, 0.0, 0.0, 0.125]);
    p.labels = vec![1, 0];
    p.ceilings = vec![4.0; 2];
    p.alphas = vec![0.0; 2];
    p.linear = vec![-0.25; 2];
    p.floor = 1.0;
    let answer = solve(&p, false);
    assert_eq!(answer.accepted().expect("accepted").weights, [2.0; 2]);
    assert_eq!(answer.events.floored, [0; 6]);
}

/// A general problem with everything that gradients are made of and compared
/// with 2^k times as large.
fn raised(p: &Problem, k: i32) -> Problem {
    let scale = 2f64.powi(k);
    let mut p = p.clone();
    for (at, x) in p.entries().into_iter().enumerate() {
        p.set_pattern(at, (x * scale).to_bits());
    }
    for x in p.linear.iter_mut().chain([&mut p.eps, &mut p.floor]) {
        *x *= scale;
    }
    p
}

/// Whether no number is so small or so large that the scale rounds it.
fn is_calm(p: &Problem) -> bool {
    let all = p.entries().into_iter();
    let all = all.chain(p.linear.clone()).chain(p.ceilings.clone());
    let all = all.chain(p.alphas.clone()).chain([p.eps]);
    all.map(f64::abs)
        .all(|x| x == 0.0 || (1e-100..1e100).contains(&x))
}

/// The published 1e-10 at one scale is another floor at another: each pass is the
/// same, and so is all else but for the scale.
#[test]
fn the_published_floor_at_another_scale() {
    let mut asked = [0; 6];
    for seed in 0..40_000 {
        let p = [draw, draw_retired][seed as usize % 2](seed);
        let general = matches!(p.entry, Entry::General | Entry::Retired);
        if !general || judge(&p).is_some() || !is_calm(&p) {
            continue;
        }
        let usual = solve(&p, true);
        for k in [-40, 1, 33] {
            let other = solve(&raised(&p, k), true);
            assert_eq!(usual.events, other.events, "seed {seed}");
            let (a, b) = match (usual.accepted(), other.accepted()) {
                (Some(a), Some(b)) => (a, b),
                _ => {
                    assert_eq!(usual.refusal(), other.refusal(), "seed {seed}");
                    continue;
                }
            };
            let words = |list: &[f64]| list.iter().map(|x| canonical(*x)).collect::<Vec<u64>>();
            let steps = |a: &Accepted| {
                let each = a.trace.iter().map(|s| (s.i, s.j, [s.weight_i, s.weight_j]));
                each.map(|(i, j, left)| (i, j, words(&left)))
                    .collect::<Vec<_>>()
            };
            assert_eq!(steps(a), steps(b), "seed {seed}");
            assert_eq!(words(&a.home), words(&b.home), "seed {seed}");
            let scale = 2f64.powi(k);
            assert_eq!(canonical(a.rho * scale), canonical(b.rho), "seed {seed}");
        }
        for (count, floored) in asked.iter_mut().zip(usual.events.floored) {
            *count += u64::from(floored > 0);
        }
    }
    assert!(asked.iter().all(|count| *count > 300), "{asked:?}");
}
