//! Single steps: what the trace has of each, and the published step on numbers
//! that are given to it.

use oracle::draw::NANS;
use oracle::marks::STEP;
use oracle::run::{canonical, Step};
use oracle::{draw, draw_faint, draw_retired, draw_step, solve, step, Entry, Given, Problem};

/// Calls `f` with each accepted problem of some draws, its passes, and whether
/// samples moved.
fn each_run(mut f: impl FnMut(&Problem, &[Step], bool)) {
    for seed in 0..3000 {
        for draw in [draw, draw_retired, draw_faint] {
            let p = draw(seed);
            let answer = solve(&p, true);
            if let Some(a) = answer.accepted() {
                f(&p, &a.trace, answer.events.swaps > 0);
            }
        }
    }
}

#[test]
fn a_step_by_itself_leaves_what_the_run_left() {
    each_run(|_, trace, _| {
        for s in trace {
            let left = [s.weight_i, s.weight_j].map(canonical);
            assert_eq!(step(&s.given).map(canonical), left, "{s:?}");
        }
    });
}

/// The ceilings are those of the places, in runs that move samples too. The
/// rest is looked up where nothing moves.
#[test]
fn what_a_step_is_given_stands_at_its_places() {
    let mut moving = 0;
    each_run(|p, trace, moved| {
        if p.entry != Entry::General {
            return;
        }
        moving += u64::from(moved);
        let n = p.n as usize;
        let entries = p.entries();
        let mut weights = p.alphas.clone();
        for s in trace {
            let of = |list: &[f64]| [list[s.i], list[s.j]];
            assert_eq!(s.given.ceilings, of(&p.ceilings), "{s:?}");
            if moved {
                continue;
            }
            let agree = p.labels[s.i] == p.labels[s.j];
            let entry = entries[s.i * n + s.j];
            let diagonals = [s.i, s.j].map(|k| entries[k * n + k]);
            assert_eq!(s.given.weights, of(&weights), "{s:?}");
            assert_eq!(s.given.diagonals, diagonals, "{s:?}");
            assert_eq!(s.given.entry, if agree { entry } else { -entry }, "{s:?}");
            assert_eq!(s.given.agree, agree, "{s:?}");
            (weights[s.i], weights[s.j]) = (s.weight_i, s.weight_j);
        }
    });
    assert!(moving > 0);
}

/// Steps by hand, to the bit.
#[test]
fn known_steps() {
    let given = Given {
        weights: [0.0, 0.0],
        ceilings: [1.0, 1.0],
        gradients: [-1.0, -1.0],
        diagonals: [1.0, 1.0],
        entry: 0.0,
        agree: false,
    };
    let infinity = f64::INFINITY;
    for (given, left) in [
        (given, [1.0, 1.0]),
        // at most 0 becomes 1e-10
        (
            Given {
                diagonals: [0.0, 0.0],
                gradients: [-1e-11, 0.0],
                ..given
            },
            [1e-11 / 1e-10; 2],
        ),
        // NaN stays
        (
            Given {
                diagonals: [infinity, -infinity],
                ..given
            },
            [f64::NAN; 2],
        ),
        // the difference 0 is negated for the second
        (
            Given {
                weights: [0.5, 0.5],
                gradients: [1.0, 1.0],
                ..given
            },
            [0.0, -0.0],
        ),
        // each ceiling is its own weight's
        (
            Given {
                weights: [0.5, 1.0],
                ceilings: [1.0, 2.0],
                gradients: [-1.0, 3.0],
                agree: true,
                ..given
            },
            [1.0, 0.5],
        ),
        (
            Given {
                weights: [0.5, 1.0],
                ceilings: [2.0, 1.0],
                gradients: [-1.0, 3.0],
                agree: true,
                ..given
            },
            [1.5, 0.0],
        ),
        // the entry counts twice, against the sign of the labels
        (
            Given {
                gradients: [-0.5, -0.5],
                entry: 0.5,
                ..given
            },
            [1.0 / 3.0; 2],
        ),
    ] {
        assert_eq!(
            step(&given).map(canonical),
            left.map(canonical),
            "{given:?}"
        );
    }
}

#[test]
fn chosen_numbers_reach_every_kind() {
    let mut marks = vec![0; STEP.len()];
    let mut patterns = [false; NANS.len()];
    for seed in 0..20_000 {
        let given = draw_step(seed);
        let left = step(&given);
        for (count, (_, _, test)) in marks.iter_mut().zip(STEP) {
            *count += u64::from(test(&given, left));
        }
        for (seen, nan) in patterns.iter_mut().zip(NANS) {
            *seen |= given.weights[0].to_bits() == nan;
        }
    }
    for (count, (name, _, _)) in marks.into_iter().zip(STEP) {
        assert!(count >= 20, "{count} of 20000: {name}");
    }
    assert_eq!(patterns, [true; NANS.len()]);
}
