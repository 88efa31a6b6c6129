//! The worked examples, and the bits behind their words.

use oracle::run::{solve_keeping, Kept};
use oracle::worked::{problems, worked};
use oracle::{solve, Entry, Problem, Reason};

#[test]
fn every_worked_example_holds() {
    let all = worked();
    assert_eq!(all.len(), 33);
    for example in all {
        assert_eq!(example.expected, example.came, "{}", example.given);
    }
}

#[test]
fn the_first_worked_run_to_the_bit() {
    let answer = solve(&problems()[0], true);
    let a = answer.accepted().expect("accepted");
    assert_eq!(a.home, [1.0, -1.0]);
    assert_eq!(a.crate_reading, [1.0, -1.0]);
    assert_eq!(a.weights, [1.0, 1.0]);
    assert_eq!(a.order, [0, 1]);
    assert_eq!((a.rho, a.obj, a.r), (0.0, -1.0, None));
    assert_eq!((a.iterations, a.support), (1, 2));
    assert_eq!(a.reason, Reason::Threshold);
    assert_eq!(a.trace.len(), 1);
    let step = a.trace[0];
    assert_eq!(step.i + step.j, 1);
    assert_eq!((step.weight_i, step.weight_j), (1.0, 1.0));
}

// docs/DIFFERENCES.md has it, and host/altuliscia/tests/differences.rs through the C function
#[test]
fn infinite_gradients_end_at_the_threshold() {
    let large = 2f64.powi(1000);
    let mut p = Problem::over(Entry::General, 2, &[large; 4]);
    p.labels = vec![1, 0];
    p.ceilings = vec![large; 2];
    p.alphas = vec![2f64.powi(24), 0.0];
    p.linear = vec![0.0; 2];
    p.budget = 100;
    for eps in [0.0, 1e300] {
        p.eps = eps;
        let answer = solve(&p, false);
        let a = answer.accepted().expect("accepted");
        assert_eq!(a.gradient, [f64::INFINITY, f64::NEG_INFINITY]);
        assert_eq!((a.iterations, a.reason), (0, Reason::Threshold));
        assert_eq!((a.rho, a.home[0]), (f64::INFINITY, 2f64.powi(24)));
    }
}

// the smallest call of docs/DIFFERENCES.md in which rho's sign hangs on the choice
#[test]
fn of_zeros_of_different_sign_rho_has_the_kept_one() {
    let mut p = Problem::over(Entry::General, 3, &[-0.0; 9]);
    p.labels = vec![1; 3];
    p.ceilings = vec![1.0; 3];
    p.alphas = vec![1.0, 1.0, 0.0];
    p.linear = vec![0.0, -0.0, -0.0];
    p.budget = 1;
    for (kept, rho) in [(Kept::First, 0.0_f64), (Kept::Second, -0.0)] {
        let answer = solve_keeping(kept, &p, false);
        assert!(answer.zero_pair);
        let a = answer.accepted().expect("accepted");
        assert_eq!(a.rho.to_bits(), rho.to_bits());
    }
}
