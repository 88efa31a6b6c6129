//! What the solver leans on behaves as the crates it stands in for.

use linfa::{forget_zero_pair, keeping, met_zero_pair, Float, Kept};
use linfa_kernel::Kernel;
use linfa_svm::classification::fit_c;
use linfa_svm::floor::USUAL;
use linfa_svm::regression;
use linfa_svm::{SeparatingHyperplane, SolverParams};
use ndarray::ArrayView2;

fn bits(x: f64) -> u64 {
    x.to_bits()
}

#[test]
fn max_and_min_pass_over_nan() {
    assert_eq!(<f64 as Float>::max(f64::NAN, 1.0), 1.0);
    assert_eq!(<f64 as Float>::max(1.0, f64::NAN), 1.0);
    assert_eq!(
        <f64 as Float>::min(f64::NAN, f64::NEG_INFINITY),
        f64::NEG_INFINITY
    );
    assert!(<f64 as Float>::min(f64::NAN, f64::NAN).is_nan());
    assert_eq!(<f64 as Float>::max(2.0, 3.0), 3.0);
    assert_eq!(<f64 as Float>::min(2.0, 3.0), 2.0);
}

#[test]
fn two_zeros_of_different_sign_are_noted_and_the_first_is_kept() {
    forget_zero_pair();
    assert_eq!(bits(<f64 as Float>::max(0.0, 0.0)), bits(0.0));
    assert_eq!(bits(<f64 as Float>::min(-0.0, -0.0)), bits(-0.0));
    assert_eq!(<f64 as Float>::max(-0.0, 1.0), 1.0);
    assert!(!met_zero_pair());
    assert_eq!(bits(<f64 as Float>::max(-0.0, 0.0)), bits(-0.0));
    assert!(met_zero_pair());
    forget_zero_pair();
    assert!(!met_zero_pair());
    assert_eq!(bits(<f64 as Float>::min(0.0, -0.0)), bits(0.0));
    assert!(met_zero_pair());
}

#[test]
fn of_two_zeros_the_one_asked_for_comes_out() {
    let zeros = || {
        let (x, y) = std::hint::black_box((-0.0, 0.0));
        let (max, min) = (<f64 as Float>::max(x, y), <f64 as Float>::min(y, x));
        (bits(max), bits(min))
    };
    assert_eq!(keeping(Kept::First, zeros), (bits(-0.0), bits(0.0)));
    assert_eq!(keeping(Kept::Second, zeros), (bits(0.0), bits(-0.0)));
    forget_zero_pair();
    keeping(Kept::Own, zeros);
    assert!(met_zero_pair());
    // and the first again
    assert_eq!(zeros(), (bits(-0.0), bits(0.0)));
}

#[test]
fn a_column_is_read_as_it_is_lent() {
    let k = Kernel::given(2, vec![1.0, 2.0, 3.0, 4.0]);
    assert_eq!(k.column(0), [1.0, 2.0]);
    assert_eq!(k.column(1), [3.0, 4.0]);
    assert_eq!((k.diagonal()[0], k.diagonal()[1]), (1.0, 4.0));
    assert!(!k.is_linear());
}

fn params() -> SolverParams<f64> {
    SolverParams {
        eps: 1e-3,
        shrinking: false,
        budget: 100,
        floor: USUAL,
        travelling: false,
    }
}

#[test]
fn the_support_vectors_are_the_samples_with_a_weight() {
    // the third sample stands far on its own side and gets no weight
    let x = [1.0, -1.0, 5.0];
    let entries: Vec<f64> = (0..9).map(|k| x[k / 3] * x[k % 3]).collect();
    let kernel = Kernel::given(3, entries);
    let dataset = ArrayView2::from_rows(3, 1, &x);
    let labels = [true, false, true];
    let svm = fit_c(params(), dataset, kernel, &labels, 1.0, 1.0);
    assert_eq!(svm.alpha, [0.5, -0.5, 0.0]);
    assert_eq!(svm.nsupport(), 2);
    match svm.sep_hyperplane() {
        SeparatingHyperplane::WeightedCombination(rows) => {
            assert_eq!(rows.items(), [1.0, -1.0]);
        }
        other => panic!("{other:?}"),
    }
}

/// The published count is above 100·2^-52 in magnitude, strictly: what the
/// oracle asks of the home list.
#[test]
fn the_support_count_is_above_the_limit() {
    let kernel = Kernel::given(1, vec![1.0]);
    let dataset = ArrayView2::from_rows(1, 1, &[0.0]);
    let mut svm = fit_c(params(), dataset, kernel, &[true], 1.0, 1.0);
    let limit = 0x3d19_0000_0000_0000;
    for (x, counted) in [
        (f64::from_bits(limit), 0),
        (f64::from_bits(limit + 1), 1),
        (f64::from_bits(limit - 1), 0),
        (5e-324, 0),
        (1e-15, 0),
        (1.0, 1),
        (f64::INFINITY, 1),
        (f64::NAN, 0),
        (0.0, 0),
    ] {
        for x in [x, -x] {
            svm.alpha = vec![x];
            assert_eq!(svm.nsupport(), counted, "{x:?}");
        }
    }
}

#[test]
fn the_nu_fit_of_regression_folds_its_two_halves() {
    let x = [1.0, 2.0, 3.0];
    let entries: Vec<f64> = (0..9).map(|k| x[k / 3] * x[k % 3]).collect();
    let kernel = Kernel::given(3, entries);
    let dataset = ArrayView2::from_rows(3, 1, &x);
    let svm = regression::fit_nu(params(), dataset, kernel, &[1.0, 2.0, 3.0], 0.5, 1.0);
    assert_eq!(svm.alpha.len(), 3);
    assert!(svm.r().is_none());
    assert!(svm.alpha.iter().all(|a| a.abs() <= 1.0));
}
