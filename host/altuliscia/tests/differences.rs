//! The problems of docs/DIFFERENCES.md, as they are written there.
use altuliscia::*;

/// eps 0, a budget of 100.
fn options(shrinking: bool) -> Options {
    Options {
        eps: 0.0,
        shrinking,
        budget: 100,
    }
}

fn labels(bytes: &[u8]) -> Vec<bool> {
    bytes.iter().map(|&byte| byte == 1).collect()
}

/// A general problem with these ceilings, by each way to train it.
struct Ceilings<'a> {
    matrix: &'a [f64],
    labels: &'a [u8],
    ceilings: &'a [f64],
    alphas: &'a [f64],
    linear: &'a [f64],
}

impl Ceilings<'_> {
    /// Iterations and weights in the crate's mode.
    fn crates(&self, shrinking: bool) -> (u64, Vec<f64>) {
        self.trained(shrinking, false)
    }

    /// The same in the travelling mode.
    fn travelling(&self, shrinking: bool) -> (u64, Vec<f64>) {
        self.trained(shrinking, true)
    }

    fn trained(&self, shrinking: bool, travelling: bool) -> (u64, Vec<f64>) {
        let general = General {
            problem: Problem {
                matrix: self.matrix,
                labels: &labels(self.labels),
            },
            ceilings: self.ceilings,
            alphas: self.alphas,
            linear: self.linear,
            nu_rule: false,
        };
        let mut tuned = Tuned::from(options(shrinking));
        tuned.travelling = travelling;
        let answer = Training::General(general).fit_tuned(&tuned).unwrap();
        (answer.iterations, answer.home)
    }
}

#[test]
fn a_moved_sample_takes_the_ceiling_of_its_place_unless_it_travels() {
    let moved = Ceilings {
        matrix: &[4, 0, 0, -1, 0, 2, 2, 1, 0, 2, 4, 0, -1, 1, 0, 3].map(f64::from),
        labels: &[1, 0, 0, 0],
        ceilings: &[1.0, 2.0, 2.0, 2.0],
        alphas: &[0.0, 2.0, 0.0, 2.0],
        linear: &[2.0, 1.0, 1.0, -1.0],
    };
    let (left, small) = (2.020408163265306, 0.979591836734694);
    assert_eq!(moved.crates(true), (5, vec![0.0, left, small, 1.0]));
    let own = 1.020408163265306;
    assert_eq!(moved.travelling(true), (5, vec![0.0, own, small, 2.0]));
    assert_eq!(moved.travelling(false), moved.crates(false));
}

/// Without a move both modes round alike, and a weight ends above its ceiling.
#[test]
fn unequal_ceilings_have_no_box() {
    let still = Ceilings {
        matrix: &[3, 2, 0, 1, 2, 2, 2, 1, 0, 2, 2, 2, 1, 1, 2, 1].map(f64::from),
        labels: &[0, 1, 1, 1],
        ceilings: &[2.0, 1.0, 1.0, 1.0],
        alphas: &[2.0, 0.0, 1.0, 0.0],
        linear: &[-2.0, 0.0, -2.0, 0.0],
    };
    let above = (3, vec![2.0, 1.0000000000000002, 0.0, 0.0]);
    for shrinking in [false, true] {
        assert_eq!(still.crates(shrinking), above);
        assert_eq!(still.travelling(shrinking), above);
    }
    // the problem of the C entry with cpos 1 and cneg 2
    let classes = Ceilings {
        matrix: &[3, -4, -2, 3, -4, 1, 2, -2, -2, 2, 1, -4, 3, -2, -4, 1].map(f64::from),
        labels: &[1, 1, 1, 0],
        ceilings: &[1.0, 1.0, 1.0, 2.0],
        alphas: &[0.0; 4],
        linear: &[-1.0; 4],
    };
    let above = (4, vec![1.0, 1.0000000000000002, 0.0, 2.0]);
    assert_eq!(classes.crates(true), above);
    assert_eq!(classes.travelling(true), above);
    let unit = f64::EPSILON;
    let two = Ceilings {
        matrix: &[1.0, 0.0, 0.0, 1.0],
        labels: &[0, 0],
        ceilings: &[1.75 + 3.0 * unit, 0.75 + unit / 2.0],
        alphas: &[1.75 + 3.0 * unit, 0.75],
        linear: &[10.0, -10.0],
    };
    let above = (1, vec![1.75 + 4.0 * unit, 0.75 + unit / 2.0]);
    assert_eq!(two.crates(false), above);
    assert_eq!(two.travelling(true), above);
}

/// The problem of the C entry with cpos 10 and cneg 1: a moved sample's weight ends below 0.
#[test]
fn a_moved_sample_may_end_below_0() {
    let moved = Ceilings {
        matrix: &[10, -6, -4, 7, -6, 10, -4, -5, -4, -4, 8, -2, 7, -5, -2, 5].map(f64::from),
        labels: &[0, 0, 0, 1],
        ceilings: &[1.0, 1.0, 1.0, 10.0],
        alphas: &[0.0; 4],
        linear: &[-1.0; 4],
    };
    let small = 0.31354804365184985;
    assert_eq!(
        moved.crates(true),
        (5, vec![1.0, -0.3135480436518501, small, 1.0])
    );
    let own = [1.0, 0.09966462603140805, small, 1.4132126696832579];
    assert_eq!(moved.travelling(true), (100, own.to_vec()));
}

#[test]
fn ceilings_far_apart_have_none_by_far() {
    let large = 2f64.powi(53);
    let apart = Ceilings {
        matrix: &[1.0, 0.0, 0.0, 0.0],
        labels: &[1, 0],
        ceilings: &[0.6, large],
        alphas: &[0.0, large - 1.0],
        linear: &[-1.0; 2],
    };
    for shrinking in [false, true] {
        assert_eq!(apart.crates(shrinking), (1, vec![2.0, large]));
        assert_eq!(apart.travelling(shrinking), (1, vec![2.0, large]));
    }
}

#[test]
fn the_two_readings_part() {
    let matrix = [4, -4, 3, -3, -4, 3, 2, -2, 3, 2, 4, 0, -3, -2, 0, 5].map(f64::from);
    let problem = Problem {
        matrix: &matrix,
        labels: &labels(&[1, 0, 1, 1]),
    };
    let on = fit_c(&problem, 1.0, 1.0, &options(true)).unwrap();
    assert_eq!(on.iterations, 8);
    let share = on.home[2];
    assert!((share - 2.0 / 3.0).abs() < 1e-15);
    assert_eq!(
        (on.home[3], on.crate_reading[3], on.crate_reading[2]),
        (0.0, share, 0.0)
    );
    let off = fit_c(&problem, 1.0, 1.0, &options(false)).unwrap();
    assert_eq!(off.home, off.crate_reading);
}

#[test]
fn infinite_gradients_end_at_the_threshold() {
    let large = 2f64.powi(1000);
    let general = General {
        problem: Problem {
            matrix: &[large; 4],
            labels: &[true, false],
        },
        ceilings: &[large; 2],
        alphas: &[2f64.powi(24), 0.0],
        linear: &[0.0; 2],
        nu_rule: false,
    };
    // the gradients are infinity and minus infinity, the sum of the two extremes is NaN
    let answer = fit_general(&general, &options(false)).unwrap();
    let ended = (answer.iterations, answer.reason);
    assert_eq!(ended, (0, ExitReason::Threshold));
    assert_eq!((answer.home[0], answer.home[1]), (2f64.powi(24), 0.0));
    assert_eq!(answer.rho, f64::INFINITY);
}

#[test]
fn an_infinite_r_leaves_zeros_and_a_nan() {
    let problem = Problem {
        matrix: &[1.0, 0.0, 0.0, 1.0],
        labels: &[true, false],
    };
    let answer = fit_nu(&problem, 1.0, &options(false)).unwrap();
    assert_eq!((answer.r, answer.support), (Some(f64::INFINITY), 0));
    assert!(answer.rho.is_nan() && answer.home.iter().all(|x| *x == 0.0));
}
