//! What is told before a training, and that nothing is where all is well.
mod drawn;

use altuliscia::*;
use drawn::lists;

fn c<'a>(problem: Problem<'a>, cpos: f64, cneg: f64) -> Training<'a> {
    #[rustfmt::skip]
    let training = Training::C { problem, cpos, cneg };
    training
}

fn told(training: Training) -> Vec<String> {
    let all = training.cautions();
    all.iter().map(|caution| caution.to_string()).collect()
}

/// Drawn kernels are symmetric, ceilings the same, and nu can be met.
#[test]
fn nothing_is_told_where_all_is_well() {
    for seed in 0..20 {
        let n = 1 + seed % 12;
        let mut l = lists(seed, n);
        l.ceilings = vec![2.0; n];
        let (problem, retired) = (l.problem(), &vec![seed % 2 == 0; n][..]);
        let (cpos, cneg, matrix) = (0.5, 0.5, &l.matrix[..]);
        let rarer = l.labels.iter().filter(|positive| **positive).count();
        let rarer = rarer.min(n - rarer);
        let nu = 2.0 * rarer as f64 / n as f64;
        let samples = OneClass { n, matrix };
        #[rustfmt::skip]
        let all = [
            c(problem, cpos, cneg),
            Training::CRetired { problem, cpos, cneg, retired },
            Training::Nu { problem, nu },
            Training::OneClass { samples, nu: 1.0 },
            Training::General(l.general(true)),
            Training::Retired { general: l.general(false), retired },
        ];
        for training in all {
            assert_eq!(training.cautions(), [], "{:?}", training);
        }
    }
}

/// A matrix of five samples, four of whose entries are apart from their mirror images.
fn apart() -> Vec<f64> {
    let mut matrix = lists(3, 5).matrix;
    matrix[5] += 1e-9; // column 1, row 0
    matrix[3 * 5 + 2] -= 2.5; // column 3, row 2
    matrix[4] += 0.5; // column 0, row 4
    matrix[3 * 5 + 4] += 0.25; // column 3, row 4
    matrix
}

const LABELS: [bool; 5] = [true, false, false, true, false];

#[test]
fn an_asymmetric_kernel_is_told_by_its_farthest_entry() {
    let matrix = apart();
    let problem = Problem {
        matrix: &matrix,
        labels: &LABELS,
    };
    let expected = Caution::Asymmetric {
        column: 2,
        row: 3,
        entry: matrix[2 * 5 + 3],
        mirrored: matrix[2 * 5 + 3] - 2.5,
        count: 4,
    };
    assert_eq!(c(problem, 1.0, 1.0).cautions(), [expected]);
    let samples = OneClass {
        n: 5,
        matrix: &matrix,
    };
    assert_eq!(
        Training::OneClass { samples, nu: 0.5 }.cautions(),
        [expected]
    );
    let words = expected.to_string();
    assert!(words.contains("column 2, row 3, counted from 0, is "));
    assert!(
        words.ends_with("; 4 below the diagonal differ"),
        "{}",
        words
    );
    // A zero's sign is no difference.
    let problem = Problem {
        matrix: &[1.0, 0.0, -0.0, 1.0],
        labels: &[true, false],
    };
    assert_eq!(c(problem, 1.0, 1.0).cautions(), []);
}

#[test]
fn what_is_given_for_retired_samples_is_passed_over() {
    let matrix = apart();
    let problem = Problem {
        matrix: &matrix,
        labels: &LABELS,
    };
    let (cpos, cneg) = (1.0, 1.0);
    for (retired, count) in [
        ([true, false, true, false, true], 0),
        ([true, false, true, false, false], 1),
        ([false, false, true, false, false], 3),
        ([true, false, false, false, false], 2),
    ] {
        let retired = &retired[..];
        #[rustfmt::skip]
        let training = Training::CRetired { problem, cpos, cneg, retired };
        let found = match training.cautions()[..] {
            [] => 0,
            [Caution::Asymmetric { count, .. }] => count,
            ref other => panic!("{:?}", other),
        };
        assert_eq!(found, count);
    }
}

/// By svm_check_parameter of LIBSVM: nu*(n1+n2)/2 > min(n1,n2).
#[test]
fn a_nu_that_cannot_be_met_is_told() {
    let identity: Vec<f64> = (0..16).map(|k| f64::from(u8::from(k % 5 == 0))).collect();
    let nu = |labels: &[bool], nu: f64| {
        let matrix = &identity[..];
        told(Training::Nu {
            problem: Problem { matrix, labels },
            nu,
        })
    };
    let above = f64::from_bits(0.5_f64.to_bits() + 1);
    for labels in [
        [true, false, false, false],
        [false, true, true, true],
        [true, true, false, true],
    ] {
        assert_eq!(nu(&labels, 0.5), [""; 0]);
        assert_eq!(nu(&labels, above).len(), 1);
        let words = nu(&labels, 1.0).remove(0);
        assert!(words.starts_with("nu 1 can't be met: half of nu times 4 samples is above the 1 "));
    }
    assert_eq!(nu(&[true, true, false, false], 1.0), [""; 0]);
    assert_eq!(nu(&[true; 4], 5e-324).len(), 1);
    // What the fit refuses is the fit's to tell.
    for refused in [0.0, -1.0, 1.5, f64::NAN, f64::INFINITY] {
        assert_eq!(nu(&[true, false, false, false], refused), [""; 0]);
    }
}

#[test]
fn ceilings_that_differ_are_told() {
    let mut l = lists(3, 4);
    for (cpos, cneg, count) in [
        (1.0, 2.0, 1),
        (2.0, 1.0, 1),
        (0.25, 0.25, 0),
        (f64::NAN, 1.0, 0),
    ] {
        assert_eq!(told(c(l.problem(), cpos, cneg)).len(), count);
    }
    l.ceilings = vec![1.0, 1.0, 3.0, 1.0];
    let general = l.general(false);
    let words = told(Training::General(general));
    assert_eq!(words.len(), 1);
    assert!(words[0].starts_with("the ceilings differ: "));
    for (gone, count) in [(2, 0), (0, 1), (3, 1)] {
        let retired: Vec<bool> = (0..4).map(|k| k == gone).collect();
        let retired = &retired[..];
        assert_eq!(
            told(Training::Retired { general, retired }).len(),
            count,
            "{}",
            gone
        );
    }
}

/// It is told last, of every fit that takes it.
#[test]
fn shrinking_is_told() {
    let l = lists(3, 5);
    let matrix = apart();
    let problem = Problem {
        matrix: &matrix,
        labels: &LABELS,
    };
    let (samples, retired) = (
        OneClass {
            n: 5,
            matrix: &l.matrix,
        },
        &[false; 5][..],
    );
    let (general, nu) = (l.general(true), 0.5);
    let mut on = Tuned::default();
    on.options.shrinking = true;
    #[rustfmt::skip]
    let all = [
        (c(problem, 1.0, 2.0), true),
        (Training::Nu { problem, nu }, true),
        (Training::OneClass { samples, nu }, true),
        (Training::General(general), true),
        (Training::CRetired { problem, cpos: 1.0, cneg: 1.0, retired }, false),
        (Training::Retired { general, retired }, false),
    ];
    for (training, takes) in all {
        let mut expected = training.cautions();
        assert_eq!(training.cautions_tuned(&Tuned::default()), expected);
        expected.extend(takes.then_some(Caution::Shrinking));
        assert_eq!(training.cautions_tuned(&on), expected, "{:?}", training);
        let refused = training.train(&on).err();
        assert_eq!(refused, (!takes).then_some(Refusal::RetiredShrinking));
    }
    assert_eq!(c(problem, 1.0, 2.0).cautions_tuned(&on).len(), 3);
    assert!(Caution::Shrinking
        .to_string()
        .starts_with("shrinking is on: "));
    // A sorter keeps it with each pair.
    let l = lists(3, 9);
    let corpus = Corpus::new(&l.matrix, &[1, 2, 3, 1, 2, 3, 1, 2, 3]);
    let sorter = Sorter::train(&corpus, Way::C(1.0), &on).unwrap();
    for pair in sorter.pairs() {
        assert_eq!(pair.cautions, [Caution::Shrinking]);
    }
}

/// Lists of any length, and numbers of any kind: nothing panics, and the fit says what is wrong.
#[test]
fn what_is_refused_is_left_to_the_fit() {
    let nan = [f64::NAN; 9];
    let wrong = [&[][..], &nan[..1], &nan[..8], &nan];
    for matrix in wrong {
        for labels in [&[][..], &[true], &[true, false, true], &[false; 600]] {
            for retired in [&[][..], &[true], &[false; 600]] {
                let problem = Problem { matrix, labels };
                let (cpos, cneg) = (1.0, 1.0);
                let general = General {
                    problem,
                    ceilings: &[1.0; 3],
                    alphas: &[],
                    linear: matrix,
                    nu_rule: true,
                };
                let samples = OneClass {
                    n: usize::MAX,
                    matrix,
                };
                #[rustfmt::skip]
                let all = [
                    c(problem, cpos, cneg),
                    Training::CRetired { problem, cpos, cneg, retired },
                    Training::Retired { general, retired },
                    Training::General(general),
                    Training::OneClass { samples, nu: 0.5 },
                ];
                for training in all {
                    assert_eq!(training.cautions(), []);
                    assert!(training.train(&Tuned::from(Options::default())).is_err());
                }
            }
        }
    }
}
