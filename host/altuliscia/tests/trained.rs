//! Trainings with their coefficients and decisions, and which of them are not to be released.
mod drawn;

use altuliscia::*;
use drawn::lists;

fn tuned() -> Tuned {
    Tuned::from(Options {
        eps: 0.001,
        budget: 300,
        ..Options::default()
    })
}

fn bits(list: &[f64]) -> Vec<u64> {
    list.iter().map(|x| x.to_bits()).collect()
}

/// Lists as the C fit sets them: the general fit then runs as that one does, and answers weights without a sign.
#[test]
fn coefficients_are_signed_whatever_was_trained() {
    let (mut unlike, mut zeros) = (0, 0);
    for seed in 0..30 {
        let n = 2 + seed % 20;
        let mut l = lists(seed, n);
        let retired: Vec<bool> = (0..n).map(|k| (k + seed) % 5 == 4).collect();
        l.ceilings = vec![2.0; n];
        l.alphas = vec![0.0; n];
        l.linear = vec![-1.0; n];
        let (problem, general, retired) = (l.problem(), l.general(false), &retired[..]);
        let (cpos, cneg) = (2.0, 2.0);
        #[rustfmt::skip]
        let ways = [
            (Training::C { problem, cpos, cneg }, Training::General(general)),
            (Training::CRetired { problem, cpos, cneg, retired }, Training::Retired { general, retired }),
        ];
        for (signed, plain) in ways {
            let signed = signed.train(&tuned()).unwrap();
            let plain = plain.train(&tuned()).unwrap();
            assert_eq!(bits(signed.coefficients()), bits(&signed.answer.home));
            assert_eq!(bits(plain.coefficients()), bits(signed.coefficients()));
            assert_eq!(plain.rho().to_bits(), signed.rho().to_bits());
            unlike += usize::from(plain.answer.home != plain.coefficients());
        }
        let gone = ways[1].1.train(&tuned()).unwrap();
        for s in (0..n).filter(|s| retired[*s]) {
            assert_eq!(gone.coefficients()[s].to_bits(), 0);
            zeros += usize::from(!l.labels[s]);
        }
    }
    assert!(unlike > 30 && zeros > 10, "{} {}", unlike, zeros);
}

#[test]
fn what_the_other_fits_answer_is_left_as_it_is() {
    let l = lists(5, 12);
    let (problem, matrix) = (l.problem(), &l.matrix[..]);
    let samples = OneClass { n: 12, matrix };
    for training in [
        Training::Nu { problem, nu: 0.4 },
        Training::OneClass { samples, nu: 0.4 },
    ] {
        let trained = training.train(&tuned()).unwrap();
        assert_eq!(trained.answer, training.fit_tuned(&tuned()).unwrap());
        assert_eq!(trained.coefficients(), trained.answer.home);
        assert!(trained.releasable());
    }
    assert_eq!(Tuned::default(), Tuned::from(Options::default()));
    let none = Training::Nu { problem, nu: 0.0 };
    assert_eq!(none.train(&tuned()), Err(Refusal::Nu));
}

const IDENTITY: [f64; 4] = [1.0, 0.0, 0.0, 1.0];

fn c(labels: &[bool], cost: f64, budget: u64) -> Trained {
    let matrix = &IDENTITY[..];
    let problem = Problem { matrix, labels };
    let (cpos, cneg) = (cost, cost);
    #[rustfmt::skip]
    let training = Training::C { problem, cpos, cneg };
    let mut tuned = tuned();
    tuned.options.budget = budget;
    training.train(&tuned).unwrap()
}

#[test]
fn what_is_not_to_be_released_is_told() {
    for (labels, cost, budget, told) in [
        ([true, false], 1.0, 300, None),
        ([true, false], 1.0, 1, Some(Unfit::Budget)),
        ([true, true], 1.0, 300, Some(Unfit::Rho)),
        ([true, false], SUPPORT_LIMIT, 300, Some(Unfit::NoSupport)),
        ([true, false], 2.0 * SUPPORT_LIMIT, 300, None),
    ] {
        let trained = c(&labels, cost, budget);
        assert_eq!(trained.unfit(), told, "{:?} {}", labels, cost);
        assert_eq!(trained.releasable(), told.is_none());
        assert_eq!(trained.answer.releasable(), told.is_none());
    }
    // nu that can't be: one positive sample of four.
    let identity: Vec<f64> = (0..16).map(|k| f64::from(u8::from(k % 5 == 0))).collect();
    let problem = Problem {
        matrix: &identity,
        labels: &[true, false, false, false],
    };
    let trained = Training::Nu { problem, nu: 1.0 }.train(&tuned()).unwrap();
    assert!(!trained.answer.r.unwrap().is_finite());
    assert_eq!(trained.unfit(), Some(Unfit::Scale));
}

/// An r below 0 gives each weight the other class's sign; one that has no finite inverse makes weights infinite.
#[test]
fn an_r_that_turns_the_weights_or_makes_them_infinite_is_told() {
    let points: [[f64; 2]; 6] = [
        [0.1, 0.0],
        [-0.3, 0.1],
        [-0.2, 0.1],
        [0.2, -0.3],
        [0.0, 0.1],
        [0.3, 0.1],
    ];
    let products = points.map(|p| points.map(|q| p[0] * q[0] + p[1] * q[1]));
    let turned = (products.concat(), [0, 1, 0, 1, 0, 1].map(|y| y == 1));
    let small = [
        3., 1., 0., 0., 1., 2., 0., 0., 0., 0., 2., 1., 0., 0., 1., 3.,
    ];
    let trained = |matrix: &[f64], labels: &[bool], nu| {
        let problem = Problem { matrix, labels };
        Training::Nu { problem, nu }.train(&tuned()).unwrap()
    };
    let (matrix, labels) = turned;
    let below = trained(&matrix, &labels, 0.2);
    assert!(below.answer.r.unwrap() < 0.0);
    let signs = below.coefficients().iter().zip(labels);
    assert!(signs
        .filter(|(c, _)| **c != 0.0)
        .all(|(c, l)| (*c < 0.0) == l));
    assert_eq!(below.unfit(), Some(Unfit::Scale));

    let labels = [true, true, false, false];
    let tiny = trained(&small.map(|x| x * 1e-309), &labels, 0.3);
    assert!(tiny.answer.r.unwrap() > 0.0 && tiny.coefficients()[0].is_infinite());
    assert_eq!(tiny.unfit(), Some(Unfit::Scale));
    assert_eq!(trained(&small, &labels, 0.3).unfit(), None);
}

/// By its sign and its inverse.
#[test]
fn each_r_is_looked_at() {
    let good = c(&[true, false], 1.0, 300).answer;
    let least = f64::from_bits(0x0004_0000_0000_0001);
    let before = f64::from_bits(0x0004_0000_0000_0000);
    assert!(least.recip().is_finite() && before.recip().is_infinite());
    for r in [0.5, 1.0, 1e-308, f64::MAX, least] {
        let answer = Answer {
            r: Some(r),
            ..good.clone()
        };
        assert_eq!(answer.unfit(), None, "{}", r);
    }
    for r in [-0.5, -1e-300, 0.0, -0.0, before, f64::INFINITY, f64::NAN] {
        let answer = Answer {
            r: Some(r),
            ..good.clone()
        };
        assert_eq!(answer.unfit(), Some(Unfit::Scale), "{}", r);
    }
    let told =
        "r, by which nu's weights are divided, isn't above 0, or it or its inverse isn't finite";
    assert_eq!(Unfit::Scale.to_string(), told);
}

/// The first that applies, and every number that isn't finite.
#[test]
fn each_number_of_an_answer_is_looked_at() {
    let good = c(&[true, false], 1.0, 300).answer;
    let with = |change: fn(&mut Answer)| {
        let mut answer = good.clone();
        change(&mut answer);
        answer.unfit()
    };
    assert_eq!(with(|_| {}), None);
    for rho in [f64::NAN, f64::INFINITY, -f64::INFINITY] {
        let answer = Answer {
            rho,
            ..good.clone()
        };
        assert_eq!(answer.unfit(), Some(Unfit::Rho));
        let answer = Answer {
            r: Some(rho),
            ..good.clone()
        };
        assert_eq!(answer.unfit(), Some(Unfit::Scale));
    }
    assert_eq!(with(|a| a.r = Some(-0.0)), Some(Unfit::Scale));
    let all = |a: &mut Answer| (a.r, a.rho, a.support) = (Some(0.0), f64::NAN, 0);
    assert_eq!(with(all), Some(Unfit::Scale));
    let most = |a: &mut Answer| (a.rho, a.support) = (f64::NAN, 0);
    assert_eq!(with(most), Some(Unfit::Rho));
    assert_eq!(with(|a| a.support = 0), Some(Unfit::NoSupport));
    let ran_out = |a: &mut Answer| (a.r, a.reason) = (Some(0.0), ExitReason::Iterations);
    assert_eq!(with(ran_out), Some(Unfit::Budget));
    let told = [Unfit::Budget, Unfit::Scale, Unfit::Rho, Unfit::NoSupport].map(|u| u.to_string());
    for (words, part) in told
        .iter()
        .zip(["budget", "r, by", "rho", "support vector"])
    {
        assert!(words.contains(part), "{}", words);
    }
}

#[test]
fn a_decision_is_one_sum_in_sample_order() {
    let third = 1.0 / 3.0;
    let nan = f64::NAN;
    for (coefficients, values, rho, expected) in [
        ([1e16, 1.0, -1e16], [1.0; 3], 0.5, -0.5),
        ([1e16, -1e16, 1.0], [1.0; 3], 0.5, 0.5),
        ([-1.0, 3.0, 0.0], [1.0, third, nan], 0.0, 0.0),
        ([-0.0, 0.0, 2.0], [nan, f64::INFINITY, 2.0], 1.0, 3.0),
        ([0.0; 3], [nan; 3], -0.25, 0.25),
    ] {
        assert_eq!(decision(&coefficients, rho, &values), Ok(expected));
    }
    assert!(3f64.mul_add(third, -1.0) < 0.0);
    // From +0, not from -0; and a coefficient that is NaN has its say.
    let zero = decision(&[], 0.0, &[]).unwrap();
    assert_eq!(zero.to_bits(), 0);
    assert!(decision(&[nan, 1.0], 0.0, &[0.0, 1.0]).unwrap().is_nan());
    assert!(decision(&[1.0], 0.0, &[nan]).unwrap().is_nan());
}

#[test]
fn another_number_of_kernel_values_is_an_error() {
    let trained = c(&[true, false], 1.0, 300);
    for count in [0, 1, 3, 512] {
        let wrong = trained.decision(&vec![1.0; count]).unwrap_err();
        assert_eq!((wrong.caption, wrong.values, wrong.wanted), (0, count, 2));
    }
    let rows = [vec![1.0, 0.0], vec![0.0, 1.0], vec![1.0]];
    assert_eq!(trained.decisions(&rows[..2]), Ok(vec![1.0, -1.0]));
    let wrong = trained.decisions(&rows).unwrap_err();
    assert_eq!((wrong.caption, wrong.values, wrong.wanted), (2, 1, 2));
    assert!(wrong
        .to_string()
        .starts_with("caption 2, counted from 0, has 1 "));
    let flat = [1.0, 0.0, 0.0, 1.0, 0.5, 0.5];
    assert_eq!(trained.decisions(flat.chunks(2)), Ok(vec![1.0, -1.0, 0.0]));
    let none: [[f64; 2]; 0] = [];
    assert_eq!(trained.decisions(none), Ok(vec![]));
}

/// The winner of the proved library's votes, of two languages.
fn voted(trained: &Trained, values: &[f64]) -> usize {
    let counts = [values.len() as u64];
    let panel = Panel {
        languages: 2,
        coefficients: trained.coefficients(),
        values,
        coefficient_counts: &counts,
        value_counts: &counts,
        rhos: &[trained.rho()],
    };
    votes(&panel).unwrap().winner()
}

#[test]
fn a_decisions_sign_is_the_proved_vote() {
    let mut winners = [0; 3];
    let mut zeros = 0;
    for seed in 0..60 {
        let n = 2 + seed % 25;
        let l = lists(seed, n);
        let problem = l.problem();
        let trainings = [
            Training::General(l.general(false)),
            Training::Nu { problem, nu: 0.3 },
        ];
        for training in trainings {
            let trained = training.train(&tuned()).unwrap();
            for column in l.matrix.chunks(n) {
                let found = trained.decision(column).unwrap();
                let winner = voted(&trained, column);
                assert_eq!(winner, if found >= 0.0 { 1 } else { 2 });
                winners[winner] += 1;
            }
            zeros += trained.coefficients().iter().filter(|c| **c == 0.0).count();
        }
    }
    assert!(winners[1] > 100 && winners[2] > 100 && zeros > 100);
}

/// The votes pass over nothing, a decision over what stands beside a 0: a NaN there makes them differ.
#[test]
fn a_nan_beside_zero_is_passed_over_by_the_decision_alone() {
    let problem = Problem {
        matrix: &[1.0, 7.0, 0.0, 7.0, 7.0, 7.0, 0.0, 7.0, 1.0],
        labels: &[true, false, false],
    };
    let retired = &[false, true, false][..];
    let (cpos, cneg) = (1.0, 1.0);
    #[rustfmt::skip]
    let training = Training::CRetired { problem, cpos, cneg, retired };
    let trained = training.train(&tuned()).unwrap();
    for value in [f64::NAN, f64::INFINITY] {
        let values = [0.75, value, 0.25];
        assert_eq!(trained.decision(&values), Ok(0.5));
        assert_eq!(voted(&trained, &values), 2);
    }
    assert_eq!(voted(&trained, &[0.75, 1e300, 0.25]), 1);
}
