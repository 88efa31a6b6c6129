//! The floor of the curvature, in every kind of training.
mod drawn;

use altuliscia::*;
use drawn::lists;

/// Two samples whose curvature is 1 + 0.5 - 2*0.75 = 0; and, for nu, which pairs samples of one label, two such pairs.
const FLAT: [f64; 4] = [1.0, 0.75, 0.75, 0.5];
const TWO_FLAT: [f64; 16] = [
    1.0, 0.75, 0.0, 0.0, 0.75, 0.5, 0.0, 0.0, 0.0, 0.0, 1.0, 0.75, 0.0, 0.0, 0.75, 0.5,
];
/// The same two behind one that is retired.
const WITH_RETIRED: [f64; 9] = [9.0, 9.0, 9.0, 9.0, 1.0, 0.75, 9.0, 0.75, 0.5];

fn with_floor(floor: f64) -> Tuned {
    told(
        floor,
        Options {
            budget: 2,
            ..Options::default()
        },
    )
}

fn told(floor: f64, options: Options) -> Tuned {
    let mut tuned = Tuned::from(options);
    tuned.floor = floor;
    tuned
}

fn problem(matrix: &'static [f64], labels: &'static [bool]) -> Problem<'static> {
    Problem { matrix, labels }
}

/// Every kind of training on them, with the weights of two passes by a floor of 1. All but nu, whose weights are divided by r.
fn kinds() -> Vec<(Training<'static>, Vec<f64>)> {
    let two = problem(&FLAT, &[true, false]);
    let three = problem(&WITH_RETIRED, &[true, true, false]);
    let (cpos, cneg) = (8.0, 8.0);
    let samples = OneClass {
        n: 2,
        matrix: &FLAT,
    };
    let retired = &[true, false, false];
    let general = General {
        problem: two,
        ceilings: &[8.0; 2],
        alphas: &[0.0; 2],
        linear: &[-1.0; 2],
        nu_rule: false,
    };
    let with_retired = General {
        problem: three,
        ceilings: &[8.0; 3],
        alphas: &[0.0; 3],
        linear: &[-1.0; 3],
        nu_rule: false,
    };
    vec![
        (
            Training::C {
                problem: two,
                cpos,
                cneg,
            },
            vec![4.0, -4.0],
        ),
        (
            Training::CRetired {
                problem: three,
                cpos,
                cneg,
                retired,
            },
            vec![0.0, 4.0, -4.0],
        ),
        (Training::OneClass { samples, nu: 0.5 }, vec![0.5, 0.5]),
        (Training::General(general), vec![4.0, 4.0]),
        (
            Training::Retired {
                general: with_retired,
                retired,
            },
            vec![0.0, 4.0, 4.0],
        ),
    ]
}

fn nu() -> Training<'static> {
    let problem = problem(&TWO_FLAT, &[true, true, false, false]);
    Training::Nu { problem, nu: 0.25 }
}

/// By the usual floor a step along a flat direction goes as far as it may; by 1 it is 2, or 0.25 of one class.
#[test]
fn a_larger_floor_takes_shorter_steps() {
    for (training, expected) in kinds() {
        let answer = training.fit_tuned(&with_floor(1.0)).unwrap();
        assert_eq!((answer.home, answer.iterations), (expected.clone(), 2));
        let usual = training.fit_tuned(&with_floor(USUAL_FLOOR)).unwrap();
        assert_eq!(usual.iterations, 1);
        let whole = |weight: &f64| [0.0, 1.0, 8.0].contains(&weight.abs());
        assert!(usual.home.iter().all(whole), "{:?}", usual.home);
        let least = training.fit_tuned(&with_floor(5e-324)).unwrap();
        assert_eq!((least.home, least.iterations), (usual.home, 1));
    }
    let parts = |floor| {
        let home = nu().fit_tuned(&with_floor(floor)).unwrap().home;
        let whole = home.iter().map(|x| x.abs()).fold(0.0, f64::max);
        home.iter().map(|x| x / whole).collect::<Vec<f64>>()
    };
    assert_eq!(parts(1.0), [1.0, 0.0, -0.5, -0.5]);
    assert_eq!(parts(USUAL_FLOOR), [0.0, 1.0, 0.0, -1.0]);
}

#[test]
fn where_no_pair_is_flat_the_floor_has_no_say() {
    let mut steps = 0;
    for seed in 0..20 {
        let mut l = lists(seed, 8);
        // No two samples are alike any more.
        for k in 0..8 {
            l.matrix[9 * k] += 1.0;
        }
        // Every curvature is above 0, and many are below 1.
        for entry in &mut l.matrix {
            *entry /= 64.0;
        }
        for nu_rule in [false, true] {
            let fits = [1e-300, 1e-12, USUAL_FLOOR, 1.0].map(|floor| {
                let options = Options {
                    eps: 1e-3,
                    budget: 300,
                    ..Options::default()
                };
                let training = Training::General(l.general(nu_rule));
                format!("{:?}", training.fit_tuned(&told(floor, options)).unwrap())
            });
            assert!(fits.iter().all(|fit| *fit == fits[0]));
            steps += usize::from(!fits[0].contains("iterations: 0,"));
        }
    }
    assert!(steps > 20, "{}", steps);
}

#[test]
fn a_bad_floor_is_refused_in_its_place() {
    let above = f64::from_bits(1.0_f64.to_bits() + 1);
    let bad = [
        0.0,
        -0.0,
        -1.0,
        above,
        f64::INFINITY,
        -f64::INFINITY,
        f64::NAN,
    ];
    for training in kinds().into_iter().map(|(t, _)| t).chain([nu()]) {
        for floor in bad {
            for shrinking in [false, true] {
                let fit = |options| training.fit_tuned(&told(floor, options));
                let options = Options {
                    shrinking,
                    budget: 2,
                    ..Options::default()
                };
                assert_eq!(fit(options), Err(Refusal::Floor));
                let options = Options {
                    budget: 0,
                    ..options
                };
                assert_eq!(fit(options), Err(Refusal::Budget));
                let options = Options {
                    eps: -1.0,
                    ..options
                };
                assert_eq!(fit(options), Err(Refusal::Eps));
            }
        }
    }
    let without_nu = Training::OneClass {
        samples: OneClass {
            n: 2,
            matrix: &FLAT,
        },
        nu: 0.0,
    };
    assert_eq!(without_nu.fit_tuned(&with_floor(0.0)), Err(Refusal::Nu));
    assert_eq!((Refusal::Floor.number(), Refusal::Floor.index()), (14, 0));
}
