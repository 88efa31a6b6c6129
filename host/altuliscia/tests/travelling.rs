//! Both modes: ceilings that stay with the places, and ceilings that travel with the samples.
mod drawn;

use altuliscia::*;
use drawn::lists;

/// The problem of docs/DIFFERENCES.md on which samples are moved.
const MOVED: [i8; 16] = [4, 0, 0, -1, 0, 2, 2, 1, 0, 2, 4, 0, -1, 1, 0, 3];
/// The products of the points (-3 1), (1 3), (1 0) and (1 2), and 1 more for a point with itself.
const POINTS: [i8; 16] = [11, 0, -3, -1, 0, 11, 1, 7, -3, 1, 2, 1, -1, 7, 1, 6];

fn told(options: Options, travelling: bool) -> Tuned {
    let mut tuned = Tuned::from(options);
    tuned.travelling = travelling;
    tuned
}

fn shrinking() -> Options {
    Options {
        eps: 1e-3,
        shrinking: true,
        budget: 300,
    }
}

/// What both modes say, that of the places first.
fn both(training: Training, options: Options) -> [String; 2] {
    [false, true].map(|mode| format!("{:?}", training.fit_tuned(&told(options, mode))))
}

#[test]
fn a_ceiling_goes_with_its_sample() {
    let general = Training::General(General {
        problem: Problem {
            matrix: &MOVED.map(f64::from),
            labels: &[true, false, false, false],
        },
        ceilings: &[1.0, 2.0, 2.0, 2.0],
        alphas: &[0.0, 2.0, 0.0, 2.0],
        linear: &[2.0, 1.0, 1.0, -1.0],
        nu_rule: false,
    });
    let fit = |training: Training, mode| {
        let answer = training.fit_tuned(&told(shrinking(), mode)).unwrap();
        assert_eq!(answer.reason, ExitReason::Threshold);
        (answer.home, answer.iterations)
    };
    let (free, rest) = (1.020408163265306, 0.979591836734694);
    let places = vec![0.0, 2.020408163265306, rest, 1.0];
    assert_eq!(fit(general, false), (places, 5));
    assert_eq!(fit(general, true), (vec![0.0, free, rest, 2.0], 5));

    let costs = Training::C {
        problem: Problem {
            matrix: &POINTS.map(f64::from),
            labels: &[false, false, false, true],
        },
        cpos: 1.0,
        cneg: 2.0,
    };
    let third = -0.3599632690541781;
    let places = vec![-0.0, -0.786654423018059, third, 1.146617692072237];
    assert_eq!(fit(costs, false), (places, 5));
    let own = vec![-0.0, -0.6400367309458219, third, 1.0];
    assert_eq!(fit(costs, true), (own, 5));
}

#[test]
fn modes_part_only_where_shrinking_is_on_and_ceilings_differ() {
    let (mut parted, mut moved) = (0, 0);
    for seed in 0..60 {
        let l = lists(seed, 8);
        let (matrix, problem) = (&l.matrix, l.problem());
        let common = General {
            ceilings: &[2.0; 8],
            ..l.general(seed % 2 == 0)
        };
        let samples = OneClass { n: 8, matrix };
        let (cpos, cneg) = (2.0, 1.0);
        let costs = |cneg| Training::C {
            problem,
            cpos,
            cneg,
        };
        let unequal = [costs(cneg), Training::General(l.general(seed % 2 == 0))];
        let equal = [
            costs(cpos),
            Training::General(common),
            Training::Nu { problem, nu: 0.4 },
            Training::OneClass { samples, nu: 0.4 },
        ];
        for training in equal {
            let [places, own] = both(training, shrinking());
            assert_eq!(places, own);
            let off = Options {
                shrinking: false,
                ..shrinking()
            };
            moved += usize::from(places != both(training, off)[0]);
        }
        for training in unequal {
            let off = Options {
                shrinking: false,
                ..shrinking()
            };
            let [places, own] = both(training, off);
            assert_eq!(places, own);
            let [places, own] = both(training, shrinking());
            parted += usize::from(places != own);
        }
    }
    assert!(parted > 5 && moved > 20, "{} {}", parted, moved);
}

/// It is refused, not dropped, and so is any other mistake before it.
#[test]
fn where_samples_may_be_retired_it_is_refused() {
    let l = lists(3, 8);
    let general = l.general(false);
    for retired in [
        [false; 8],
        [true, false, false, false, false, false, false, false],
    ] {
        let costs = |cpos| Training::CRetired {
            problem: l.problem(),
            cpos,
            cneg: 1.0,
            retired: &retired,
        };
        let given = Training::Retired {
            general,
            retired: &retired,
        };
        for training in [costs(2.0), given] {
            let fit = |options, mode| training.fit_tuned(&told(options, mode));
            assert_eq!(fit(shrinking(), true), Err(Refusal::Length));
            assert_eq!(fit(Options::default(), true), Err(Refusal::Length));
            assert!(fit(Options::default(), false).is_ok());
            assert_eq!(fit(shrinking(), false), Err(Refusal::RetiredShrinking));
        }
        let tuned = told(Options::default(), true);
        assert_eq!(costs(-1.0).fit_tuned(&tuned), Err(Refusal::Length));
    }
    let told_so = "isn't for samples that may be retired: fit these without it.";
    assert!(Refusal::Length.to_string().ends_with(told_so));
    let nobody = lists(3, 0);
    let none = Training::Retired {
        general: nobody.general(false),
        retired: &[],
    };
    let refused = none.fit_tuned(&told(Options::default(), true));
    assert_eq!(refused, Err(Refusal::Samples));
}

#[test]
fn the_floor_is_judged_in_both() {
    let l = lists(3, 8);
    for mode in [false, true] {
        let mut tuned = told(shrinking(), mode);
        tuned.floor = 0.0;
        let training = Training::General(l.general(false));
        assert_eq!(training.fit_tuned(&tuned), Err(Refusal::Floor));
    }
}

/// A sorter has one ceiling for all, so nothing of it is another's.
#[test]
fn a_sorter_is_the_same_in_both() {
    let l = lists(5, 12);
    let labels: Vec<usize> = (0..12).map(|k| 1 + k % 3).collect();
    let mut corpus = Corpus::new(&l.matrix, &labels);
    let train = |corpus: &Corpus, mode| {
        let sorter = Sorter::train(corpus, Way::C(2.0), &told(shrinking(), mode));
        format!("{:?}", sorter)
    };
    assert!(train(&corpus, true).starts_with("Ok"));
    assert_eq!(train(&corpus, true), train(&corpus, false));
    corpus.retired = &[false; 12];
    assert!(train(&corpus, true).contains("Length"));
}
