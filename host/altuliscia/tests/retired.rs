//! Retired samples: the answer is that of the problem without them, and every other sample keeps its number.
mod drawn;

use altuliscia::*;
use drawn::{lists, Lists};

fn off() -> Options {
    Options {
        eps: 0.001,
        budget: 300,
        ..Options::default()
    }
}

fn on() -> Options {
    Options {
        shrinking: true,
        ..off()
    }
}

/// An answer by its bits, or a refusal by its number and index.
fn bits(result: &Result<Answer, Refusal>) -> Vec<u64> {
    match result {
        Err(refusal) => vec![refusal.number(), refusal.index()],
        Ok(a) => {
            let reason = u64::from(a.reason == ExitReason::Iterations);
            let r = a.r.map_or(vec![0, 0], |r| vec![1, r.to_bits()]);
            let lists = a.home.iter().chain(&a.crate_reading);
            [a.rho.to_bits(), a.obj.to_bits(), a.iterations, a.support]
                .into_iter()
                .chain([reason, a.home.len() as u64])
                .chain(r)
                .chain(lists.map(|x| x.to_bits()))
                .collect()
        }
    }
}

/// The places of a list that aren't retired.
fn kept<T: Clone>(list: &[T], retired: &[bool]) -> Vec<T> {
    let standing = list.iter().zip(retired).filter(|(_, retired)| !**retired);
    standing.map(|(item, _)| item.clone()).collect()
}

/// The problem without its retired samples.
fn without(l: &Lists, retired: &[bool]) -> Lists {
    let columns: Vec<&[f64]> = l.matrix.chunks(retired.len()).collect();
    let columns = kept(&columns, retired).into_iter();
    Lists {
        matrix: columns.flat_map(|column| kept(column, retired)).collect(),
        labels: kept(&l.labels, retired),
        ceilings: kept(&l.ceilings, retired),
        alphas: kept(&l.alphas, retired),
        linear: kept(&l.linear, retired),
    }
}

/// The answer of that problem with 0 at the places of those that are retired.
fn put_back(answer: Answer, retired: &[bool]) -> Answer {
    let spread = |list: Vec<f64>| -> Vec<f64> {
        let mut rest = list.into_iter();
        let place = |gone: &bool| if *gone { 0.0 } else { rest.next().unwrap() };
        retired.iter().map(place).collect()
    };
    Answer {
        home: spread(answer.home),
        crate_reading: spread(answer.crate_reading),
        ..answer
    }
}

#[test]
fn with_nobody_retired_the_answer_is_the_usual_one() {
    let huge = 2f64.powi(1000);
    let costs = [(1.0, 1.0), (2.0, 0.5), (5e-324, huge), (huge, huge)];
    let mut zeros = 0;
    for seed in 0..40 {
        let l = lists(seed, 1 + seed % 23);
        let nobody = vec![false; l.labels.len()];
        for nu_rule in [false, true] {
            let usual = fit_general(&l.general(nu_rule), &off());
            let found = fit_retired(&l.general(nu_rule), &nobody, &off());
            assert_eq!(bits(&found), bits(&usual));
        }
        for (cpos, cneg) in costs {
            let usual = fit_c(&l.problem(), cpos, cneg, &off());
            let found = fit_c_retired(&l.problem(), cpos, cneg, &nobody, &off());
            assert_eq!(bits(&found), bits(&usual));
            let home = usual.unwrap().home;
            zeros += home.iter().filter(|w| w.to_bits() == 1 << 63).count();
        }
    }
    assert!(zeros > 0);
}

#[test]
fn retired_samples_are_as_if_they_were_not_there() {
    let mut steps = 0;
    for seed in 0..40 {
        let n = 2 + seed % 20;
        let l = lists(seed, n);
        for step in [2, 3, 7, n] {
            let retired: Vec<bool> = (0..n).map(|k| (k + seed) % step == 0).collect();
            let rest = without(&l, &retired);
            for nu_rule in [false, true] {
                let found = fit_retired(&l.general(nu_rule), &retired, &off());
                let small = fit_general(&rest.general(nu_rule), &off());
                let expected = small.map(|answer| put_back(answer, &retired));
                assert_eq!(bits(&found), bits(&expected));
            }
            let found = fit_c_retired(&l.problem(), 2.0, 1.0, &retired, &off());
            let small = fit_c(&rest.problem(), 2.0, 1.0, &off());
            let expected = small.map(|answer| put_back(answer, &retired));
            assert_eq!(bits(&found), bits(&expected));
            steps += found.unwrap().iterations;
        }
    }
    assert!(steps > 1000, "{}", steps);
}

/// Whatever stands at the retired places, as long as it isn't refused.
#[test]
fn what_is_given_for_a_retired_sample_has_no_say() {
    let huge = 2f64.powi(1000);
    for seed in 0..20 {
        let n = 4 + seed % 9;
        let l = lists(seed, n);
        let retired: Vec<bool> = (0..n).map(|k| k % 3 == seed % 3).collect();
        let mut other = l.clone();
        for k in (0..n).filter(|k| retired[*k]) {
            for j in 0..n {
                other.matrix[k * n + j] = -huge;
                other.matrix[j * n + k] = huge;
            }
            other.labels[k] = !l.labels[k];
            other.ceilings[k] = huge;
            other.alphas[k] = huge;
            other.linear[k] = f64::MAX;
        }
        for nu_rule in [false, true] {
            let answers = [&l, &other].map(|l| fit_retired(&l.general(nu_rule), &retired, &off()));
            assert!(answers[0].is_ok());
            assert_eq!(bits(&answers[0]), bits(&answers[1]));
        }
        let answers = [&l, &other].map(|l| fit_c_retired(&l.problem(), 1.0, 2.0, &retired, &off()));
        assert!(answers[0].is_ok());
        assert_eq!(bits(&answers[0]), bits(&answers[1]));
    }
}

#[test]
fn with_everybody_retired_nothing_is_trained() {
    for n in [1, 2, 512] {
        let l = lists(3, n);
        let all = vec![true; n];
        let fits = [
            fit_retired(&l.general(false), &all, &off()),
            fit_retired(&l.general(true), &all, &off()),
            fit_c_retired(&l.problem(), 1.0, 1.0, &all, &off()),
        ];
        for (k, fit) in fits.into_iter().enumerate() {
            let a = fit.unwrap();
            assert!(a.rho.is_nan());
            assert_eq!(a.r.map(f64::is_nan), (k == 1).then(|| true));
            assert_eq!((a.obj.to_bits(), a.iterations, a.support), (0, 0, 0));
            assert_eq!(a.reason, ExitReason::Threshold);
            for list in [a.home, a.crate_reading] {
                assert_eq!(list.len(), n);
                assert!(list.iter().all(|x| x.to_bits() == 0));
            }
        }
    }
}

/// Every bad input in every company: with nobody retired it is what fit_c says, and 13 comes last.
#[test]
fn refusals_are_those_of_the_usual_fit() {
    let huge = 2f64.powi(1000);
    let above = f64::from_bits(huge.to_bits() + 1);
    let costs = [1.0, 0.0, -0.0, -1.0, 5e-324, huge, above, f64::NAN];
    let mut numbers = [0; 14];
    for (entry, labels) in [(1.0, [true, true]), (f64::NAN, [false, true])] {
        for (cpos, cneg) in costs.iter().flat_map(|p| costs.map(|n| (*p, n))) {
            for (eps, budget) in [(0.0, 9), (-0.0, 9), (0.0, 0), (f64::NAN, u64::MAX)] {
                let matrix = [1.0, 0.0, entry, 1.0];
                for matrix in [&matrix[..], &matrix[..3]] {
                    let problem = Problem {
                        matrix,
                        labels: &labels,
                    };
                    let off = Options {
                        eps,
                        budget,
                        shrinking: false,
                    };
                    let usual = fit_c(&problem, cpos, cneg, &off);
                    let found = fit_c_retired(&problem, cpos, cneg, &[false; 2], &off);
                    assert_eq!(bits(&found), bits(&usual));
                    let on = Options {
                        shrinking: true,
                        ..off
                    };
                    let refused = usual.err().unwrap_or(Refusal::RetiredShrinking);
                    for retired in [[false, false], [true, true]] {
                        let found = fit_c_retired(&problem, cpos, cneg, &retired, &on);
                        assert_eq!(found, Err(refused));
                    }
                    numbers[refused.number() as usize] += 1;
                }
            }
        }
    }
    for number in [2, 3, 5, 8, 10, 13] {
        assert!(numbers[number] > 0, "{:?}", numbers);
    }
}

/// Refusal 5 speaks of the costs, not of samples: it is there where nobody has the label, and where all who have it are retired.
#[test]
fn both_costs_are_judged_whoever_has_them() {
    let l = lists(1, 4);
    for labels in [[true; 4], [false; 4], [false, true, false, true]] {
        let problem = Problem {
            labels: &labels,
            ..l.problem()
        };
        for retired in [[false; 4], [true; 4], [true, false, true, false]] {
            let fit = |cpos, cneg| fit_c_retired(&problem, cpos, cneg, &retired, &on());
            assert_eq!(fit(0.0, 1.0), Err(Refusal::Ceiling { index: 0 }));
            assert_eq!(fit(1.0, 0.0), Err(Refusal::Ceiling { index: 1 }));
            assert_eq!(fit(0.0, 0.0), Err(Refusal::Ceiling { index: 0 }));
            assert_eq!(fit(1.0, 1.0), Err(Refusal::RetiredShrinking));
        }
    }
}

/// A retired sample's lists are judged as any other's.
#[test]
fn what_is_given_for_a_retired_sample_is_judged() {
    let l = lists(2, 3);
    let wrong = |change: fn(&mut Lists)| {
        let mut l = l.clone();
        change(&mut l);
        fit_retired(&l.general(false), &[false, true, false], &on())
    };
    let nan = f64::NAN;
    assert_eq!(wrong(|_| {}), Err(Refusal::RetiredShrinking));
    assert_eq!(
        wrong(|l| l.matrix[5] = f64::INFINITY),
        Err(Refusal::Kernel { index: 5 })
    );
    assert_eq!(
        wrong(|l| l.ceilings[1] = 0.0),
        Err(Refusal::Ceiling { index: 1 })
    );
    assert_eq!(
        wrong(|l| l.alphas[1] = -1.0),
        Err(Refusal::Alpha { index: 1 })
    );
    assert_eq!(
        wrong(|l| l.linear[1] = f64::INFINITY),
        Err(Refusal::Linear { index: 1 })
    );
    let refused = |eps, budget| {
        let options = Options {
            eps,
            budget,
            ..on()
        };
        fit_retired(&l.general(false), &[true; 3], &options)
    };
    assert_eq!(refused(nan, 0), Err(Refusal::Eps));
    assert_eq!(refused(0.0, 0), Err(Refusal::Budget));
    assert_eq!(refused(0.0, 1), Err(Refusal::RetiredShrinking));
}

#[test]
fn a_retired_list_of_another_length_is_refused() {
    let mut l = lists(2, 3);
    l.matrix[0] = f64::NAN;
    for length in [0, 1, 2, 4, 512, 1 << 20] {
        let retired = vec![false; length];
        let found = fit_retired(&l.general(true), &retired, &on());
        assert_eq!(found, Err(Refusal::Length));
        let found = fit_c_retired(&l.problem(), 0.0, 0.0, &retired, &on());
        assert_eq!(found, Err(Refusal::Length));
    }
}

#[test]
fn no_number_of_samples_is_too_large_to_be_refused() {
    for n in [0, 513, 1 << 20] {
        let labels = vec![true; n];
        for retired in [&labels[..], &[]] {
            let problem = Problem {
                matrix: &[],
                labels: &labels,
            };
            let found = fit_c_retired(&problem, 0.0, f64::NAN, retired, &on());
            assert_eq!(found, Err(Refusal::Samples), "{}", n);
            let general = General {
                problem,
                ceilings: &[],
                alphas: &[],
                linear: &[],
                nu_rule: true,
            };
            let found = fit_retired(&general, retired, &on());
            assert_eq!(found, Err(Refusal::Samples), "{}", n);
        }
    }
}
