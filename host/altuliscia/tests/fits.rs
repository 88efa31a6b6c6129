//! The fits through the C functions: the rule's worked runs, every refusal, any input at all.
use altuliscia::*;

const IDENTITY: [f64; 4] = [1.0, 0.0, 0.0, 1.0];

fn identity(n: usize) -> Vec<f64> {
    (0..n * n)
        .map(|k| f64::from(u8::from(k % n == k / n)))
        .collect()
}

fn two() -> Problem<'static> {
    Problem {
        matrix: &IDENTITY,
        labels: &[true, false],
    }
}

fn options(eps: f64, shrinking: bool, budget: u64) -> Options {
    Options {
        eps,
        shrinking,
        budget,
    }
}

#[test]
fn the_identity_is_trained_in_one_step() {
    for (budget, reason) in [(2, ExitReason::Threshold), (1, ExitReason::Iterations)] {
        let answer = fit_c(&two(), 1.0, 1.0, &options(0.001, true, budget)).unwrap();
        let expected = Answer {
            rho: 0.0,
            r: None,
            obj: -1.0,
            iterations: 1,
            reason,
            support: 2,
            crate_reading: vec![1.0, -1.0],
            home: vec![1.0, -1.0],
        };
        assert_eq!(answer, expected);
    }
    let answer = fit_c(&two(), 0.5, 0.5, &options(0.001, true, 2)).unwrap();
    assert_eq!((answer.home, answer.obj), (vec![0.5, -0.5], -0.75));
}

#[test]
fn one_label_alone_has_no_step() {
    let problem = Problem {
        matrix: &IDENTITY,
        labels: &[true, true],
    };
    let answer = fit_c(&problem, 1.0, 1.0, &Options::default()).unwrap();
    assert_eq!((answer.iterations, answer.support), (0, 0));
    assert_eq!(
        (answer.home, answer.rho),
        (vec![0.0, 0.0], f64::NEG_INFINITY)
    );
}

/// Both weights rise to their ceiling, and r is NaN where a label is missing.
#[test]
fn support_is_what_is_above_the_limit() {
    let past = f64::from_bits(SUPPORT_LIMIT.to_bits() + 1);
    let short = f64::from_bits(SUPPORT_LIMIT.to_bits() - 1);
    for (cost, support) in [
        (5e-324, 0),
        (1e-15, 0),
        (short, 0),
        (SUPPORT_LIMIT, 0),
        (past, 2),
        (1e-13, 2),
    ] {
        let answer = fit_c(&two(), cost, cost, &Options::default()).unwrap();
        assert_eq!((answer.home, answer.support), (vec![cost, -cost], support));
        let retired = fit_c_retired(&two(), cost, cost, &[false; 2], &Options::default());
        assert_eq!(retired.unwrap().support, support);
        let general = General {
            problem: two(),
            ceilings: &[cost, 1.0],
            alphas: &[cost, 1.0],
            linear: &[-1.0; 2],
            nu_rule: false,
        };
        let answer = fit_general(&general, &Options::default()).unwrap();
        assert_eq!(answer.support, 1 + support / 2);
    }
    let alike = Problem {
        matrix: &IDENTITY,
        labels: &[true, true],
    };
    let answer = fit_nu(&alike, 0.5, &Options::default()).unwrap();
    assert!(answer.home.iter().all(|w| w.is_nan()));
    assert_eq!(answer.support, 0);
}

/// The general problem whose tail of so many samples is given up again and again.
fn tail(many: usize) -> Result<Answer, Refusal> {
    let n = 3 + many;
    let with = |first: [f64; 3], rest: f64| [&first[..], &vec![rest; many][..]].concat();
    let general = General {
        problem: Problem {
            matrix: &identity(n),
            labels: &vec![true; n],
        },
        ceilings: &vec![100.0; n],
        alphas: &with([50.0; 3], 100.0),
        linear: &with([0.0, 1.0, 3.0], -1000.0),
        nu_rule: false,
    };
    fit_general(&general, &options(0.0, true, 100))
}

#[test]
fn a_tail_of_five_is_refused_and_one_of_four_is_not() {
    assert_eq!(tail(5), Err(Refusal::ShrunkAway));
    let answer = tail(4).unwrap();
    assert!(answer.rho.is_nan());
    assert_eq!(
        (answer.iterations, answer.reason),
        (7, ExitReason::Threshold)
    );
    assert_eq!(answer.obj, -379804.6640625);
}

#[test]
fn r_is_there_exactly_with_the_nu_rule() {
    let usual = Options::default();
    assert!(fit_nu(&two(), 0.5, &usual).unwrap().r.is_some());
    assert!(fit_c(&two(), 1.0, 1.0, &usual).unwrap().r.is_none());
    let one = OneClass {
        n: 2,
        matrix: &IDENTITY,
    };
    assert!(fit_one_class(&one, 0.5, &usual).unwrap().r.is_none());
    for nu_rule in [false, true] {
        let general = General {
            problem: two(),
            ceilings: &[1.0, 1.0],
            alphas: &[0.5, 0.5],
            linear: &[0.0, 0.0],
            nu_rule,
        };
        assert_eq!(fit_general(&general, &usual).unwrap().r.is_some(), nu_rule);
    }
}

#[test]
fn every_number_is_given() {
    let usual = Options::default();
    let c = |problem: &Problem, cpos, cneg, o: &Options| fit_c(problem, cpos, cneg, o).unwrap_err();
    let none = Problem {
        matrix: &[],
        labels: &[],
    };
    let short = Problem {
        matrix: &IDENTITY[..3],
        ..two()
    };
    let nan = Problem {
        matrix: &[1.0, f64::NAN, 0.0, 1.0],
        ..two()
    };
    assert_eq!(c(&none, 1.0, 1.0, &usual), Refusal::Samples);
    assert_eq!(c(&short, 1.0, 1.0, &usual), Refusal::Length);
    assert_eq!(c(&nan, 1.0, 1.0, &usual), Refusal::Kernel { index: 1 });
    assert_eq!(c(&two(), 1.0, 0.0, &usual), Refusal::Ceiling { index: 1 });
    assert_eq!(c(&two(), 1.0, 1.0, &options(-0.0, false, 1)), Refusal::Eps);
    assert_eq!(
        c(&two(), 1.0, 1.0, &options(0.0, false, 0)),
        Refusal::Budget
    );
    assert_eq!(fit_nu(&two(), 0.0, &usual), Err(Refusal::Nu));
    let fine = General {
        problem: two(),
        ceilings: &[1.0, 1.0],
        alphas: &[0.0, 0.0],
        linear: &[0.0, 0.0],
        nu_rule: false,
    };
    let alpha = General {
        alphas: &[0.0, 1.5],
        ..fine
    };
    let linear = General {
        linear: &[f64::INFINITY, 0.0],
        ..fine
    };
    let ceiling = General {
        ceilings: &[f64::NAN, 0.0],
        ..fine
    };
    assert_eq!(
        fit_general(&alpha, &usual),
        Err(Refusal::Alpha { index: 1 })
    );
    assert_eq!(
        fit_general(&linear, &usual),
        Err(Refusal::Linear { index: 0 })
    );
    assert_eq!(
        fit_general(&ceiling, &usual),
        Err(Refusal::Ceiling { index: 0 })
    );
    for list in [&[][..], &[0.0], &[0.0; 3]] {
        for short in [
            General {
                ceilings: list,
                ..fine
            },
            General {
                alphas: list,
                ..fine
            },
            General {
                linear: list,
                ..fine
            },
        ] {
            assert_eq!(fit_general(&short, &usual), Err(Refusal::Length));
        }
    }
}

#[test]
fn the_edges_of_the_rule() {
    let usual = Options::default();
    let all = vec![true; 513];
    let large = identity(513);
    let many = |n: usize| Problem {
        matrix: &large[..n * n],
        labels: &all[..n],
    };
    assert!(fit_c(&many(512), 1.0, 1.0, &usual).is_ok());
    assert_eq!(fit_c(&many(513), 1.0, 1.0, &usual), Err(Refusal::Samples));

    let limit = 2f64.powi(1000);
    let past = f64::from_bits(limit.to_bits() + 1);
    let entry = |x: f64| {
        fit_c(
            &Problem {
                matrix: &[x],
                labels: &[true],
            },
            1.0,
            1.0,
            &usual,
        )
    };
    assert!(entry(limit).is_ok() && entry(-limit).is_ok());
    assert_eq!(entry(past), Err(Refusal::Kernel { index: 0 }));
    assert_eq!(entry(-past), Err(Refusal::Kernel { index: 0 }));
    assert!(fit_nu(&two(), 1.0, &usual).is_ok());
    assert_eq!(fit_nu(&two(), 1.0 + f64::EPSILON, &usual), Err(Refusal::Nu));
}

#[test]
fn no_number_of_samples_is_too_large_to_be_refused() {
    for n in [0, 513, 1 << 31, 1 << 61, usize::MAX / 8, usize::MAX] {
        let samples = OneClass { n, matrix: &[] };
        let refused = fit_one_class(&samples, 0.5, &Options::default());
        assert_eq!(refused, Err(Refusal::Samples), "{}", n);
    }
    for n in [1, 2, 512] {
        let samples = OneClass { n, matrix: &[] };
        let refused = fit_one_class(&samples, 0.5, &Options::default());
        assert_eq!(refused, Err(Refusal::Length), "{}", n);
    }
}
