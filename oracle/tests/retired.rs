//! Retired samples: passed over, put back as +0, and without a say.

use oracle::draw::redraw_retired;
use oracle::marks::{Owed, Tally};
use oracle::problem::{LIMIT, MOST_PASSES};
use oracle::random::Random;
use oracle::record::Told;
use oracle::retired::{kept, without};
use oracle::{draw, draw_retired, judge, solve, Accepted, Entry, Problem, Reason};

/// Two samples of the first worked run, with a retired one in between that
/// would spoil everything.
fn three() -> Problem {
    let big = LIMIT;
    let entries = [1.0, big, 0.0, big, -big, big, 0.0, big, 1.0];
    let mut p = Problem::over(Entry::Retired, 3, &entries);
    p.labels = vec![1, 1, 0];
    p.ceilings = vec![1.0, 5.0, 1.0];
    p.alphas = vec![0.0, 5.0, 0.0];
    p.linear = vec![-1.0, -f64::MAX, -1.0];
    p.retired = vec![0, 1, 0];
    p.eps = 0.001;
    p.budget = 100;
    p
}

fn accepted(p: &Problem) -> Accepted {
    let answer = solve(p, true);
    answer.accepted().expect("accepted").clone()
}

fn bits(list: &[f64]) -> Vec<u64> {
    list.iter().map(|x| x.to_bits()).collect()
}

/// Gradients start at -1 and -1. The pair has curvature 2, so both weights rise
/// by 1 to their ceilings, and both gradients become 0: no pair is left. rho is
/// half of 0 - 0, obj half of 1·(0 - 1) twice.
#[test]
fn a_run_by_hand() {
    let a = accepted(&three());
    assert_eq!(bits(&a.home), bits(&[1.0, 0.0, 1.0]));
    assert_eq!(bits(&a.crate_reading), bits(&[1.0, 0.0, 1.0]));
    assert_eq!(bits(&a.weights), bits(&[1.0, 0.0, 1.0]));
    assert_eq!(a.order, [0, 1, 2]);
    assert_eq!((a.rho, a.obj, a.r), (0.0, -1.0, None));
    assert_eq!((a.iterations, a.reason), (1, Reason::Threshold));
    assert_eq!(a.support, 2);
    assert_eq!(bits(&a.gradient), bits(&[0.0, 0.0, 0.0]));
    let step = a.trace[0];
    assert_eq!((step.i, step.j, a.trace.len()), (0, 2, 1));
    assert_eq!((step.weight_i, step.weight_j), (1.0, 1.0));

    // not passed over, it would have a say
    let mut p = three();
    p.entry = Entry::General;
    assert_ne!(bits(&accepted(&p).home), bits(&a.home));
}

/// Under the nu rule a pair has one label, and neither has a partner: no pass.
/// Both weights are 0, so each label's level is half of infinity less infinity.
#[test]
fn a_run_by_hand_under_the_nu_rule() {
    let mut p = three();
    p.nu_rule = true;
    let a = accepted(&p);
    assert!(a.rho.is_nan() && a.r.expect("there is an r").is_nan());
    assert_eq!((a.iterations, a.reason), (0, Reason::Threshold));
    assert_eq!(bits(&a.home), bits(&[0.0; 3]));
    assert_eq!((a.obj.to_bits(), a.support), (0, 0));
}

#[test]
fn the_budget_is_that_of_the_others() {
    let mut p = three();
    p.budget = 1;
    let a = accepted(&p);
    assert_eq!((a.iterations, a.reason), (1, Reason::Iterations));
}

#[test]
fn everybody_retired() {
    for nu_rule in [false, true] {
        for budget in [1, 10_000_000] {
            let mut p = three();
            p.retired = vec![1; 3];
            (p.nu_rule, p.budget, p.eps) = (nu_rule, budget, 0.0);
            let a = accepted(&p);
            assert!(a.rho.is_nan());
            assert_eq!(a.r.map(f64::is_nan), nu_rule.then_some(true));
            assert_eq!(a.obj.to_bits(), 0);
            assert_eq!((a.iterations, a.reason), (0, Reason::Threshold));
            assert_eq!(a.support, 0);
            for list in [&a.home, &a.crate_reading, &a.weights] {
                assert_eq!(bits(list), [0; 3]);
            }
            assert_eq!(a.order, [0, 1, 2]);
        }
    }
}

/// One sample, retired or not.
#[test]
fn a_sample_by_itself() {
    for retired in [0, 1] {
        let mut p = Problem::over(Entry::Retired, 1, &[1.0]);
        (p.labels, p.ceilings) = (vec![1], vec![2.0]);
        (p.alphas, p.linear) = (vec![2.0], vec![-1.0]);
        p.retired = vec![retired];
        let a = accepted(&p);
        if retired == 1 {
            assert_eq!((a.home[0].to_bits(), a.support), (0, 0));
            assert!(a.rho.is_nan());
        } else {
            // the gradient is 2·1 - 1 and nothing bounds rho from above
            assert_eq!((a.home[0], a.support), (2.0, 1));
            assert_eq!((a.rho, a.obj), (f64::INFINITY, 0.0));
        }
    }
}

/// With nobody retired the entry is the general one with shrinking off.
#[test]
fn nobody_retired() {
    let mut compared = 0;
    for seed in 0..20_000 {
        let mut p = draw(seed);
        if p.entry != Entry::General || p.n > 512 {
            continue;
        }
        p.shrinking = false;
        if p.budget <= MOST_PASSES {
            // a large one was given to a run that shrinks
            p.budget = p.budget.min(2000);
        }
        let general = Told::of(&solve(&p, true));
        p.entry = Entry::Retired;
        p.retired = vec![0; p.n as usize];
        assert_eq!(Told::of(&solve(&p, true)), general, "seed {seed}");
        compared += 1;
    }
    assert!(compared > 5000, "{compared}");
}

/// What is lent for retired samples has no say, and they read +0.
#[test]
fn retired_samples_have_no_say() {
    let mut compared = 0;
    for seed in 0..20_000 {
        let p = draw_retired(seed);
        if judge(&p).is_some() {
            continue;
        }
        let told = Told::of(&solve(&p, true));
        for (k, b) in p.retired.iter().enumerate() {
            let zero = [told.home[k], told.crate_reading[k], told.weights[k]] == [0; 3];
            assert!(*b == 0 || zero, "seed {seed}");
            let chosen = |s: &[u64; 4]| s[..2].contains(&(k as u64));
            assert!(*b == 0 || !told.trace.iter().any(chosen), "seed {seed}");
        }
        let mut other = p.clone();
        redraw_retired(&mut Random::new(seed), &mut other);
        assert_eq!(judge(&other), None, "seed {seed}");
        assert_eq!(Told::of(&solve(&other, true)), told, "seed {seed}");
        compared += u64::from(p.matrix != other.matrix);
    }
    assert!(compared > 10_000, "{compared}");
}

/// What is left of a problem keeps its order, column by column.
#[test]
fn what_is_left() {
    let mut p = three();
    p.set_pattern(2, 7.0_f64.to_bits());
    p.set_pattern(6, 8.0_f64.to_bits());
    (p.nu_rule, p.shrinking) = (true, true);
    assert_eq!(kept(&p), [0, 2]);
    let rest = without(&p, &kept(&p));
    assert_eq!((rest.entry, rest.n), (Entry::General, 2));
    assert_eq!(rest.entries(), [1.0, 7.0, 8.0, 1.0]);
    assert_eq!(rest.labels, [1, 0]);
    assert_eq!(rest.ceilings, [1.0, 1.0]);
    assert_eq!(rest.alphas, [0.0, 0.0]);
    assert_eq!(rest.linear, [-1.0, -1.0]);
    assert_eq!((rest.nu_rule, rest.shrinking), (true, false));
    assert_eq!((rest.eps, rest.budget), (0.001, 100));
    assert_eq!(judge(&rest), None);
}

#[test]
fn draws_with_retired_samples_reach_every_kind() {
    let mut tally = Tally::owing(&[Owed::Retired]);
    for seed in 0..20_000 {
        let p = draw_retired(seed);
        assert_eq!(p.entry, Entry::Retired);
        tally.add(&p, &solve(&p, false));
    }
    let wrong = tally.wrong();
    assert!(wrong.is_empty(), "{wrong:?}\n{}", tally.lines().join("\n"));
    // passing over is what makes the answer
    let told = tally.count("retired: another answer if nobody were passed over");
    assert!(told > 8000, "{told}");
}
