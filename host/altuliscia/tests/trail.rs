//! The trails of all samples of a training, beside each other and beside what the library answers.
mod drawn;

use altuliscia::*;
use drawn::{lists, Lists};
use std::collections::BTreeSet;

/// What the steps of some trails were like.
#[derive(Debug, Default)]
struct Counts {
    steps: usize,
    firsts: usize,
    agree: usize,
    clipped: usize,
    /// The weight was left as it was, to the bit.
    still: usize,
    /// The sample's gradient was infinite.
    endless: usize,
    /// Samples that no step chose.
    untouched: usize,
}

/// A NaN is a NaN.
fn same(x: f64, y: f64) -> bool {
    x.to_bits() == y.to_bits() || x.is_nan() && y.is_nan()
}

/// All trails of a training, after what holds of any of them was tried.
fn trails(training: &Training, options: &Options, counts: &mut Counts) -> Vec<Trail> {
    let answer = training.fit(options).unwrap();
    let n = answer.home.len();
    let all: Vec<Trail> = (0..n)
        .map(|s| trail(training, s, options).unwrap_or_else(|e| panic!("sample {}: {}", s, e)))
        .collect();
    for (s, told) in all.iter().enumerate() {
        assert_eq!(told.sample, s);
        assert!(same(told.home, answer.home[s]));
        assert_eq!(told.answer.iterations, answer.iterations);
        let mut weight = told.start;
        for step in &told.steps {
            assert!(same(step.before.weight, weight));
            assert!(same(step.before.ceiling, told.ceiling));
            weight = step.left;
            recomputed(step);
            mirrored(&all, s, step);
            count(step, counts);
        }
        assert!(same(told.end, weight));
        counts.untouched += usize::from(told.steps.is_empty());
        if answer.r.is_none() {
            assert_eq!(told.calls, 1 + budgets(told).len() as u64);
        }
    }
    let passes = all.iter().flat_map(|t| t.steps.iter().map(|s| s.pass));
    let mut passes: Vec<u64> = passes.collect();
    passes.sort_unstable();
    let each: Vec<u64> = (1..=answer.iterations).flat_map(|t| [t, t]).collect();
    assert_eq!(passes, each);
    all
}

/// The budgets that a trail's steps are compared at.
fn budgets(told: &Trail) -> BTreeSet<u64> {
    let both = told.steps.iter().flat_map(|s| [s.pass - 1, s.pass]);
    both.filter(|budget| *budget > 0).collect()
}

/// The library's pair finder leaves what the step left.
fn recomputed(step: &Step) {
    let (own, other) = (&step.before, &step.partner_before);
    let (i, j) = if step.first {
        (own, other)
    } else {
        (other, own)
    };
    let (x, y) = find_pair(i, j, step.entry, step.agree);
    let (x, y) = if step.first { (x, y) } else { (y, x) };
    assert!(same(x, step.left) && same(y, step.partner_left));
}

/// The partner's trail has the same step, seen from the other side.
fn mirrored(all: &[Trail], s: usize, step: &Step) {
    let turned = Step {
        partner: s,
        first: !step.first,
        before: step.partner_before,
        partner_before: step.before,
        left: step.partner_left,
        partner_left: step.left,
        ..*step
    };
    let mut theirs = all[step.partner].steps.iter();
    let found = theirs.find(|other| other.pass == step.pass);
    assert_eq!(format!("{:?}", found), format!("{:?}", Some(turned)));
}

fn count(step: &Step, counts: &mut Counts) {
    counts.steps += 1;
    counts.firsts += usize::from(step.first);
    counts.agree += usize::from(step.agree);
    let unclipped = step.before.weight + step.asked();
    counts.clipped += usize::from(!same(unclipped, step.left));
    counts.still += usize::from(same(step.before.weight, step.left));
    counts.endless += usize::from(step.before.gradient.is_infinite());
}

fn off(budget: u64) -> Options {
    Options {
        eps: 1e-3,
        shrinking: false,
        budget,
    }
}

/// Every kind of training of these lists.
fn kinds<'a>(l: &'a Lists, retired: &'a [bool]) -> Vec<Training<'a>> {
    let problem = l.problem();
    let samples = OneClass {
        n: l.labels.len(),
        matrix: &l.matrix,
    };
    let costs = |cpos, cneg| Training::C {
        problem,
        cpos,
        cneg,
    };
    let general = |nu_rule| Training::General(l.general(nu_rule));
    let without = |nu_rule| Training::Retired {
        general: l.general(nu_rule),
        retired,
    };
    vec![
        costs(1.0, 1.0),
        costs(2.0, 0.25),
        Training::CRetired {
            problem,
            cpos: 1.0,
            cneg: 0.5,
            retired,
        },
        Training::Nu { problem, nu: 0.3 },
        Training::OneClass { samples, nu: 0.4 },
        general(false),
        general(true),
        without(false),
        without(true),
    ]
}

#[test]
fn trails_of_drawn_problems_are_confirmed() {
    let mut counts = Counts::default();
    for seed in 0..25 {
        let n = 1 + seed % 12;
        let l = lists(seed, n);
        let retired: Vec<bool> = (0..n).map(|k| (k + seed) % 4 == 0).collect();
        for training in kinds(&l, &retired) {
            for budget in [1, 7, 60] {
                trails(&training, &off(budget), &mut counts);
            }
        }
    }
    assert!(counts.steps > 5000, "{:?}", counts);
    let all = [
        counts.agree,
        counts.steps - counts.agree,
        counts.clipped,
        counts.steps - counts.clipped,
        counts.untouched,
    ];
    assert!(all.iter().all(|count| *count > 50), "{:?}", counts);
    assert_eq!(counts.firsts * 2, counts.steps);
}

/// Numbers that look drawn.
struct Drawn(u64);

impl Drawn {
    fn of(&mut self, list: &[f64]) -> f64 {
        self.0 = self
            .0
            .wrapping_mul(6364136223846793005)
            .wrapping_add(1442695040888963407);
        list[(self.0 >> 33) as usize % list.len()]
    }
}

/// Entries and terms as large and as small as they may be, ceilings that differ: gradients become infinite and NaN.
fn strange(seed: u64, n: usize) -> Lists {
    let huge = 2f64.powi(1000);
    let entries = [0.0, -0.0, 1.0, -2.0, 0.3, huge, -huge, 1e-300, 5e-324];
    let ceilings = [5e-324, 1e-3, 1.0, 7.0, 1e200, huge];
    let terms = [-1.0, 0.0, 3.0, f64::MAX, -f64::MAX, 1e-320];
    let mut drawn = Drawn(seed);
    let matrix = (0..n * n).map(|_| drawn.of(&entries)).collect();
    let ceilings: Vec<f64> = (0..n).map(|_| drawn.of(&ceilings)).collect();
    let part = |x: f64, drawn: &mut Drawn| drawn.of(&[0.0, -0.0, x, x / 2.0]);
    Lists {
        matrix,
        labels: (0..n).map(|_| drawn.of(&[0.0, 1.0]) == 1.0).collect(),
        alphas: ceilings.iter().map(|x| part(*x, &mut drawn)).collect(),
        linear: (0..n).map(|_| drawn.of(&terms)).collect(),
        ceilings,
    }
}

#[test]
fn trails_of_strange_numbers_are_confirmed() {
    let mut counts = Counts::default();
    for seed in 0..600 {
        let n = 2 + seed as usize % 6;
        let l = strange(seed, n);
        let retired: Vec<bool> = (0..n).map(|k| (k as u64 + seed) % 5 == 0).collect();
        let options = Options {
            eps: [0.0, 1e-3, 1e300][seed as usize % 3],
            ..off(12)
        };
        for training in kinds(&l, &retired) {
            trails(&training, &options, &mut counts);
        }
    }
    let all = [
        counts.clipped,
        counts.still,
        counts.endless,
        counts.untouched,
    ];
    assert!(all.iter().all(|count| *count > 500), "{:?}", counts);
}

/// With a threshold of 0 the run goes on with steps that change nothing.
#[test]
fn a_sample_may_be_chosen_in_thousands_of_passes() {
    let l = lists(3, 5);
    let training = Training::C {
        problem: l.problem(),
        cpos: 1.0,
        cneg: 1.0,
    };
    let options = Options {
        eps: 0.0,
        ..off(3000)
    };
    let told = trail(&training, 2, &options).unwrap();
    assert_eq!(told.answer.reason, ExitReason::Iterations);
    assert_eq!(told.steps.len(), 2981);
    assert_eq!(told.calls, 1 + budgets(&told).len() as u64);
    let still = told.steps.iter().filter(|s| s.taken() == 0.0).count();
    assert!(still > 2000, "{}", still);
}

/// Two samples of each label, of which the last is retired or stands without being needed.
fn four() -> Lists {
    let mut l = lists(0, 4);
    l.matrix = (0..16)
        .map(|k| f64::from(u8::from(k % 4 == k / 4)))
        .collect();
    l.labels = vec![true, false, true, false];
    l
}

#[test]
fn a_sample_that_is_never_chosen_keeps_its_start() {
    let mut l = four();
    // Its kernel values with the others make it as sure as they are, without a weight of its own.
    for k in 0..3 {
        l.matrix[4 * k + 3] = [-9.0, 9.0, -9.0][k];
        l.matrix[12 + k] = [-9.0, 9.0, -9.0][k];
    }
    let training = Training::C {
        problem: l.problem(),
        cpos: 1.0,
        cneg: 1.0,
    };
    let told = trail(&training, 3, &Options::default()).unwrap();
    assert_eq!((told.steps.len(), told.start, told.end), (0, 0.0, 0.0));
    assert_eq!((told.retired, told.calls), (false, 1));
    assert_eq!(told.home.to_bits(), (-0.0_f64).to_bits());
    let told = trail(&training, 0, &Options::default()).unwrap();
    assert!(!told.steps.is_empty() && told.calls > 1);
}

#[test]
fn a_retired_sample_starts_at_zero_and_stays() {
    let mut l = four();
    l.alphas = vec![0.25; 4];
    let retired = [false, false, false, true];
    let general = Training::Retired {
        general: l.general(false),
        retired: &retired,
    };
    let costs = Training::CRetired {
        problem: l.problem(),
        cpos: 1.0,
        cneg: 1.0,
        retired: &retired,
    };
    for training in [general, costs] {
        let told = trail(&training, 3, &Options::default()).unwrap();
        assert!(told.retired && told.steps.is_empty());
        assert_eq!(told.start.to_bits(), 0);
        assert_eq!((told.end.to_bits(), told.home.to_bits()), (0, 0));
        for s in 0..3 {
            let told = trail(&training, s, &Options::default()).unwrap();
            assert!(!told.retired);
            assert!(told.steps.iter().all(|step| step.partner != 3));
        }
    }
}

#[test]
fn what_stands_in_the_way_is_told() {
    let l = lists(4, 6);
    let retired = [false; 6];
    let on = Options {
        shrinking: true,
        ..off(9)
    };
    for training in kinds(&l, &retired) {
        assert_eq!(trail(&training, 0, &on), Err(NoTrail::Shrinking));
        let none = NoTrail::Sample { sample: 6, n: 6 };
        assert_eq!(trail(&training, 6, &off(9)), Err(none));
        let refused = Err(NoTrail::Refused(Refusal::Budget));
        assert_eq!(trail(&training, 6, &off(0)), refused);
    }
    let mut bad = l.clone();
    bad.matrix[7] = f64::NAN;
    for training in kinds(&bad, &retired) {
        let refused = Err(NoTrail::Refused(Refusal::Kernel { index: 7 }));
        assert_eq!(trail(&training, 0, &off(9)), refused);
    }
    for training in kinds(&l, &retired[..5]) {
        let fit = training.fit(&off(9));
        let told = trail(&training, 0, &off(9));
        assert_eq!(told.err(), fit.err().map(NoTrail::Refused));
    }
    let none = Training::C {
        problem: Problem {
            matrix: &[],
            labels: &[],
        },
        cpos: 1.0,
        cneg: 1.0,
    };
    let refused = Err(NoTrail::Refused(Refusal::Samples));
    assert_eq!(trail(&none, 0, &off(9)), refused);
}

/// What a step takes and leaves, in the numbers of the rule.
#[test]
fn the_first_step_is_the_rules() {
    let problem = Problem {
        matrix: &[2.0, 0.5, 0.5, 1.0],
        labels: &[true, false],
    };
    let training = Training::C {
        problem,
        cpos: 10.0,
        cneg: 10.0,
    };
    let told = trail(&training, 0, &Options::default()).unwrap();
    let found = |diagonal| Before {
        weight: 0.0,
        ceiling: 10.0,
        gradient: -1.0,
        diagonal,
    };
    let step = Step {
        pass: 1,
        partner: 1,
        first: true,
        before: found(2.0),
        partner_before: found(1.0),
        entry: -0.5,
        agree: false,
        delta: 1.0,
        left: 1.0,
        partner_left: 1.0,
    };
    assert_eq!(told.steps, [step]);
    assert_eq!((step.asked(), step.taken()), (1.0, 1.0));
    assert!(!step.clipped());
    assert_eq!((told.calls, told.ceiling), (2, 10.0));
}

/// The curvature of two like samples is 0, and the floor stands for it.
#[test]
fn a_flat_step_is_clipped() {
    let training = Training::C {
        problem: Problem {
            matrix: &[1.0; 4],
            labels: &[true, false],
        },
        cpos: 10.0,
        cneg: 10.0,
    };
    let told = trail(&training, 1, &Options::default()).unwrap();
    let step = told.steps[0];
    assert_eq!((step.delta, step.asked()), (2.0 / 1e-10, 2.0 / 1e-10));
    assert_eq!((step.left, step.taken()), (10.0, 10.0));
    assert!(step.clipped());
}

/// docs/DIFFERENCES.md has weights above their ceiling where ceilings differ.
#[test]
fn a_weight_may_be_above_its_ceiling() {
    let matrix = [3, 2, 0, 1, 2, 2, 2, 1, 0, 2, 2, 2, 1, 1, 2, 1].map(f64::from);
    let general = General {
        problem: Problem {
            matrix: &matrix,
            labels: &[false, true, true, true],
        },
        ceilings: &[2.0, 1.0, 1.0, 1.0],
        alphas: &[2.0, 0.0, 1.0, 0.0],
        linear: &[-2.0, 0.0, -2.0, 0.0],
        nu_rule: false,
    };
    let options = Options {
        eps: 0.0,
        ..off(100)
    };
    let mut counts = Counts::default();
    let all = trails(&Training::General(general), &options, &mut counts);
    let above: Vec<usize> = (0..4).filter(|s| all[*s].end > all[*s].ceiling).collect();
    assert_eq!(above, [1]);
}

/// Where the labels agree, what the first loses the second gains.
#[test]
fn what_is_asked_of_a_sample_has_its_sign() {
    let samples = OneClass {
        n: 2,
        matrix: &[1.0, 0.0, 0.0, 3.0],
    };
    let training = Training::OneClass { samples, nu: 0.5 };
    let steps = [0, 1].map(|s| trail(&training, s, &Options::default()).unwrap().steps[0]);
    assert_eq!(steps.map(|s| s.agree), [true; 2]);
    assert_eq!(steps.map(|s| s.first), [false, true]);
    assert_eq!(steps[0].delta, steps[1].delta);
    assert_eq!(steps[0].asked(), -steps[1].asked());
    assert_eq!(steps.map(|s| s.asked()), steps.map(|s| s.taken()));
    assert_eq!(steps[0].taken(), -0.25);
}
