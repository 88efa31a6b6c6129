//! Where the weight of each caption came from.
use altuliscia::{trail, OneClass, Options, Problem, Trail, Training};
use captions::Figures;

fn figures() -> Figures {
    Figures::read(include_str!("../../../captions/cs-sk.txt")).unwrap()
}

/// The trails of all captions. Each pass stands in two of them, and each trail ends at its caption's weight.
fn trails(training: &Training, eps: f64) -> Vec<Trail> {
    let options = Options {
        eps,
        ..Options::default()
    };
    let answer = training.fit(&options).unwrap();
    let n = answer.home.len();
    let all: Vec<Trail> = (0..n)
        .map(|s| trail(training, s, &options).unwrap())
        .collect();
    let passes = all.iter().flat_map(|t| t.steps.iter().map(|s| s.pass));
    let mut passes: Vec<u64> = passes.collect();
    passes.sort_unstable();
    let each: Vec<u64> = (1..=answer.iterations).flat_map(|t| [t, t]).collect();
    assert_eq!(passes, each);
    for (s, told) in all.iter().enumerate() {
        assert_eq!(told.answer, answer);
        assert_eq!(told.home.to_bits(), answer.home[s].to_bits());
        let last = told.steps.last().map_or(told.start, |step| step.left);
        assert_eq!(told.end.to_bits(), last.to_bits());
    }
    all
}

/// How many captions are at their ceiling, inside, back at 0, and never chosen.
fn places(all: &[Trail]) -> [usize; 4] {
    let mut counts = [0; 4];
    for told in all {
        let place = match told {
            _ if told.steps.is_empty() => 3,
            _ if told.end == 0.0 => 2,
            _ if told.end == told.ceiling => 0,
            _ => 1,
        };
        counts[place] += 1;
    }
    counts
}

#[test]
fn with_a_cost() {
    let (matrix, labels) = (figures().matrix(64), figures().labels(64));
    let problem = Problem {
        matrix: &matrix,
        labels: &labels,
    };
    for (cost, eps, steps, expected) in [
        (1.0, 1e-7, 48, [61, 3, 0, 0]),
        (1.0, 1e-3, 35, [61, 3, 0, 0]),
        (10.0, 1e-7, 406, [2, 60, 0, 2]),
        (10.0, 1e-3, 200, [2, 60, 0, 2]),
    ] {
        let training = Training::C {
            problem,
            cpos: cost,
            cneg: cost,
        };
        let all = trails(&training, eps);
        assert_eq!(all[0].answer.iterations, steps);
        assert_eq!(places(&all), expected, "{} {}", cost, eps);
    }
}

#[test]
fn with_retired_captions() {
    let (matrix, labels) = (figures().matrix(64), figures().labels(64));
    let mut retired = vec![false; 64];
    retired[19] = true;
    let training = Training::CRetired {
        problem: Problem {
            matrix: &matrix,
            labels: &labels,
        },
        cpos: 10.0,
        cneg: 10.0,
        retired: &retired,
    };
    let all = trails(&training, 1e-7);
    assert_eq!(all[0].answer.iterations, 425);
    assert!(all[19].retired && all[19].steps.is_empty());
    assert_eq!(all.iter().filter(|told| told.retired).count(), 1);
}

#[test]
fn with_nu_and_one_class() {
    let (matrix, labels) = (figures().matrix(64), figures().labels(64));
    let problem = Problem {
        matrix: &matrix,
        labels: &labels,
    };
    let samples = OneClass {
        n: 64,
        matrix: &matrix,
    };
    for nu in [0.5, 0.3] {
        let all = trails(&Training::Nu { problem, nu }, 1e-7);
        let r = all[0].answer.r.unwrap();
        assert!(r.is_finite() && r > 0.0);
        for (told, positive) in all.iter().zip(&labels) {
            let signed = if *positive { told.end } else { -told.end };
            assert_eq!(told.home.to_bits(), (signed / r).to_bits());
        }
        assert!(places(&all)[1] > 10, "{:?}", places(&all));
        let all = trails(&Training::OneClass { samples, nu }, 1e-7);
        let starts: f64 = all.iter().map(|told| told.start).sum();
        assert!((starts - nu * 64.0).abs() < 1e-12);
        assert!(places(&all)[1] > 10, "{:?}", places(&all));
    }
}
