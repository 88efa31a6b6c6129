//! Problems for the other tests.
use altuliscia::{General, Problem};

/// A matrix, labels and lists of n samples out of whole numbers, another for each seed.
#[derive(Clone)]
pub struct Lists {
    pub matrix: Vec<f64>,
    pub labels: Vec<bool>,
    pub ceilings: Vec<f64>,
    pub alphas: Vec<f64>,
    pub linear: Vec<f64>,
}

pub fn lists(seed: usize, n: usize) -> Lists {
    let word = |k: usize| ((seed + 1) * (k + 7) * 2_654_435_761) >> 7;
    let points: Vec<[f64; 3]> = (0..n)
        .map(|k| [0, 1, 2].map(|d| (word(3 * k + d) % 7) as f64))
        .collect();
    let dot = |a: &[f64; 3], b: &[f64; 3]| 1.0 + a[0] * b[0] + a[1] * b[1] + a[2] * b[2];
    let matrix = points
        .iter()
        .flat_map(|a| points.iter().map(move |b| dot(a, b)))
        .collect();
    Lists {
        matrix,
        labels: (0..n).map(|k| word(k + 1000) % 2 == 0).collect(),
        ceilings: (0..n).map(|k| (1 + word(k) % 3) as f64).collect(),
        alphas: vec![0.5; n],
        linear: (0..n).map(|k| (word(k + 500) % 5) as f64 - 2.0).collect(),
    }
}

impl Lists {
    pub fn problem(&self) -> Problem<'_> {
        Problem {
            matrix: &self.matrix,
            labels: &self.labels,
        }
    }

    pub fn general(&self, nu_rule: bool) -> General<'_> {
        General {
            problem: self.problem(),
            ceilings: &self.ceilings,
            alphas: &self.alphas,
            linear: &self.linear,
            nu_rule,
        }
    }
}
