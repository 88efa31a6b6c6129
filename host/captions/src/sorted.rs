//! Trains on captions and sorts the held-out ones by each reading.
use crate::Figures;
use altuliscia::{fit_c, Answer, Options, Problem, Refusal};

/// How an accepted run sorts.
#[derive(Clone, Debug, PartialEq)]
pub struct Sorted {
    /// How many held-out captions are sorted rightly by each caption's own weight.
    pub home: usize,
    /// How many by the list that `linfa-svm` answers.
    pub crate_reading: usize,
    /// At how many training captions the two lists differ.
    pub differ: usize,
    /// How many steps the run took.
    pub steps: u64,
    /// The offset. Where it is NaN no decision is 0 or above, and every caption is sorted to the second language.
    pub rho: f64,
}

/// The sum over samples, in their order, of weight times kernel value, less rho. From 0 on it is the first class.
pub fn decision(weights: &[f64], values: &[f64], rho: f64) -> f64 {
    let sum = |total, (weight, value): (&f64, &f64)| total + weight * value;
    weights.iter().zip(values).fold(0.0, sum) - rho
}

/// Trains the first n captions with one ceiling for both languages.
pub fn fitted(f: &Figures, n: usize, c: f64, options: &Options) -> Result<Answer, Refusal> {
    let problem = Problem {
        matrix: &f.matrix(n),
        labels: &f.labels(n),
    };
    fit_c(&problem, c, c, options)
}

/// The training captions whose two weights differ, in their order.
pub fn parted(answer: &Answer) -> Vec<usize> {
    let same = |a: f64, b: f64| a == b || a.is_nan() && b.is_nan();
    (0..answer.home.len())
        .filter(|k| !same(answer.home[*k], answer.crate_reading[*k]))
        .collect()
}

/// Sorts every held-out caption by each list of an answer.
pub fn sorted(f: &Figures, answer: &Answer) -> Sorted {
    Sorted {
        home: right(f, answer, &answer.home),
        crate_reading: right(f, answer, &answer.crate_reading),
        differ: parted(answer).len(),
        steps: answer.iterations,
        rho: answer.rho,
    }
}

/// Trains, then sorts.
pub fn measured(f: &Figures, n: usize, c: f64, options: &Options) -> Result<Sorted, Refusal> {
    fitted(f, n, c, options).map(|answer| sorted(f, &answer))
}

fn right(f: &Figures, answer: &Answer, weights: &[f64]) -> usize {
    let n = weights.len();
    let held = f.held.iter();
    held.filter(|caption| {
        let first = decision(weights, &f.values(caption, n), answer.rho) >= 0.0;
        first == caption.first
    })
    .count()
}

#[cfg(test)]
mod tests {
    use super::*;

    /// The first training caption is like the first held-out one, the second like the second.
    const SMALL: &str = "package none 0
languages xx yy
train 2
held 3
1 4
0 0 9
1 4 4 0
0 9 0 9
1 9 0 9
";

    #[test]
    fn right_and_wrong_are_counted() {
        let figures = Figures::read(SMALL).unwrap();
        let sorted = measured(&figures, 2, 1.0, &Options::default()).unwrap();
        assert_eq!(
            (sorted.home, sorted.crate_reading, sorted.differ),
            (2, 2, 0)
        );
        assert_eq!((sorted.steps, sorted.rho), (1, 0.0));
    }

    #[test]
    fn a_decision_of_zero_is_the_first_class() {
        let figures = Figures::read(&SMALL.replace("1 4 4 0", "1 4 0 0")).unwrap();
        assert_eq!(
            decision(&[1.0, -1.0], &figures.values(&figures.held[0], 2), 0.0),
            0.0
        );
        assert_eq!(
            measured(&figures, 2, 1.0, &Options::default())
                .unwrap()
                .home,
            2
        );
    }

    #[test]
    fn the_sum_is_taken_in_order() {
        let (weights, values) = ([1e16, 1.0, -1e16], [1.0, 1.0, 1.0]);
        assert_eq!(decision(&weights, &values, 0.5), -0.5);
    }
}
