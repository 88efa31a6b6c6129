//! What a model decides and votes, over its lines pair by pair.
use crate::model::double;
use crate::saved::Model;
use crate::Trouble;
use altuliscia::{pairs, votes, NoVotes, Panel, Votes};

/// A training for each two languages, as the votes take them; of one class a training.
#[derive(Clone, Debug, PartialEq)]
pub struct Sorter {
    /// What each language is called, that of number 1 first; nothing where there is one class.
    pub labels: Vec<i32>,
    /// Of every pair the coefficients, those of its first language before those of its second, each in the model's order.
    coefficients: Vec<f64>,
    /// The serial number that each of them stands beside.
    serials: Vec<usize>,
    counts: Vec<u64>,
    rhos: Vec<f64>,
}

impl Sorter {
    pub fn of(model: &Model) -> Sorter {
        let mut sorter = Sorter {
            labels: model.labels.clone(),
            coefficients: Vec::new(),
            serials: Vec::new(),
            counts: Vec::new(),
            rhos: model.rhos.clone(),
        };
        if model.labels.is_empty() {
            sorter.take(model, 1, 0);
            sorter.counts.push(model.support.len() as u64);
        }
        for (first, second) in pairs(model.labels.len()) {
            // Each column is that of another language, its own left out.
            sorter.take(model, first, second - 2);
            sorter.take(model, second, first - 1);
            let both = model.counts[first - 1] + model.counts[second - 1];
            sorter.counts.push(both as u64);
        }
        sorter
    }

    /// Takes a column of a class.
    fn take(&mut self, model: &Model, class: usize, column: usize) {
        for line in model.lines(class) {
            self.coefficients.push(line.coefficients[column]);
            self.serials.push(line.serial);
        }
    }

    /// The largest serial number of the model; 0 where it lists nobody.
    pub fn largest(&self) -> usize {
        self.serials.iter().copied().max().unwrap_or(0)
    }

    /// The first serial number of the model whose value isn't finite, of values for the serial numbers from 1 on.
    pub fn wild(&self, values: &[f64]) -> Option<usize> {
        let wild = self.serials.iter().filter(|s| !values[**s - 1].is_finite());
        wild.copied().min()
    }

    /// The votes on a caption, by its kernel values with the serial numbers from 1 on: as many as the largest, or more.
    pub fn votes(&self, values: &[f64]) -> Result<Votes, NoVotes> {
        votes(&Panel {
            languages: self.labels.len(),
            coefficients: &self.coefficients,
            values: &self.own(values),
            coefficient_counts: &self.counts,
            value_counts: &self.counts,
            rhos: &self.rhos,
        })
    }

    /// The kernel values beside the coefficients.
    fn own(&self, values: &[f64]) -> Vec<f64> {
        self.serials.iter().map(|s| values[s - 1]).collect()
    }

    /// The coefficients of each pair with the kernel values beside them, and its rho.
    fn trainings<'a>(
        &'a self,
        own: &'a [f64],
    ) -> impl Iterator<Item = (&'a [f64], &'a [f64], f64)> + 'a {
        let mut start = 0;
        let each = self.counts.iter().zip(&self.rhos);
        each.map(move |(count, rho)| {
            let part = start..start + *count as usize;
            start = part.end;
            (&self.coefficients[part.clone()], &own[part], *rho)
        })
    }

    /// What each pair decides, by such values. The library votes on each of them, and a decision whose sign isn't its vote is a fault of
    /// this program.
    pub fn decisions(&self, values: &[f64]) -> Result<Vec<f64>, Trouble> {
        let own = self.own(values);
        let one = |(coefficients, values, rho): (&[f64], &[f64], f64)| {
            let decision = decision(coefficients, values, rho);
            if (decision >= 0.0) != first_has_it(coefficients, values, rho)? {
                let told = format!(
                    "a decision of {} isn't what the library votes",
                    double(decision)
                );
                return Err(Trouble::Differs(told));
            }
            Ok(decision)
        };
        self.trainings(&own).map(one).collect()
    }

    /// The first decision that isn't finite, by such values, in words.
    pub fn empty(&self, values: &[f64]) -> Option<String> {
        let own = self.own(values);
        let decided = self.trainings(&own).map(|(c, v, rho)| decision(c, v, rho));
        let (k, wild) = decided.enumerate().find(|(_, x)| !x.is_finite())?;
        let pair = pairs(self.labels.len()).nth(k);
        let of = |(a, b)| format!(" of {},{}", self.label(a), self.label(b));
        let of = pair.map_or(String::new(), of);
        Some(format!("the decision{} is {}", of, double(wild)))
    }

    /// What a language is called, by its number.
    pub fn label(&self, language: usize) -> i32 {
        self.labels[language - 1]
    }
}

/// The sum in the order of the votes, over zeros too, less rho.
fn decision(coefficients: &[f64], values: &[f64], rho: f64) -> f64 {
    let terms = coefficients.iter().zip(values).map(|(c, v)| c * v);
    terms.fold(0.0, |sum, term| sum + term) - rho
}

/// Whether the library votes for the first of two languages.
fn first_has_it(coefficients: &[f64], values: &[f64], rho: f64) -> Result<bool, Trouble> {
    let counts = [coefficients.len() as u64];
    let found = votes(&Panel {
        languages: 2,
        coefficients,
        values,
        coefficient_counts: &counts,
        value_counts: &counts,
        rhos: &[rho],
    });
    let found = found.map_err(|why| Trouble::Differs(why.to_string()))?;
    Ok(found.winner() == 1)
}

#[cfg(test)]
mod tests {
    use super::*;
    use crate::saved::tests::MODEL;

    fn parsed(text: &str) -> Sorter {
        Sorter::of(&Model::of("a", text.as_bytes()).unwrap())
    }

    #[test]
    fn a_pair_has_the_lines_of_its_two_languages() {
        let s = parsed(MODEL);
        assert_eq!(
            (&s.labels[..], &s.counts[..]),
            (&[7, -1, 9][..], &[3, 3, 2][..])
        );
        assert_eq!(s.serials, [4, 1, 2, 4, 1, 3, 2, 3]);
        assert_eq!(s.coefficients, [1.0, 3.0, -4.0, 2.0, 0.0, -2.0, 5.0, -5.0]);
        assert_eq!((s.largest(), s.label(3)), (4, 9));
        assert_eq!(s.rhos[..2], [0.5, -1.0]);
        // 1*8 + 3*1 - 4*2 is 3, 2*8 - 2*4 is 8, and NaN is the second's.
        let found = s.votes(&[1.0, 2.0, 4.0, 8.0, f64::NAN]).unwrap();
        assert_eq!((found.winner(), found.counts()), (1, &[2, 0, 1][..]));
        let decided = s.decisions(&[1.0, 2.0, 4.0, 8.0]).unwrap();
        assert_eq!(decided[..2], [3.0 - 0.5, 8.0 + 1.0]);
        assert!(decided[2].is_nan());
        // Words of a model with probabilities, another order of the head, ends of lines.
        let other = MODEL
            .replace(
                "nr_sv",
                "probA 1 2 3\nprobB 1 2 3\nprob_density_marks 1\nnr_sv",
            )
            .replace("svm_type c_svc\n", "")
            .replace("SV\n", "svm_type nu_svc\nSV\n")
            .replace('\n', " \r\n");
        assert_eq!(
            format!("{:?}", parsed(&other)),
            format!("{:?}", parsed(MODEL))
        );
    }

    /// A zero and a negative zero are the first's, NaN the second's, and a NaN beside a weight of 0 has its say, as in the votes.
    #[test]
    fn the_sign_of_a_decision_is_the_librarys_vote() {
        let s = parsed(MODEL);
        for values in [
            [0.0, 0.0, 0.0, 0.5],
            [-0.0, 0.0, -0.0, 0.5],
            [1.0, 1.0, 1.0, 1.0],
            [f64::NAN, 1.0, 1.0, 1.0],
            [1.0, f64::INFINITY, 1.0, f64::INFINITY],
            [1.0, f64::NEG_INFINITY, 1e308, -1e308],
        ] {
            let decided = s.decisions(&values).unwrap();
            let found = s.votes(&values).unwrap();
            let mut counts = [0; 3];
            for ((first, second), decision) in pairs(3).zip(&decided) {
                let winner = if *decision >= 0.0 { first } else { second };
                counts[winner - 1] += 1;
            }
            assert_eq!(counts, found.counts()[..3], "{:?} {:?}", values, decided);
        }
        let decided = s.decisions(&[f64::NAN, 1.0, 1.0, 1.0]).unwrap();
        assert!(decided[1].is_nan(), "{:?}", decided);
    }
}
