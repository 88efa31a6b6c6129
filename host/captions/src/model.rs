//! What the pairs of a model file decide, to be compared with what is told of it.

/// A model of several languages as `altuliscia train` writes it, or LIBSVM's svm-train.
pub struct Model {
    rhos: Vec<f64>,
    /// Of each language its lines: a weight for each other language, and the serial number.
    support: Vec<Vec<(Vec<f64>, usize)>>,
}

impl Model {
    /// Reads a model's text. Nothing where it is something else.
    pub fn read(text: &str) -> Option<Model> {
        let words = |name: &str| -> Option<Vec<f64>> {
            let line = text.lines().find_map(|line| line.strip_prefix(name))?;
            line.split_whitespace().map(|w| w.parse().ok()).collect()
        };
        let (rhos, counts) = (words("rho ")?, words("nr_sv ")?);
        let all = counts.len();
        let mut lines = text.lines().skip_while(|line| *line != "SV").skip(1);
        let mut one = || {
            let (weights, serial) = lines.next()?.trim().split_once(" 0:")?;
            let weights: Option<Vec<f64>> = weights.split(' ').map(|w| w.parse().ok()).collect();
            let weights = weights.filter(|list| list.len() + 1 == all)?;
            let serial = serial.parse().ok().filter(|serial| *serial > 0)?;
            Some((weights, serial))
        };
        let support = counts
            .iter()
            .map(|count| (0..*count as usize).map(|_| one()).collect());
        let model = Model {
            rhos,
            support: support.collect::<Option<_>>()?,
        };
        let pairs = altuliscia::pairs(all).count();
        // behind the last weight stands its record, if anything
        let recorded = lines.all(|line| line.starts_with('#'));
        (model.rhos.len() == pairs && recorded).then_some(model)
    }

    /// What each pair decides on a caption, by its kernel values: the sum over the model's lines in their order, less rho.
    pub fn decisions(&self, values: &[f64]) -> Vec<f64> {
        let pairs = altuliscia::pairs(self.support.len()).zip(&self.rhos);
        let decided = pairs.map(|((first, second), rho)| {
            // Its weights against the other stand among all but its own.
            let sides = [(first, second - 2), (second, first - 1)];
            let lines = sides.iter().flat_map(|(language, column)| {
                let lines = self.support[language - 1].iter();
                lines.map(move |(weights, serial)| weights[*column] * values[serial - 1])
            });
            lines.fold(0.0, |sum, term| sum + term) - rho
        });
        decided.collect()
    }
}

#[cfg(test)]
mod tests {
    use super::*;

    const SMALL: &str = "svm_type c_svc
kernel_type precomputed
nr_class 3
total_sv 4
rho 0.5 -1 0.25
label 7 3 9
nr_sv 2 1 1
SV
1 2 0:1
4 8 0:3
-5 16 0:2
-10 -16 0:4
";

    #[test]
    fn each_pair_has_its_columns() {
        let model = Model::read(SMALL).unwrap();
        let decided = model.decisions(&[1.0, 0.5, 2.0, 0.25]);
        assert_eq!(
            decided,
            [
                1.0 + 8.0 - 2.5 - 0.5,
                2.0 + 16.0 - 2.5 + 1.0,
                8.0 - 4.0 - 0.25
            ]
        );
    }

    #[test]
    fn a_record_behind_it_is_passed_over() {
        for (line, known) in [("# version 1.6.0", true), ("1 2 0:5", false)] {
            let model = Model::read(&format!("{}{}\n", SMALL, line));
            assert_eq!(model.is_some(), known, "{}", line);
        }
    }

    #[test]
    fn something_else_is_no_model() {
        for (from, to) in [
            ("rho ", "roh "),
            ("rho 0.5 -1", "rho 0.5"),
            ("nr_sv 2 1 1", "nr_sv 2 1"),
            ("nr_sv 2 1 1", "nr_sv 2 1 2"),
            ("nr_sv 2 1 1", "nr_sv 1 1 1"),
            ("SV\n1", "VS\n1"),
            ("4 8 0:3", "4 0:3"),
            ("4 8 0:3", "4 x 0:3"),
            ("4 8 0:3", "4 8 0:0"),
            ("4 8 0:3", "4 8 1:3"),
        ] {
            assert_eq!(SMALL.matches(from).count(), 1, "{}", from);
            assert!(Model::read(&SMALL.replace(from, to)).is_none(), "{}", to);
        }
    }
}
