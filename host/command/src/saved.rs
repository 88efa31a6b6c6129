//! Model files read again: LIBSVM's text for a precomputed kernel, of two to twelve classes or of one, and the record behind it.
use crate::arguments::Fit;
use crate::model::double;
use crate::problem::whole;
use crate::record::Record;
use crate::{input, text, Trouble};
use altuliscia::{pairs, FEWEST_LANGUAGES, MOST_LANGUAGES};
use std::collections::BTreeSet;
use std::str::FromStr;

/// A model as its file has it.
#[derive(Clone, Debug, PartialEq)]
pub struct Model {
    /// What its file is called.
    pub path: String,
    pub fit: Fit,
    /// What each class is called, that of number 1 first; nothing where there is one class.
    pub labels: Vec<i32>,
    /// One a pair.
    pub rhos: Vec<f64>,
    /// How many lines each class has, in their order.
    pub counts: Vec<usize>,
    pub support: Vec<Support>,
    /// The number of the line SV.
    pub begins: usize,
    pub record: Option<Record>,
}

/// A line below SV: a coefficient for each other class, and a serial number.
#[derive(Clone, Debug, PartialEq)]
pub struct Support {
    pub coefficients: Vec<f64>,
    pub serial: usize,
}

/// Whether a file's bytes are a model's rather than a problem's: by its first word.
pub fn is_model(data: &[u8]) -> bool {
    let start = data.strip_prefix(b"\xef\xbb\xbf").unwrap_or(data);
    start.starts_with(b"svm_type ")
}

impl Model {
    pub fn read(path: &str) -> Result<Model, Trouble> {
        Model::of(input::name(path), &input::read(path)?)
    }

    /// The model of a file's bytes.
    pub fn of(path: &str, data: &[u8]) -> Result<Model, Trouble> {
        let text = text::decoded(path, data)?;
        let told =
            |(line, text): (usize, String)| Trouble::File(format!("{}:{}: {}", path, line, text));
        let mut model = parsed(&text).map_err(told)?;
        model.path = path.to_string();
        Ok(model)
    }

    /// Takes the lines below SV, as many as the counts say.
    fn take(&mut self, lines: &[&str]) -> Result<(), (usize, String)> {
        let total: usize = self.counts.iter().sum();
        let width = self.labels.len().max(2) - 1;
        for (k, line) in lines.iter().enumerate().skip(self.begins).take(total) {
            // A record that comes too soon.
            if line.starts_with('#') {
                break;
            }
            let support = supporting(line, width).map_err(|told| (k + 1, told))?;
            self.support.push(support);
        }
        match self.support.len() {
            all if all == total => Ok(()),
            some => {
                let told = format!("the model ends after {} of {} lines below SV", some, total);
                Err((self.begins + some, told))
            }
        }
    }

    /// The lines of a class, by its number.
    pub fn lines(&self, class: usize) -> &[Support] {
        let start: usize = self.counts[..class - 1].iter().sum();
        &self.support[start..start + self.counts[class - 1]]
    }

    /// The trainings of it: their names, as --pair takes them, and the rho of each. Of one class the name is empty.
    pub fn trainings(&self) -> Vec<(String, f64)> {
        let label = |k: usize| self.labels[k - 1];
        let names: Vec<String> = match self.labels.len() {
            0 => vec![String::new()],
            k => pairs(k)
                .map(|(a, b)| format!("{},{}", label(a), label(b)))
                .collect(),
        };
        names.into_iter().zip(self.rhos.iter().copied()).collect()
    }

    /// Why it isn't to be released, where it says so itself: by its record, by a rho or a weight that isn't finite, since it lists nobody,
    /// or somebody twice.
    pub fn unfit(&self) -> Option<String> {
        let recorded = self.record.as_ref().and_then(|record| record.unfit.clone());
        let rho = || {
            let wrong = self
                .trainings()
                .into_iter()
                .find(|(_, rho)| !rho.is_finite());
            wrong.map(|(name, rho)| match name.is_empty() {
                true => format!("rho is {}", double(rho)),
                false => format!("the rho of the pair {} is {}", name, double(rho)),
            })
        };
        let weight = || {
            let words = |line: &Support| {
                let wild = line.coefficients.iter().find(|x| !x.is_finite())?;
                let (serial, wild) = (line.serial, double(*wild));
                Some(format!("a weight of serial {} is {}", serial, wild))
            };
            self.support.iter().find_map(words)
        };
        let nobody = || {
            self.support
                .is_empty()
                .then(|| "it lists no weight".to_string())
        };
        let twice = || {
            let mut seen = BTreeSet::new();
            let again = self.support.iter().find(|line| !seen.insert(line.serial));
            again.map(|line| format!("it has the serial number {} twice", line.serial))
        };
        let numbers = recorded.or_else(rho).or_else(weight);
        numbers.or_else(nobody).or_else(twice)
    }
}

/// What stands above the line SV.
#[derive(Default)]
struct Head<'a> {
    kind: Option<&'a str>,
    kernel: Option<&'a str>,
    classes: Option<usize>,
    total: Option<usize>,
    rhos: Option<Vec<f64>>,
    labels: Option<Vec<i32>>,
    counts: Option<Vec<usize>>,
}

/// A model's text. An error has its line.
fn parsed(text: &str) -> Result<Model, (usize, String)> {
    let lines: Vec<&str> = text.lines().collect();
    let mut head = Head::default();
    let sv = lines.iter().position(|line| line.trim() == "SV");
    for (k, line) in lines.iter().take(sv.unwrap_or(lines.len())).enumerate() {
        head.take(line).map_err(|told| (k + 1, told))?;
    }
    let begins = match sv {
        Some(k) => k + 1,
        None => return Err((lines.len().max(1), "the model ends before SV".to_string())),
    };
    let mut model = head.judged().map_err(|told| (begins, told))?;
    model.begins = begins;
    model.take(&lines)?;
    let after = begins + model.support.len();
    model.record = match lines.get(after) {
        None => None,
        Some(line) if line.starts_with('#') => Some(Record::read(&lines, after)?),
        Some(_) => {
            let told = format!(
                "more lines below SV than the {} that total_sv says",
                model.support.len()
            );
            return Err((after + 1, told));
        }
    };
    // A serial number that was cut would be another one.
    if !text.ends_with('\n') {
        let told = "the last line has no end: the model may have been cut short";
        return Err((lines.len(), told.to_string()));
    }
    Ok(model)
}

impl<'a> Head<'a> {
    fn take(&mut self, line: &'a str) -> Result<(), String> {
        let mut words = line.split_ascii_whitespace();
        let name = words.next().ok_or("an empty line")?;
        let rest: Vec<&str> = words.collect();
        match name {
            "svm_type" => once(&mut self.kind, name, one(name, &rest)?),
            "kernel_type" => once(&mut self.kernel, name, one(name, &rest)?),
            "nr_class" => once(&mut self.classes, name, number(name, one(name, &rest)?)?),
            "total_sv" => once(&mut self.total, name, number(name, one(name, &rest)?)?),
            "rho" => once(&mut self.rhos, name, numbers(name, &rest)?),
            "label" => once(&mut self.labels, name, numbers(name, &rest)?),
            "nr_sv" => once(&mut self.counts, name, numbers(name, &rest)?),
            // Of probabilities, which no vote needs.
            "probA" | "probB" | "prob_density_marks" => Ok(()),
            _ => Err(format!("'{}' is no word of a model above SV", name)),
        }
    }

    /// A model without its lines below SV, where what stands above that agrees.
    fn judged(self) -> Result<Model, String> {
        let fit = self.fit()?;
        let classes = self.of_classes(fit)?;
        let total = self.total.ok_or_else(|| missing("total_sv"))?;
        let mut model = Model {
            path: String::new(),
            fit,
            labels: Vec::new(),
            rhos: self.rhos.ok_or_else(|| missing("rho"))?,
            counts: vec![total],
            support: Vec::new(),
            begins: 0,
            record: None,
        };
        if fit != Fit::OneClass {
            model.labels = self.labels.ok_or_else(|| missing("label"))?;
            model.counts = self.counts.ok_or_else(|| missing("nr_sv"))?;
        }
        // A model of one class says 2, and has neither labels nor counts.
        let each = if fit == Fit::OneClass { 0 } else { classes };
        for (name, found, wanted) in [
            ("rho", model.rhos.len(), pairs(classes).count()),
            ("label", model.labels.len(), each),
            ("nr_sv", model.counts.len(), each.max(1)),
        ] {
            if found != wanted {
                return Err(format!(
                    "{} has {} numbers where nr_class {} has {}",
                    name, found, classes, wanted
                ));
            }
        }
        agreeing(&model, total)?;
        Ok(model)
    }

    fn fit(&self) -> Result<Fit, String> {
        match self.kind.ok_or_else(|| missing("svm_type"))? {
            "c_svc" => Ok(Fit::C),
            "nu_svc" => Ok(Fit::Nu),
            "one_class" => Ok(Fit::OneClass),
            other => Err(format!(
                "svm_type {}: it is none of c_svc, nu_svc, one_class",
                other
            )),
        }
    }

    /// How many classes there are.
    fn of_classes(&self, fit: Fit) -> Result<usize, String> {
        match self.kernel.ok_or_else(|| missing("kernel_type"))? {
            "precomputed" => {}
            other => {
                return Err(format!(
                    "kernel_type {}: only a precomputed kernel is sorted by",
                    other
                ))
            }
        }
        let classes = self.classes.ok_or_else(|| missing("nr_class"))?;
        let most = match fit {
            Fit::OneClass => 2,
            _ => MOST_LANGUAGES,
        };
        match (FEWEST_LANGUAGES..=most).contains(&classes) {
            true => Ok(classes),
            false if most == 2 => Err(format!("nr_class {}: a model of one class has 2", classes)),
            false => Err(format!(
                "nr_class {}: {} to {} languages are sorted",
                classes, FEWEST_LANGUAGES, MOST_LANGUAGES
            )),
        }
    }
}

fn missing(name: &str) -> String {
    format!("{} is missing above it", name)
}

/// Whether no label is there twice, and every class has its lines.
fn agreeing(model: &Model, total: usize) -> Result<(), String> {
    let labels = &model.labels;
    let twice = (1..labels.len()).find(|k| labels[..*k].contains(&labels[*k]));
    if let Some(k) = twice {
        return Err(format!("label has {} twice", labels[k]));
    }
    let all = model.counts.iter();
    let all = all.copied().try_fold(0, usize::checked_add);
    match all == Some(total) {
        true => Ok(()),
        false => Err(format!(
            "the numbers of nr_sv don't add up to total_sv, {}",
            total
        )),
    }
}

fn once<T>(place: &mut Option<T>, name: &str, value: T) -> Result<(), String> {
    match place.replace(value) {
        Some(_) => Err(format!("{} is there twice", name)),
        None => Ok(()),
    }
}

fn one<'a>(name: &str, words: &[&'a str]) -> Result<&'a str, String> {
    match words {
        [word] => Ok(word),
        _ => Err(format!("one word should follow {}", name)),
    }
}

fn number<T: FromStr>(name: &str, word: &str) -> Result<T, String> {
    word.parse()
        .map_err(|_| format!("{}: '{}' is not such a number", name, word))
}

fn numbers<T: FromStr>(name: &str, words: &[&str]) -> Result<Vec<T>, String> {
    words.iter().map(|word| number(name, word)).collect()
}

fn supporting(line: &str, count: usize) -> Result<Support, String> {
    let words: Vec<&str> = line.split_ascii_whitespace().collect();
    let (serial, coefficients) = match words.split_last() {
        Some((serial, before)) if before.len() == count => (serial, before),
        _ => {
            let told = "{} coefficients and 0:serial should stand here";
            return Err(told.replace("{}", &count.to_string()));
        }
    };
    let coefficients = coefficients
        .iter()
        .map(|word| number("a coefficient", word))
        .collect::<Result<_, _>>()?;
    let serial = serial.strip_prefix("0:").and_then(whole);
    match serial.and_then(|serial| usize::try_from(serial).ok()) {
        Some(serial) if serial > 0 => Ok(Support {
            coefficients,
            serial,
        }),
        _ => Err(format!(
            "'{}' stands where 0:serial, a whole number from 1 on, should",
            words[count]
        )),
    }
}

#[cfg(test)]
pub mod tests {
    use super::*;

    /// Three languages, four captions.
    pub const MODEL: &str = "svm_type c_svc
kernel_type precomputed
nr_class 3
total_sv 4
rho 0.5 -1 nan
label 7 -1 9
nr_sv 2 1 1
SV
1 2 0:4
3 0 0:1
-4 5 0:2
-2 -5 0:3
";

    #[test]
    fn a_wrong_model_is_told_with_its_line() {
        for (from, to, line, told) in [
            ("svm_type c_svc\n", "", 7, "svm_type is missing above it"),
            (
                "c_svc",
                "epsilon_svr",
                8,
                "svm_type epsilon_svr: it is none of c_svc, nu_svc, one_class",
            ),
            (
                "c_svc",
                "one_class",
                8,
                "nr_class 3: a model of one class has 2",
            ),
            ("c_svc", "", 1, "one word should follow svm_type"),
            (
                "precomputed",
                "rbf",
                8,
                "kernel_type rbf: only a precomputed kernel is sorted by",
            ),
            (
                "kernel_type precomputed\n",
                "",
                7,
                "kernel_type is missing above it",
            ),
            (
                "nr_class 3",
                "nr_class 13",
                8,
                "nr_class 13: 2 to 12 languages are sorted",
            ),
            (
                "nr_class 3",
                "nr_class 1",
                8,
                "nr_class 1: 2 to 12 languages are sorted",
            ),
            (
                "nr_class 3",
                "nr_class -3",
                3,
                "nr_class: '-3' is not such a number",
            ),
            (
                "nr_class 3",
                "nr_class 4",
                8,
                "rho has 3 numbers where nr_class 4 has 6",
            ),
            (
                "nr_class 3",
                "nr_class 3\nnr_class 3",
                4,
                "nr_class is there twice",
            ),
            ("nr_class 3\n", "", 7, "nr_class is missing above it"),
            (
                "rho 0.5 -1 nan",
                "rho 0.5 -1",
                8,
                "rho has 2 numbers where nr_class 3 has 3",
            ),
            ("rho 0.5", "rho 0,5", 5, "rho: '0,5' is not such a number"),
            ("rho 0.5 -1 nan\n", "", 7, "rho is missing above it"),
            (
                "label 7 -1 9",
                "label 7 -1",
                8,
                "label has 2 numbers where nr_class 3 has 3",
            ),
            ("label 7 -1 9", "label 7 -1 7", 8, "label has 7 twice"),
            (
                "label 7 -1 9",
                "label 7 -1 1.5",
                6,
                "label: '1.5' is not such a number",
            ),
            ("label 7 -1 9\n", "", 7, "label is missing above it"),
            (
                "nr_sv 2 1 1",
                "nr_sv 2 1",
                8,
                "nr_sv has 2 numbers where nr_class 3 has 3",
            ),
            (
                "nr_sv 2 1 1",
                "nr_sv 2 2 1",
                8,
                "the numbers of nr_sv don't add up to total_sv, 4",
            ),
            (
                "nr_sv 2 1 1",
                "nr_sv 18446744073709551615 4 1",
                8,
                "the numbers of nr_sv don't add up to total_sv, 4",
            ),
            (
                "total_sv 4",
                "total_sv 5",
                8,
                "the numbers of nr_sv don't add up to total_sv, 5",
            ),
            ("total_sv 4\n", "", 7, "total_sv is missing above it"),
            (
                "label",
                "gamma",
                6,
                "'gamma' is no word of a model above SV",
            ),
            ("label", "\nlabel", 6, "an empty line"),
            ("SV\n", "", 8, "'1' is no word of a model above SV"),
            (
                "-2 -5 0:3\n",
                "",
                11,
                "the model ends after 3 of 4 lines below SV",
            ),
            (
                "-2 -5 0:3\n",
                "-2 -5 0:3\n\n",
                13,
                "more lines below SV than the 4 that total_sv says",
            ),
            (
                "-2 -5 0:3",
                "-2 0:3",
                12,
                "2 coefficients and 0:serial should stand here",
            ),
            (
                "-2 -5 0:3",
                "-2 -5",
                12,
                "2 coefficients and 0:serial should stand here",
            ),
            (
                "-2 -5 0:3",
                "-2 -5 1 0:3",
                12,
                "2 coefficients and 0:serial should stand here",
            ),
            (
                "-2 -5 0:3",
                "-2 x 0:3",
                12,
                "a coefficient: 'x' is not such a number",
            ),
            (
                "-2 -5 0:3",
                "-2 -5 1:3",
                12,
                "'1:3' stands where 0:serial, a whole number from 1 on, should",
            ),
            (
                "-2 -5 0:3",
                "-2 -5 0:0",
                12,
                "'0:0' stands where 0:serial, a whole number from 1 on, should",
            ),
            (
                "-2 -5 0:3",
                "-2 -5 0:-3",
                12,
                "'0:-3' stands where 0:serial, a whole number from 1 on, should",
            ),
            (
                "-2 -5 0:3",
                "-2 -5 0:",
                12,
                "'0:' stands where 0:serial, a whole number from 1 on, should",
            ),
        ] {
            assert_eq!(MODEL.matches(from).count(), 1, "{}", from);
            let found = parsed(&MODEL.replace(from, to)).unwrap_err();
            assert_eq!(found, (line, told.to_string()));
        }
        assert_eq!(
            parsed("").unwrap_err(),
            (1, "the model ends before SV".to_string())
        );
        let cut = MODEL.split_once("SV\n").unwrap().0;
        let told = "the model ends before SV".to_string();
        assert_eq!(parsed(cut).unwrap_err(), (7, told));
        let cut = parsed(&MODEL[..MODEL.len() - 1]).unwrap_err();
        let told = "the last line has no end: the model may have been cut short";
        assert_eq!(cut, (12, told.to_string()));
        for end in 0..MODEL.len() {
            assert!(parsed(&MODEL[..end]).is_err(), "{}", end);
        }
    }
}
