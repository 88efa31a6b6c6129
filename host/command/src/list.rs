//! Lists of weights: a table, CSV or JSON. The fields are the same whatever is listed; one that isn't known is empty, in JSON null.
use crate::arguments::{Fit, Form, Settings};
use crate::model::double;
use crate::problem::Samples;
use crate::saved::Model;
use crate::{record, report, text, Trouble};
use altuliscia::{pairs, Answer, ExitReason};

/// A weight of a sample in a training.
pub struct Row {
    /// The sample's number, from 0 on.
    pub sample: Option<usize>,
    pub serial: u64,
    pub label: Option<i32>,
    /// The other label of the training.
    pub against: Option<i32>,
    pub weight: f64,
    pub ceiling: Option<f64>,
    /// `at`, `above`, `below 0`, `retired`.
    pub mark: Option<&'static str>,
    /// What linfa-svm says.
    pub other: Option<f64>,
    pub caption: Option<String>,
}

/// Weights, and what is known of where they come from.
pub struct List {
    pub path: String,
    pub model: bool,
    pub version: Option<String>,
    pub options: Option<String>,
    pub eps: Option<f64>,
    pub retired: Option<Vec<u64>>,
    /// Nothing where neither is known.
    pub release: Option<bool>,
    pub unfit: Option<String>,
    /// What who trained was told to look at.
    pub cautions: Option<Vec<String>>,
    /// The name of each training, its rho and why it ended.
    pub trainings: Vec<(String, f64, Option<String>)>,
    pub rows: Vec<Row>,
}

impl List {
    /// Of a training of two classes, or of one.
    pub fn of(s: &Samples, settings: &Settings, ceilings: (f64, f64), a: &Answer) -> List {
        let unfit = report::unfit(settings, a);
        let pair: Vec<String> = s.classes.iter().map(i32::to_string).collect();
        let exit = match a.reason {
            ExitReason::Threshold => "threshold",
            ExitReason::Iterations => "iterations",
        };
        let gone = (0..s.n).filter(|k| s.retired[*k]);
        let row = |k: usize| {
            let class = s.class(k);
            Row {
                sample: Some(k),
                serial: s.serials[k],
                label: class.and_then(|class| s.classes.get(class)).copied(),
                against: class
                    .and_then(|class| s.classes.get(1 - class.min(1)))
                    .copied(),
                weight: a.home[k],
                ceiling: Some(report::ceiling(s, settings.fit, ceilings, a, k)),
                mark: report::mark(s, settings.fit, ceilings, a, k),
                other: Some(a.crate_reading[k]),
                caption: None,
            }
        };
        List {
            path: s.path.clone(),
            model: false,
            version: Some(env!("CARGO_PKG_VERSION").to_string()),
            options: Some(record::options(s, settings)),
            eps: Some(settings.eps),
            retired: Some(gone.map(|k| s.serials[k]).collect()),
            release: Some(unfit.is_none()),
            unfit,
            cautions: None,
            trainings: vec![(pair.join(","), a.rho, Some(exit.to_string()))],
            rows: (0..s.n).map(row).collect(),
        }
    }

    /// What a model has: the weights that aren't 0.
    pub fn of_model(model: &Model) -> List {
        let record = model.record.as_ref();
        let unfit = model.unfit();
        let exit = |k: usize| record.and_then(|r| r.exits.get(k)).cloned();
        let trainings = model.trainings().into_iter().enumerate();
        let of = |k: usize| model.labels.get(k - 1).copied();
        let mut rows = Vec::new();
        if model.labels.is_empty() {
            rows.extend(column(model, 1, 0, [None, None]));
        }
        for (first, second) in pairs(model.labels.len()) {
            rows.extend(column(model, first, second - 2, [of(first), of(second)]));
            rows.extend(column(model, second, first - 1, [of(second), of(first)]));
        }
        List {
            path: model.path.clone(),
            model: true,
            version: record.map(|r| r.version.clone()),
            options: record.map(|r| r.options.clone()),
            eps: record.and_then(|r| r.settings()).map(|s| s.eps),
            retired: record.map(|r| r.retired.clone()),
            release: match (&unfit, record) {
                (Some(_), _) => Some(false),
                (None, Some(_)) => Some(true),
                (None, None) => None,
            },
            unfit,
            cautions: record.map(|r| r.cautions.clone()),
            trainings: trainings.map(|(k, (n, rho))| (n, rho, exit(k))).collect(),
            rows,
        }
    }

    /// Only the training of these two labels.
    pub fn paired(&mut self, labels: [i32; 2]) -> Result<(), Trouble> {
        let names = [labels, [labels[1], labels[0]]].map(|[a, b]| format!("{},{}", a, b));
        self.trainings.retain(|(name, ..)| names.contains(name));
        let of = |label: Option<i32>| label.map_or(false, |label| labels.contains(&label));
        self.rows.retain(|row| of(row.label) && of(row.against));
        match self.trainings.is_empty() {
            true => Err(Trouble::Usage(format!(
                "--pair: {} has no pair {}",
                self.path, names[0]
            ))),
            false => Ok(()),
        }
    }

    /// Only the sample of this serial number.
    pub fn only(&mut self, word: &str) -> Result<(), Trouble> {
        let serial: Option<u64> = word.parse().ok();
        self.rows.retain(|row| Some(row.serial) == serial);
        let gone = self.retired.iter().flatten().any(|s| Some(*s) == serial);
        match (self.rows.is_empty(), gone) {
            (false, _) => Ok(()),
            (true, true) => Err(Trouble::Usage(format!(
                "--sample: serial {} is retired, so {} has no weight of it",
                word, self.path
            ))),
            (true, false) => Err(Trouble::Usage(format!(
                "--sample: {} lists no serial number {}: its weight is 0, or it wasn't trained on",
                self.path, word
            ))),
        }
    }

    /// The caption of each sample beside it.
    pub fn captioned(&mut self, captions: &[String]) {
        for row in &mut self.rows {
            let caption = row.sample.and_then(|k| captions.get(k));
            row.caption = caption.cloned();
        }
    }

    pub fn text(&self, settings: &Settings) -> String {
        match (settings.form, self.model) {
            (Form::Csv, _) => self.csv(),
            (Form::Json, _) => self.json(),
            (Form::Table, true) => self.model_table(),
            (Form::Table, false) => self.table(settings),
        }
    }

    /// A line for each sample, with the crate's reading where it is another.
    fn table(&self, settings: &Settings) -> String {
        let says = match settings.as_linfa_svm() {
            true => "linfa-svm says",
            false => "linfa-svm would say",
        };
        let named = self.rows.iter().any(|row| row.caption.is_some());
        let head = format!(
            "sample serial  label  weight                    ceiling  {:<24}",
            says
        );
        let end = if named { "  caption" } else { "" };
        let mut lines = vec![(head + end).trim_end().to_string()];
        for row in &self.rows {
            let differs =
                |other: f64| row.weight != other && !(row.weight.is_nan() && other.is_nan());
            let line = format!(
                "{:>6} {:>6} {:>6}  {:<24}  {:<7}  {:<24}  {}",
                row.sample.map_or(String::new(), |k| k.to_string()),
                row.serial,
                row.label.map_or(String::new(), |label| label.to_string()),
                double(row.weight),
                row.mark.unwrap_or_default(),
                row.other
                    .filter(|x| differs(*x))
                    .map_or(String::new(), double),
                row.caption
                    .as_ref()
                    .map_or(String::new(), |text| format!("{:?}", text)),
            );
            lines.push(line.trim_end().to_string());
        }
        lines.join("\n") + "\n"
    }

    /// The same of a model, which has no sample numbers.
    fn model_table(&self) -> String {
        let mut lines =
            vec!["serial  label  against  weight                    ceiling".to_string()];
        let label = |label: Option<i32>| label.map_or(String::new(), |l| l.to_string());
        for row in &self.rows {
            let line = format!(
                "{:>6} {:>6} {:>8}  {:<24}  {}",
                row.serial,
                label(row.label),
                label(row.against),
                double(row.weight),
                row.mark.unwrap_or_default()
            );
            lines.push(line.trim_end().to_string());
        }
        lines.join("\n") + "\n"
    }

    fn csv(&self) -> String {
        let mut lines = vec![NAMES.join(",") + ",eps"];
        let eps = self.eps.map_or(String::new(), double);
        for row in &self.rows {
            let mut words: Vec<String> = row.fields().iter().map(Field::csv).collect();
            words.push(eps.clone());
            lines.push(words.join(","));
        }
        lines.join("\n") + "\n"
    }

    fn json(&self) -> String {
        let retired = self.retired.as_ref().map(|list| format!("{:?}", list));
        let release = self.release.map(|yes| yes.to_string());
        let or_null = |word: Option<String>| word.unwrap_or_else(|| "null".to_string());
        let cautions = self.cautions.as_ref().map(|all| {
            let all: Vec<String> = all.iter().map(|one| text::json(one)).collect();
            format!("[{}]", all.join(", "))
        });
        let trainings: Vec<String> = self.trainings.iter().map(training).collect();
        let rows: Vec<String> = self.rows.iter().map(Row::json).collect();
        let lines = [
            ("file", text::json(&self.path)),
            ("model", self.model.to_string()),
            ("version", string(&self.version)),
            ("options", string(&self.options)),
            ("eps", Field::Double(self.eps).json()),
            ("retired", or_null(retired)),
            ("release", or_null(release)),
            ("unfit", string(&self.unfit)),
            ("cautions", or_null(cautions)),
            ("trainings", format!("[{}]", trainings.join(", "))),
            ("weights", format!("[\n{}\n  ]", rows.join(",\n"))),
        ];
        let line = |(name, word): &(&str, String)| format!("  \"{}\": {}", name, word);
        let lines: Vec<String> = lines.iter().map(line).collect();
        format!("{{\n{}\n}}\n", lines.join(",\n"))
    }
}

/// A string of JSON, or null.
fn string(text: &Option<String>) -> String {
    Field::Text(text.clone()).json()
}

/// A training in JSON. That of one class has no pair.
fn training((name, rho, exit): &(String, f64, Option<String>)) -> String {
    format!(
        "{{\"pair\": {}, \"rho\": {}, \"exit\": {}}}",
        string(&Some(name.clone()).filter(|name| !name.is_empty())),
        Field::Double(Some(*rho)).json(),
        string(exit)
    )
}

/// A column of a class: its weights but for zeros, with its label and the other.
fn column(
    model: &Model,
    class: usize,
    column: usize,
    [label, against]: [Option<i32>; 2],
) -> Vec<Row> {
    let settings = model.record.as_ref().and_then(|record| record.settings());
    let ceiling = settings.and_then(|s| match model.fit {
        Fit::C => Some(label.map_or(s.cost, |label| s.cost_of(label))),
        Fit::OneClass => Some(1.0),
        Fit::Nu => None,
    });
    let lines = model
        .lines(class)
        .iter()
        .filter(|line| line.coefficients[column] != 0.0);
    // The columns before its own are those of pairs in which it is the second, whose weights are negative.
    let sign = if column < class - 1 { -1.0 } else { 1.0 };
    let row = |line: &crate::saved::Support| Row {
        sample: None,
        serial: line.serial as u64,
        label,
        against,
        weight: line.coefficients[column],
        ceiling,
        mark: ceiling.and_then(|c| report::beside_ceiling(sign * line.coefficients[column], c)),
        other: None,
        caption: None,
    };
    lines.map(row).collect()
}

/// The names of a row's fields.
const NAMES: [&str; 9] = [
    "sample",
    "serial",
    "label",
    "against",
    "weight",
    "ceiling",
    "mark",
    "linfa_svm",
    "caption",
];

/// A field that may be unknown.
pub enum Field {
    Whole(Option<i64>),
    Double(Option<f64>),
    Text(Option<String>),
    Flag(bool),
}

impl Field {
    pub fn csv(&self) -> String {
        match self {
            Field::Whole(x) => x.map_or(String::new(), |x| x.to_string()),
            Field::Double(x) => x.map_or(String::new(), double),
            Field::Text(Some(text)) if text.contains(|c| ",\"\r\n".contains(c)) => {
                format!("\"{}\"", text.replace('"', "\"\""))
            }
            Field::Text(text) => text.clone().unwrap_or_default(),
            Field::Flag(yes) => yes.to_string(),
        }
    }

    /// JSON has no number that isn't finite: it is a string.
    pub fn json(&self) -> String {
        match self {
            Field::Whole(Some(x)) => x.to_string(),
            Field::Double(Some(x)) if x.is_finite() => double(*x),
            Field::Double(Some(x)) => text::json(&double(*x)),
            Field::Text(Some(words)) => text::json(words),
            Field::Flag(yes) => yes.to_string(),
            _ => "null".to_string(),
        }
    }
}

impl Row {
    fn json(&self) -> String {
        let fields = NAMES.iter().zip(self.fields());
        let fields = fields.map(|(name, field)| format!("\"{}\": {}", name, field.json()));
        format!("    {{{}}}", fields.collect::<Vec<_>>().join(", "))
    }

    /// In the order of their names.
    fn fields(&self) -> [Field; 9] {
        let whole = |x: Option<i32>| Field::Whole(x.map(i64::from));
        [
            Field::Whole(self.sample.map(|k| k as i64)),
            Field::Whole(Some(self.serial as i64)),
            whole(self.label),
            whole(self.against),
            Field::Double(Some(self.weight)),
            Field::Double(self.ceiling),
            Field::Text(self.mark.map(str::to_string)),
            Field::Double(self.other),
            Field::Text(self.caption.clone()),
        ]
    }
}
