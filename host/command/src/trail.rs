//! The trail of one sample's weight, for a reader.
use crate::arguments::{Fit, Settings};
use crate::model::double;
use crate::problem::Samples;
use crate::{options, text, training, Trouble, Whole};
use altuliscia::{trail, NoTrail, Step, Trail};

/// Whose weight is pointed at, and what the samples are called.
pub struct Finger {
    pub sample: usize,
    captions: Option<Vec<String>>,
    /// Whether the samples are a pair of a file that has more classes.
    pair: bool,
}

impl Finger {
    /// A sample's caption, in quotes.
    fn caption(&self, sample: usize) -> Option<String> {
        let captions = self.captions.as_ref()?;
        captions.get(sample).map(|text| format!("{:?}", text))
    }
}

/// What a call points at, where it names a sample.
pub fn finger(
    s: &Samples,
    settings: &Settings,
    whole: &Whole,
    captions: Option<Vec<String>>,
) -> Result<Option<Finger>, Trouble> {
    let word = match &settings.sample {
        Some(word) => word,
        None => return Ok(None),
    };
    let wrong = |told| {
        let elsewhere = word
            .parse()
            .map_or(false, |serial| whole.serials.contains(&serial));
        Trouble::Usage(match elsewhere {
            true => format!(
                "--sample: serial {} is in {} but not in the pair {} {}",
                word, s.path, s.classes[0], s.classes[1]
            ),
            false => format!("--sample: {}", told),
        })
    };
    Ok(Some(Finger {
        sample: s.with_serial(word).map_err(wrong)?,
        captions,
        pair: whole.classes > 2,
    }))
}

/// The caption of each sample, where there is a file of them: it has a line for each of the whole file.
pub fn captions(
    s: &Samples,
    settings: &Settings,
    whole: &Whole,
) -> Result<Option<Vec<String>>, Trouble> {
    let path = match &settings.captions {
        Some(path) => path,
        None => return Ok(None),
    };
    ascending(s, &whole.serials)?;
    let captions = text::captions(path, whole.n)?;
    let place = |k: usize| s.lines.get(k).map_or(k, |line| line.number - 1);
    let own = (0..s.n).map(|k| captions.get(place(k)).cloned().unwrap_or_default());
    Ok(Some(own.collect()))
}

/// Whether the lines of a file stand in the order of its serial numbers. Where they don't, a file of captions may follow either.
fn ascending(s: &Samples, serials: &[u64]) -> Result<(), Trouble> {
    match serials.windows(2).find(|two| two[0] >= two[1]) {
        Some(two) => Err(Trouble::Usage(format!(
            "--captions: in {} serial {} stands behind serial {}, so the captions may be in the order of its lines or in that of its serial numbers: sort both files by serial number",
            s.path, two[1], two[0]
        ))),
        None => Ok(()),
    }
}

/// Follows a sample through the training.
pub fn followed(
    s: &Samples,
    settings: &Settings,
    costs: (f64, f64),
    sample: usize,
) -> Result<Trail, Trouble> {
    let labels = s.positive();
    let told = trail(
        &training(s, settings, costs, &labels),
        sample,
        &options(settings),
    );
    told.map_err(|why| trouble(&s.path, why))
}

fn trouble(path: &str, why: NoTrail) -> Trouble {
    match why {
        NoTrail::Refused(refusal) => Trouble::Refused(path.to_string(), refusal),
        NoTrail::Differs { .. } => Trouble::Differs(format!("{}: {}", path, why)),
        _ => Trouble::Usage(why.to_string()),
    }
}

/// A column of a table: its name, and what stands in each row.
type Column = (&'static str, Vec<String>);

/// All that is told of a trail.
pub fn text(s: &Samples, settings: &Settings, finger: &Finger, t: &Trail) -> String {
    let mut lines = vec![who(s, finger, t.sample)];
    lines.push(format!("weight {}", double(t.home)));
    lines.push(String::new());
    lines.push(started(t));
    if !t.steps.is_empty() {
        lines.push(String::new());
        lines.extend(table(&steps(s, finger, t)));
        lines.push(String::new());
        lines.push("What each step was computed from:".to_string());
        lines.push(String::new());
        lines.extend(table(&grounds(t)));
    }
    lines.push(String::new());
    lines.push(ended(t));
    lines.push(answered(s, settings, t));
    lines.push(checked(s, t));
    lines.join("\n") + "\n"
}

/// A sample by its numbers, and by its caption.
fn who(s: &Samples, finger: &Finger, k: usize) -> String {
    let mut words = vec![format!("serial {}", s.serials[k]), format!("sample {}", k)];
    if !s.classes.is_empty() {
        words.push(format!("label {}", s.label(k)));
    }
    if finger.pair {
        words.push(format!("in the pair {} {}", s.classes[0], s.classes[1]));
    }
    words.extend(finger.caption(k));
    words.join(", ")
}

fn started(t: &Trail) -> String {
    let all = t.answer.iterations;
    let chose = match (t.steps.len(), all) {
        (0, _) => format!("none of the {} steps chose it.", all),
        (1, 1) => "the only step chose it:".to_string(),
        (some, _) => format!("{} of the {} steps chose it:", some, all),
    };
    format!(
        "It starts at {}, its ceiling is {}; {}",
        double(t.start),
        double(t.ceiling),
        chose
    )
}

/// The steps, with the partner of each.
fn steps(s: &Samples, finger: &Finger, t: &Trail) -> Vec<Column> {
    let clipped = |step: &Step| match step.clipped() {
        true => double(step.taken()),
        false => String::new(),
    };
    let mut columns = vec![
        of(t, "pass", |step| step.pass.to_string()),
        of(t, "partner", |step| s.serials[step.partner].to_string()),
    ];
    if !s.classes.is_empty() {
        columns.push(of(t, "label", |step| s.label(step.partner)));
    }
    columns.extend([
        of(t, "as", |step| {
            if step.first { "i" } else { "j" }.to_string()
        }),
        of(t, "step", |step| double(step.asked())),
        of(t, "clipped to", clipped),
        of(t, "weight left", |step| double(step.left)),
    ]);
    if finger.captions.is_some() {
        let caption = |step: &Step| finger.caption(step.partner).unwrap_or_default();
        columns.push(of(t, "partner's caption", caption));
    }
    columns
}

/// What they were computed from.
fn grounds(t: &Trail) -> Vec<Column> {
    vec![
        of(t, "pass", |step| step.pass.to_string()),
        of(t, "gradient", |step| double(step.before.gradient)),
        of(t, "partner's", |step| double(step.partner_before.gradient)),
        of(t, "diagonal", |step| double(step.before.diagonal)),
        of(t, "partner's", |step| double(step.partner_before.diagonal)),
        of(t, "entry", |step| double(step.entry)),
        of(t, "partner's weight", |step| {
            double(step.partner_before.weight)
        }),
        of(t, "its ceiling", |step| double(step.partner_before.ceiling)),
    ]
}

fn of(t: &Trail, name: &'static str, cell: impl Fn(&Step) -> String) -> Column {
    (name, t.steps.iter().map(cell).collect())
}

/// Columns as wide as they must be, below their names: whole numbers to the right, all else to the left.
fn table(columns: &[Column]) -> Vec<String> {
    let mut lines = vec![String::new(); 1 + columns[0].1.len()];
    for (name, cells) in columns {
        let whole = cells.iter().all(|cell| cell.parse::<i64>().is_ok());
        let cells = || std::iter::once(*name).chain(cells.iter().map(String::as_str));
        let width = cells().map(|cell| cell.chars().count()).max();
        let width = width.unwrap_or_default();
        for (line, cell) in lines.iter_mut().zip(cells()) {
            *line += &match whole {
                true => format!("  {:>1$}", cell, width),
                false => format!("  {:<1$}", cell, width),
            };
        }
    }
    let trimmed = lines.iter().map(|line| line.trim_end().to_string());
    trimmed.collect()
}

/// Where the weight is in the end.
fn ended(t: &Trail) -> String {
    let place = match t.end {
        x if x == 0.0 => "the least that it may be",
        x if x == t.ceiling => "at its ceiling",
        x if x > t.ceiling => {
            "above its ceiling, which is kept only where both classes have the same cost"
        }
        x if x > 0.0 => "inside, above 0 and below its ceiling",
        x if x < 0.0 => "below 0, which is ruled out only where both classes have the same cost",
        _ => "not a number",
    };
    let end = double(t.end);
    match t.steps.is_empty() {
        _ if t.retired => "It is retired: no step may choose it, and it is 0.".to_string(),
        true if t.end == 0.0 => "It was never chosen, and is 0.".to_string(),
        true => format!("It was never chosen, and is still {}: {}.", end, place),
        false => format!("In the end it is {}: {}.", end, place),
    }
}

/// How home has it.
fn answered(s: &Samples, settings: &Settings, t: &Trail) -> String {
    let second = s.classes.get(1).filter(|_| s.labels[t.sample] != 1);
    let signed = match second {
        Some(label) if !t.retired => format!("negated, since label {} is the second class", label),
        _ => "as it is".to_string(),
    };
    let divided = match (settings.fit, t.answer.r) {
        (Fit::Nu, Some(r)) => format!(", and divided by r, which is {}", double(r)),
        _ => String::new(),
    };
    format!("It is answered {}{}: {}.", signed, divided, double(t.home))
}

fn checked(s: &Samples, t: &Trail) -> String {
    let calls = match t.calls {
        1 => "1 call".to_string(),
        many => format!("{} calls", many),
    };
    // No call has a budget of 0.
    let around = match t.steps.first() {
        None => "",
        Some(step) if step.pass == 1 => {
            "before and after each of these steps (before pass 1 no call looks) and "
        }
        Some(_) => "before and after each of these steps and ",
    };
    format!(
        "Checked with {} of the library: all {} weights are the same, bit for bit, {}at the end of the run.",
        calls, s.n, around
    )
}

#[cfg(test)]
mod tests {
    use super::*;
    use altuliscia::{Options, Problem, Refusal, Training};

    #[test]
    fn where_a_weight_ends_is_told() {
        let (matrix, labels) = (&[1.0, 0.0, 0.0, 1.0][..], &[true, false][..]);
        let training = Training::C {
            problem: Problem { matrix, labels },
            cpos: 1.5,
            cneg: 1.5,
        };
        let mut t = trail(&training, 0, &Options::default()).unwrap();
        for (end, place) in [
            (0.0, "0.0: the least that it may be."),
            (1.0, "1.0: inside, above 0 and below its ceiling."),
            (1.5, "1.5: at its ceiling."),
            (
                2.0,
                "2.0: above its ceiling, which is kept only where both classes have the same cost.",
            ),
            (
                -0.25,
                "-0.25: below 0, which is ruled out only where both classes have the same cost.",
            ),
            (f64::NAN, "nan: not a number."),
        ] {
            t.end = end;
            assert_eq!(ended(&t), format!("In the end it is {}", place));
        }
    }

    #[test]
    fn a_trail_that_is_not_the_librarys_has_a_status_of_its_own() {
        let differs = NoTrail::Differs {
            pass: 3,
            sample: Some(1),
        };
        let told = trouble("a", differs);
        assert_eq!(told.status(), 5);
        let start = "a: after pass 3 the replay and the library differ in the weight of sample 1: ";
        assert!(told.to_string().starts_with(start), "{}", told);
        assert_eq!(trouble("a", NoTrail::Refused(Refusal::Nu)).status(), 19);
        assert_eq!(trouble("a", NoTrail::Shrinking).status(), 2);
    }

    #[test]
    fn columns_are_as_wide_as_they_must_be() {
        let column = |name, cells: &[&str]| -> Column {
            (name, cells.iter().map(|cell| cell.to_string()).collect())
        };
        let columns = [
            column("pass", &["7", "10000000"]),
            column("step", &["-0.25", ""]),
            column("č", &["\"č\"", "1"]),
        ];
        let lines = [
            "      pass  step   č",
            "         7  -0.25  \"č\"",
            "  10000000         1",
        ];
        assert_eq!(table(&columns), lines);
    }
}
