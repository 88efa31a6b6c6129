//! `sort`: which language each caption of a file is in, by the library's votes.
use crate::arguments::{Fit, Sorting};
use crate::model::double;
use crate::problem::entries;
use crate::saved::Model;
use crate::sorter::Sorter;
use crate::{input, noted, progress, tell, text, Trouble};
use altuliscia::Votes;
use std::io::Write;

/// A caption as a file has it.
pub struct Caption {
    /// The number of its line.
    pub line: usize,
    /// What it is called there.
    pub serial: String,
    /// Its label there, where it has one.
    pub label: Option<i32>,
    /// Its kernel values, as many as the model asks for, or more.
    pub values: Vec<f64>,
    /// The first serial number of the model with which its value isn't finite.
    pub wild: Option<usize>,
    /// The first decision on it that isn't finite, in words.
    pub empty: Option<String>,
}

impl Caption {
    /// What isn't finite of it, behind a line.
    pub fn mark(&self) -> String {
        match (self.wild, &self.empty) {
            (Some(k), _) => format!("  K({}) is {}", k, double(self.values[k - 1])),
            (None, Some(told)) => format!("  {}", told),
            (None, None) => String::new(),
        }
    }

    /// Whether its values are finite, and the decisions on it.
    pub fn finite(&self) -> bool {
        self.wild.is_none() && self.empty.is_none()
    }
}

/// A caption as it was sorted.
struct Sorted {
    caption: Caption,
    votes: Votes,
}

pub fn carried_out(
    asked: &Sorting,
    out: &mut dyn Write,
    err: &mut (dyn Write + Send),
    terminal: bool,
) -> Result<(), Trouble> {
    let work = || {
        let model = Model::read(&asked.model)?;
        let sorter = Sorter::of(&model);
        if model.fit == Fit::OneClass {
            return Err(Trouble::File(format!(
                "{}:{}: svm_type one_class: a model of classes is needed, c_svc or nu_svc (`decide` takes this one)",
                model.path, model.begins
            )));
        }
        let captions = captions(&asked.file, &sorter)?;
        let captions = captions.into_iter().map(|caption| sorted(caption, &sorter));
        let captions = captions.collect::<Result<Vec<_>, _>>()?;
        Ok((model, sorter, captions))
    };
    let (model, sorter, captions) = progress::shown(err, terminal, "sorting", work)?;
    tell(out, &list(asked, &sorter, &captions))?;
    let mut lines = notes(&model, captions.iter().map(|c| &c.caption));
    if !asked.quiet {
        lines.extend(unrecorded(&model));
        lines.extend(counted(&sorter, &captions));
    }
    noted(lines, err);
    Ok(())
}

/// What isn't well with a model, and with captions that are sorted by it.
pub fn notes<'a>(model: &Model, captions: impl Iterator<Item = &'a Caption>) -> Vec<String> {
    let captions: Vec<&Caption> = captions.collect();
    let why = model.unfit();
    let unfit = why.map(|why| format!("note: {} isn't to be released: {}", model.path, why));
    let wild = captions.iter().filter(|c| c.wild.is_some());
    let wild = wild.clone().next().map(|first| {
        format!(
            "note: a kernel value that isn't finite has a say in {} of the captions, the first in line {}",
            wild.count(),
            first.line
        )
    });
    let empty = captions
        .iter()
        .filter(|c| c.wild.is_none() && c.empty.is_some());
    let empty = empty.clone().next().map(|first| {
        format!(
            "note: a decision isn't finite, though the kernel values are, and so says nothing, of {} of the captions, the first in line {}",
            empty.count(),
            first.line
        )
    });
    // One class has no labels, and any may stand there.
    let known = |label: &i32| model.labels.is_empty() || model.labels.contains(label);
    let strange = |c: &&&Caption| c.label.map_or(false, |label| !known(&label));
    let strange = captions.iter().filter(strange);
    let strange = strange.clone().next().map(|first| {
        format!(
            "note: {} of the captions have a label that {} hasn't, the first {} in line {}",
            strange.count(),
            model.path,
            first.label.unwrap_or_default(),
            first.line
        )
    });
    [unfit, wild, empty, strange]
        .into_iter()
        .flatten()
        .collect()
}

/// That nothing vouches for a model, where it has no record.
pub fn unrecorded(model: &Model) -> Option<String> {
    let told = || {
        format!(
            "note: {} has no record: nothing says what it was trained on, or whether it is to be released",
            model.path
        )
    };
    model.record.is_none().then(told)
}

/// The captions of a file, with as many kernel values as a model asks for.
pub fn captions(path: &str, sorter: &Sorter) -> Result<Vec<Caption>, Trouble> {
    let name = input::name(path);
    let text = text::decoded(name, &input::read(path)?)?;
    let lines = text.lines().enumerate();
    let told = |k: usize| move |told| Trouble::File(format!("{}:{}: {}", name, k + 1, told));
    let largest = sorter.largest();
    lines
        .map(|(k, line)| caption(k + 1, line, sorter, largest).map_err(told(k)))
        .collect()
}

fn caption(line: usize, text: &str, sorter: &Sorter, largest: usize) -> Result<Caption, String> {
    let mut words = text.split_ascii_whitespace().peekable();
    let first = *words.peek().ok_or("an empty line")?;
    let label = match first.contains(':') {
        true => None,
        false => {
            words.next();
            let label = crate::problem::whole(first);
            Some(label.ok_or(format!("the label '{}' is not a whole number", first))?)
        }
    };
    let mut serial = None;
    // LIBSVM takes any number there.
    let values = entries(words, |word| {
        serial = word.parse::<f64>().ok().map(|_| word.to_string());
        serial.is_some()
    })?;
    let serial = serial.ok_or("0:serial is missing")?;
    if values.len() < largest {
        return Err(format!(
            "{} kernel values, but the model has the serial number {}",
            values.len(),
            largest
        ));
    }
    Ok(Caption {
        line,
        serial,
        label,
        wild: sorter.wild(&values),
        empty: sorter.empty(&values),
        values,
    })
}

fn sorted(caption: Caption, sorter: &Sorter) -> Result<Sorted, Trouble> {
    // A model that was read has lists that fit each other.
    let votes = sorter.votes(&caption.values);
    let votes = votes.map_err(|why| Trouble::Differs(why.to_string()))?;
    Ok(Sorted { caption, votes })
}

/// A line for each caption.
fn list(asked: &Sorting, sorter: &Sorter, captions: &[Sorted]) -> String {
    if asked.labels {
        let label = |c: &Sorted| format!("{}\n", sorter.label(c.votes.winner()));
        return captions.iter().map(label).collect();
    }
    let head = "  line serial  label  sorted  votes  runner-up  votes";
    let mut lines = vec![match asked.tally {
        true => format!("{}  all votes", head),
        false => head.to_string(),
    }];
    let tallies: Vec<String> = captions.iter().map(|c| tally(sorter, &c.votes)).collect();
    let width = tallies.iter().map(String::len).max().unwrap_or_default();
    for (Sorted { caption, votes }, tally) in captions.iter().zip(&tallies) {
        let (winner, next) = (votes.winner(), votes.runner_up());
        let label = caption.label.map_or(String::new(), |l| l.to_string());
        let mut line = format!(
            "{:>6} {:>6} {:>6} {:>7} {:>6} {:>10} {:>6}",
            caption.line,
            caption.serial,
            label,
            sorter.label(winner),
            votes.of(winner),
            sorter.label(next),
            votes.of(next)
        );
        if asked.tally {
            line += &format!("  {:<1$}", tally, width);
        }
        line += &tie(sorter, votes).unwrap_or_default();
        line += &caption.mark();
        lines.push(line.trim_end().to_string());
    }
    lines.join("\n") + "\n"
}

/// The votes of each language, by its label.
fn tally(sorter: &Sorter, votes: &Votes) -> String {
    let counts = sorter.labels.iter().zip(votes.counts());
    let words: Vec<String> = counts.map(|(l, v)| format!("{}:{}", l, v)).collect();
    words.join(" ")
}

/// Who shares the most votes, where several do.
fn tie(sorter: &Sorter, votes: &Votes) -> Option<String> {
    let shared: Vec<String> = votes.ties().map(|k| sorter.label(k).to_string()).collect();
    (shared.len() > 1).then(|| format!("  tie of {}", shared.join(" ")))
}

/// How many are sorted as their labels say, of those that have one, and how many are ties.
fn counted(sorter: &Sorter, captions: &[Sorted]) -> Vec<String> {
    let right = |c: &Sorted| Some(c.caption.label? == sorter.label(c.votes.winner()));
    let ties = captions.iter().filter(|c| c.votes.ties().nth(1).is_some());
    let told = format!("ties: {} of {} captions", ties.count(), captions.len());
    let part = accuracy(captions.iter().map(right));
    part.into_iter().chain([told]).collect()
}

/// The part that is sorted rightly, of those of which that can be said.
pub fn accuracy(right: impl Iterator<Item = Option<bool>>) -> Option<String> {
    let known: Vec<bool> = right.flatten().collect();
    let (right, all) = (known.iter().filter(|yes| **yes).count(), known.len());
    let part = six_digits(100.0 * right as f64 / all as f64);
    (all > 0).then(|| format!("Accuracy = {}% ({}/{})", part, right, all))
}

/// A number from 0 to 100 as `%g` of C writes it: in six digits, without zeros at the end.
fn six_digits(x: f64) -> String {
    if x == 0.0 {
        return "0".to_string();
    }
    // Digits behind the point: those that are left of six, of which `{:e}` knows where the first stands, rounded as they will be.
    let exponent = format!("{:.5e}", x);
    let exponent: i32 = exponent
        .split_once('e')
        .and_then(|(_, e)| e.parse().ok())
        .unwrap_or_default();
    let text = format!("{:.1$}", x, (5 - exponent).max(0) as usize);
    match text.contains('.') {
        true => text.trim_end_matches('0').trim_end_matches('.').to_string(),
        false => text,
    }
}

#[cfg(test)]
mod tests {
    use super::*;

    #[test]
    fn a_part_is_written_as_in_c() {
        for (x, told) in [
            (0.0, "0"),
            (100.0, "100"),
            (50.0, "50"),
            (100.0 * 276.0 / 372.0, "74.1935"),
            (100.0 / 3.0, "33.3333"),
            (200.0 / 3.0, "66.6667"),
            (100.0 / 372.0, "0.268817"),
            (100.0 * 9_999_999.0 / 10_000_000.0, "100"),
            (9.9999996, "10"),
            (12.5, "12.5"),
            (0.001, "0.001"),
        ] {
            assert_eq!(six_digits(x), told);
        }
    }
}
