//! The list of retired samples: serial numbers, in the words of a call or in a file.
use crate::problem::Samples;
use crate::{input, text, Trouble};
use std::collections::BTreeMap;

/// Where a list stands: in a file of that name, or in the call itself.
struct Source<'a>(Option<&'a str>);

impl Source<'_> {
    fn wrong(&self, line: Option<usize>, text: &str) -> Trouble {
        match (self.0, line) {
            (Some(path), Some(line)) => Trouble::File(format!("{}:{}: {}", path, line, text)),
            (Some(path), None) => Trouble::File(format!("{}: {}", path, text)),
            (None, _) => Trouble::Usage(format!("--retired: {}", text)),
        }
    }

    fn twice(&self, word: &str, before: usize) -> String {
        let before = match self.0 {
            Some(_) => format!(", before in line {}", before),
            None => String::new(),
        };
        format!("the serial number {} is named twice{}", word, before)
    }

    /// The list's text.
    fn text(&self, list: &str) -> Result<String, Trouble> {
        let path = match self.0 {
            Some(path) => path,
            None => return Ok(list.to_string()),
        };
        let data = input::of_file(path).map_err(|e| {
            Trouble::File(format!(
                "--retired: '{}' is no list of serial numbers and no file that can be read: {}",
                path, e
            ))
        })?;
        text::decoded(path, &data)
    }
}

/// The name of the file that a list stands in, where it doesn't stand in the call itself: digits, commas and spaces alone are a list.
pub fn file(list: &str) -> Option<&str> {
    let own = |c: char| c.is_ascii_digit() || c == ',' || c.is_whitespace();
    (!list.chars().all(own)).then(|| list)
}

/// Marks the samples that a list names and hands back all that is wrong with it. The error is that it can't be read.
pub fn mark(s: &mut Samples, list: &str) -> Result<Vec<Trouble>, Trouble> {
    let source = Source(file(list));
    let text = source.text(list)?;
    let words = words(&text);
    let mut wrong = Vec::new();
    // A file may name nobody yet, or nobody any more.
    if words.is_empty() && source.0.is_none() {
        wrong.push(source.wrong(None, "no serial number is named"));
    }
    // The samples that are named, and the line of each.
    let mut named = BTreeMap::new();
    for (line, word) in words {
        let told = match named_by(s, word) {
            Ok(k) => match named.insert(k, line) {
                Some(before) => source.twice(word, before),
                None => continue,
            },
            Err(told) => told,
        };
        wrong.push(source.wrong(Some(line), &told));
    }
    for k in named.into_keys() {
        s.retired[k] = true;
    }
    let left = whose(s).map(|whose| {
        format!(
            "every sample{} is retired, so there are no two classes to part",
            whose
        )
    });
    wrong.extend(left.map(|told| source.wrong(None, &told)));
    Ok(wrong)
}

/// Whose samples are all retired, where anybody's are: a label's, or everyone's.
fn whose(s: &Samples) -> Option<String> {
    let gone = |class: &usize| {
        let mut own = (0..s.n).filter(|k| s.class(*k) == Some(*class)).peekable();
        own.peek().is_some() && own.all(|k| s.retired[k])
    };
    let all: Vec<usize> = (0..s.classes.len()).filter(gone).collect();
    match all.first() {
        None => None,
        Some(_) if all.len() == s.classes.len() => Some(String::new()),
        Some(class) => Some(format!(" of label {}", s.classes[*class])),
    }
}

fn named_by(s: &Samples, word: &str) -> Result<usize, String> {
    match word {
        "" => Err("a comma has no serial number before it".to_string()),
        _ => s.with_serial(word),
    }
}

/// The words of a list, each with its line. An empty one stands where a comma has none before it.
fn words(text: &str) -> Vec<(usize, &str)> {
    let mut all = Vec::new();
    for (k, line) in text.lines().enumerate() {
        let line = line.split('#').next().unwrap_or_default().trim();
        if line.is_empty() {
            continue;
        }
        for piece in line.strip_suffix(',').unwrap_or(line).split(',') {
            match piece.trim() {
                "" => all.push((k + 1, "")),
                some => all.extend(some.split_whitespace().map(|word| (k + 1, word))),
            }
        }
    }
    all
}
