//! The words of a call.
use crate::problem::{self, Samples};
use crate::{help, Trouble};
use altuliscia::{MOST_PASSES, USUAL_FLOOR};
use std::collections::BTreeSet;
use std::num::IntErrorKind;
use std::str::FromStr;

#[derive(Clone, Copy, Debug, PartialEq, Eq)]
pub enum Command {
    Train,
    Weights,
    Check,
    Trail,
}

impl Command {
    pub fn name(self) -> &'static str {
        match self {
            Command::Train => "train",
            Command::Weights => "weights",
            Command::Check => "check",
            Command::Trail => "trail",
        }
    }
}

#[derive(Clone, Copy, Debug, PartialEq, Eq)]
pub enum Fit {
    C,
    Nu,
    OneClass,
}

/// How to train.
#[derive(Clone, Debug)]
pub struct Settings {
    pub fit: Fit,
    pub cost: f64,
    pub nu: f64,
    pub eps: f64,
    pub shrinking: bool,
    /// Labels and what their cost is multiplied by.
    pub weights: Vec<(i32, f64)>,
    /// The serial numbers of retired samples, or the name of a file that has them.
    pub retired: Option<String>,
    /// The serial number of the sample to follow.
    pub sample: Option<String>,
    /// The name of a file with a caption for each sample.
    pub captions: Option<String>,
    /// The labels of the two classes to train alone.
    pub pair: Option<[i32; 2]>,
    pub budget: u64,
    pub floor: f64,
    /// Whether a sample keeps its own ceiling when shrinking moves it.
    pub travelling: bool,
    pub quiet: bool,
    /// Whether the file may have lines for some of the serial numbers only.
    pub part: bool,
    /// Whether a model is written that isn't to be released.
    pub anyway: bool,
    pub form: Form,
    /// The options that were given, by their names.
    pub given: Vec<String>,
}

/// How a list is told.
#[derive(Clone, Copy, Debug, PartialEq, Eq)]
pub enum Form {
    Table,
    Csv,
    Json,
}

impl Settings {
    pub const USUAL: Settings = Settings {
        fit: Fit::C,
        cost: 1.0,
        nu: 0.5,
        eps: 0.001,
        shrinking: false,
        weights: Vec::new(),
        retired: None,
        sample: None,
        captions: None,
        pair: None,
        budget: MOST_PASSES,
        floor: USUAL_FLOOR,
        travelling: false,
        quiet: false,
        part: false,
        anyway: false,
        form: Form::Table,
        given: Vec::new(),
    };

    /// The ceiling of each class; of one class there are two all the same.
    pub fn costs(&self, samples: &Samples) -> Result<Vec<f64>, Trouble> {
        let count = samples.classes.len().max(2);
        if self.fit == Fit::Nu || self.fit == Fit::OneClass {
            return Ok(vec![1.0; count]);
        }
        let mut named = self.weights.iter().map(|(label, _)| label);
        if let Some(label) = named.find(|label| !samples.classes.contains(label)) {
            return usage(format!("-w{}: no sample has that label", label));
        }
        let costs = samples.classes.iter().map(|c| self.cost_of(*c));
        let rest = std::iter::repeat(self.cost);
        Ok(costs.chain(rest).take(count).collect())
    }

    /// Whether linfa-svm trains so, too: it has one floor, and its ceilings don't travel.
    pub fn as_linfa_svm(&self) -> bool {
        self.floor == USUAL_FLOOR && !self.travelling
    }

    /// The notes on options that have no say beside -s, and on those that are there more than once.
    pub fn idle(&self) -> Vec<String> {
        let all: BTreeSet<&String> = self.given.iter().collect();
        let factor = |name: &str| name.starts_with("-w");
        let note = |name: &&String| {
            let (no_say, fit) = match self.fit {
                Fit::C => (*name == "-n", 0),
                Fit::Nu => (*name == "-c" || factor(name), 1),
                Fit::OneClass => (*name == "-c" || factor(name), 2),
            };
            let times = self.given.iter().filter(|given| given == name).count();
            match times > 1 && has_value(name) {
                _ if no_say => Some(format!("note: {} has no say with -s {}", name, fit)),
                true if factor(name) => Some(format!(
                    "note: {} is there more than once: each of them multiplies the cost",
                    name
                )),
                true => Some(format!(
                    "note: {} is there more than once: the last one counts",
                    name
                )),
                false => None,
            }
        };
        all.iter().filter_map(note).collect()
    }

    /// The cost of a label.
    pub fn cost_of(&self, label: i32) -> f64 {
        let own = self.weights.iter().filter(|(l, _)| *l == label);
        own.fold(self.cost, |cost, (_, factor)| cost * factor)
    }

    /// The places of the two classes that are to be trained alone, the first one first; nothing where the file has no others.
    pub fn alone(&self, samples: &Samples) -> Result<Option<(usize, usize)>, Trouble> {
        let mut places = Vec::new();
        for label in self.pair.iter().flatten() {
            match samples.classes.iter().position(|c| c == label) {
                Some(k) => places.push(k),
                None => return usage(format!("--pair: no sample has the label {}", label)),
            }
        }
        places.sort_unstable();
        match places[..] {
            [first, second] if samples.classes.len() > 2 => Ok(Some((first, second))),
            _ => Ok(None),
        }
    }
}

pub struct Call {
    pub command: Command,
    pub file: String,
    model: Option<String>,
    pub settings: Settings,
}

impl Call {
    /// Where the model goes: as with svm-train, the file's name with .model, in the folder where the call is made.
    pub fn model_path(&self) -> String {
        let name = self.file.rsplit('/').next().unwrap_or(&self.file);
        self.model.clone().unwrap_or(format!("{}.model", name))
    }
}

/// What `sort` or `decide` is asked for.
#[derive(Debug, PartialEq, Eq)]
pub struct Sorting {
    pub model: String,
    pub file: String,
    /// Whether the votes of every language are told.
    pub tally: bool,
    /// Whether nothing but labels is told.
    pub labels: bool,
    pub quiet: bool,
    pub form: Form,
}

/// What `show` is asked for.
#[derive(Debug, PartialEq, Eq)]
pub struct Showing {
    pub model: String,
    /// What it may have been trained on.
    pub file: Option<String>,
}

pub enum Words {
    Help(&'static str),
    Call(Call),
    Sort(Sorting),
    Decide(Sorting),
    Show(Showing),
}

fn usage<T>(text: String) -> Result<T, Trouble> {
    Err(Trouble::Usage(text))
}

/// The help of a command.
fn help_of(name: &str) -> Option<&'static str> {
    Some(match name {
        "train" => help::TRAIN,
        "sort" => help::SORT,
        "decide" => help::DECIDE,
        "weights" => help::WEIGHTS,
        "show" => help::SHOW,
        "check" => help::CHECK,
        "trail" => help::TRAIL,
        _ => return None,
    })
}

pub fn parse(words: &[String]) -> Result<Words, Trouble> {
    let (name, rest) = match words.split_first() {
        Some((name, rest)) => (name.as_str(), rest),
        None => return usage("a command is missing".to_string()),
    };
    match name {
        "--help" | "-h" => return Ok(Words::Help(help::ALL)),
        "help" => return helped(rest),
        "--version" | "-V" => return Ok(Words::Help(help::VERSION)),
        _ => {}
    }
    let text = match help_of(name) {
        Some(text) => text,
        None => return usage(format!("there is no command '{}'", name)),
    };
    // -h has a value, so it asks for help only where it stands alone.
    let mut before = rest.iter().take_while(|word| *word != "--");
    if before.any(|word| word == "--help") || rest == ["-h"] {
        return Ok(Words::Help(text));
    }
    match name {
        "train" => call(Command::Train, rest),
        "weights" => call(Command::Weights, rest),
        "check" => call(Command::Check, rest),
        "trail" => call(Command::Trail, rest),
        "show" => showing(rest),
        "sort" => sorting(name, &["-q", "--votes", "--labels"], rest).map(Words::Sort),
        _ => sorting(name, &["-q", "--csv", "--json"], rest).map(Words::Decide),
    }
}

/// The words behind `help`.
fn helped(words: &[String]) -> Result<Words, Trouble> {
    match words {
        [] => Ok(Words::Help(help::ALL)),
        [name] => match help_of(name) {
            Some(text) => Ok(Words::Help(text)),
            None => usage(format!("there is no command '{}'", name)),
        },
        [_, more, ..] => usage(format!("'{}' is one word too many", more)),
    }
}

/// The words behind a command, parted: options with their values, and files.
struct Parted {
    options: Vec<(String, Option<String>)>,
    files: Vec<String>,
}

impl Parted {
    /// Which options have no value and which have one is asked. `--` ends the options, and `-` is a file.
    fn of(
        words: &[String],
        flags: &[&str],
        valued: impl Fn(&str) -> bool,
        none: impl Fn(&str) -> String,
    ) -> Result<Parted, Trouble> {
        let (mut options, mut files) = (Vec::new(), Vec::new());
        let mut rest = words.iter();
        while let Some(word) = rest.next() {
            if word.is_empty() {
                return usage("a file's name is empty".to_string());
            } else if word == "--" {
                files.extend(rest.by_ref().cloned());
            } else if word == "-" || !word.starts_with('-') {
                files.push(word.clone());
            } else if flags.contains(&word.as_str()) {
                options.push((word.clone(), None));
            } else {
                let (name, value) = joined(word, &valued);
                if flags.contains(&name) {
                    return usage(format!("{}: it has no value", name));
                } else if !valued(name) {
                    return usage(none(name));
                }
                let value = value.map(str::to_string).or_else(|| rest.next().cloned());
                match value {
                    Some(value) => options.push((name.to_string(), Some(value))),
                    None => return usage(format!("{}: its value is missing", name)),
                }
            }
        }
        if files.iter().any(|file| file.is_empty()) {
            return usage("a file's name is empty".to_string());
        }
        Ok(Parted { options, files })
    }

    fn has(&self, option: &str) -> bool {
        self.options.iter().any(|(name, _)| name == option)
    }

    /// The form that is asked for.
    fn form(&self) -> Result<Form, Trouble> {
        match (self.has("--csv"), self.has("--json")) {
            (true, true) => usage("--csv beside --json: one of them, or neither".to_string()),
            (true, false) => Ok(Form::Csv),
            (false, true) => Ok(Form::Json),
            (false, false) => Ok(Form::Table),
        }
    }

    /// The files, where they aren't more than that, and standard input is one of them at the most.
    fn files(self, most: usize) -> Result<Vec<String>, Trouble> {
        if self.files.len() > most {
            return usage(format!("'{}' is one file too many", self.files[most]));
        }
        if self.files.iter().filter(|file| *file == "-").count() > 1 {
            return usage("'-': standard input is one file, and there it is twice".to_string());
        }
        Ok(self.files)
    }
}

/// An option and the value that is written into its word: -c10, --floor=1e-12.
fn joined<'a>(word: &'a str, valued: &impl Fn(&str) -> bool) -> (&'a str, Option<&'a str>) {
    if word.starts_with("--") {
        return match word.split_once('=') {
            Some((name, value)) => (name, Some(value)),
            None => (word, None),
        };
    }
    // The second sign may be of more than one byte.
    let end = word.chars().take(2).map(char::len_utf8).sum();
    let (name, value) = word.split_at(end);
    match !valued(word) && valued(name) && !value.is_empty() {
        true => (name, Some(value)),
        false => (word, None),
    }
}

/// The settings that options make, parted by spaces.
pub fn settings(options: &str) -> Result<Settings, Trouble> {
    let words: Vec<String> = options.split(' ').map(str::to_string).collect();
    let none = |name: &str| format!("there is no option '{}'", name);
    let parted = Parted::of(&words, &["--travelling"], has_value, none)?;
    let mut settings = Settings::USUAL;
    for (name, value) in &parted.options {
        match value {
            Some(value) => set(&mut settings, name, value)?,
            None => settings.travelling = true,
        }
    }
    match parted.files.first() {
        Some(file) => usage(format!("'{}' is no option", file)),
        None => Ok(settings),
    }
}

/// The flags of what trains.
const FLAGS: [&str; 6] = [
    "-q",
    "--part",
    "--write-anyway",
    "--travelling",
    "--csv",
    "--json",
];

fn call(command: Command, words: &[String]) -> Result<Words, Trouble> {
    let none = |name: &str| format!("there is no option '{}'", name);
    let parted = Parted::of(words, &FLAGS, has_value, none)?;
    let mut settings = Settings::USUAL;
    for (name, value) in &parted.options {
        match value {
            Some(value) => set(&mut settings, name, value)?,
            None => match name.as_str() {
                "-q" => settings.quiet = true,
                "--part" => settings.part = true,
                "--write-anyway" => settings.anyway = true,
                "--travelling" => settings.travelling = true,
                _ => settings.form = parted.form()?,
            },
        }
        settings.given.push(name.clone());
    }
    fits_together(command, &settings)?;
    let most = if command == Command::Train { 2 } else { 1 };
    if parted.files.get(1).map(String::as_str) == Some("-") {
        return usage("'-' is standard input: a model goes to a file".to_string());
    }
    let mut files = parted.files(most)?.into_iter();
    match (files.next(), files.next()) {
        (None, _) => usage("a file is missing".to_string()),
        (Some(file), None) if file == "-" && command == Command::Train => {
            usage("FILE is standard input: MODEL, where the model goes, is missing".to_string())
        }
        (Some(file), model) => Ok(Words::Call(Call {
            command,
            file,
            model,
            settings,
        })),
    }
}

/// The words behind `sort` or `decide`.
fn sorting(command: &str, flags: &[&str], words: &[String]) -> Result<Sorting, Trouble> {
    let none = |name: &str| format!("`{}` has no option '{}'", command, name);
    let parted = Parted::of(words, flags, |_| false, none)?;
    let (tally, labels) = (parted.has("--votes"), parted.has("--labels"));
    if tally && labels {
        return usage("--votes beside --labels: one of them, or neither".to_string());
    }
    let (quiet, form) = (parted.has("-q"), parted.form()?);
    let mut files = parted.files(2)?.into_iter();
    match (files.next(), files.next()) {
        (Some(model), Some(file)) => Ok(Sorting {
            model,
            file,
            tally,
            labels,
            quiet,
            form,
        }),
        _ => usage(format!(
            "a file is missing: `{}` has a model, then captions",
            command
        )),
    }
}

/// The words behind `show`.
fn showing(words: &[String]) -> Result<Words, Trouble> {
    let none = |name: &str| format!("`show` has no option '{}'", name);
    let parted = Parted::of(words, &[], |_| false, none)?;
    let mut files = parted.files(2)?.into_iter();
    match files.next() {
        Some(model) => Ok(Words::Show(Showing {
            model,
            file: files.next(),
        })),
        None => usage("a file is missing: `show` has a model".to_string()),
    }
}

/// Whether the options make sense beside each other.
fn fits_together(command: Command, s: &Settings) -> Result<(), Trouble> {
    let trail = command == Command::Trail;
    let lists = trail || command == Command::Weights;
    let weights = command == Command::Weights;
    for (option, whose, has) in [
        ("--sample", "`weights` and `trail` have", lists),
        ("--captions", "`weights` and `trail` have", lists),
        ("--csv", "`weights` and `decide` have", weights),
        ("--json", "`weights` and `decide` have", weights),
        ("--write-anyway", "`train` has", command == Command::Train),
    ] {
        if !has && s.given.iter().any(|given| given == option) {
            return usage(format!("{}: only {} it", option, whose));
        }
    }
    if s.pair.is_some() && s.fit == Fit::OneClass {
        return usage("--pair: with -s 2 there is one class".to_string());
    }
    if s.retired.is_some() && s.fit != Fit::C {
        return usage("--retired: only -s 0 trains with retired samples".to_string());
    }
    if s.travelling {
        travels(trail, s)?;
    }
    match (trail, &s.sample) {
        (true, None) => usage("--sample, the serial number to follow, is missing".to_string()),
        (true, _) if s.shrinking => usage(
            "-h 1: with shrinking on samples move, so a trail is told with -h 0 only".to_string(),
        ),
        (true, _) if s.floor != USUAL_FLOOR && s.floor > 0.0 && s.floor <= 1.0 => usage(
            "--floor: a trail is told with the usual one only, 1e-10; where every curvature is above 0 no floor has a say".to_string(),
        ),
        _ => Ok(()),
    }
}

/// Whether samples may be moved, and have ceilings that may differ.
fn travels(trail: bool, s: &Settings) -> Result<(), Trouble> {
    let why = match (trail, s.fit, &s.retired) {
        (true, _, _) => "a trail is told with -h 0 only, where no sample moves",
        (_, Fit::Nu | Fit::OneClass, _) => "only -s 0 has ceilings that may differ",
        (_, _, Some(_)) => "with --retired shrinking is off, and no sample moves",
        _ => return Ok(()),
    };
    usage(format!("--travelling: {}; leave it out", why))
}

fn number<T: FromStr>(option: &str, value: &str, what: &str) -> Result<T, Trouble> {
    let wrong = || Trouble::Usage(format!("{}: '{}' is not {}", option, value, what));
    value.parse().map_err(|_| wrong())
}

/// A budget. What doesn't fit 64 bits is the most that does, which is refused as it would be.
fn passes(option: &str, value: &str) -> Result<u64, Trouble> {
    match value.parse::<u64>() {
        Err(e) if *e.kind() == IntErrorKind::PosOverflow => Ok(u64::MAX),
        _ => number(option, value, "a whole number from 0 on"),
    }
}

fn has_value(option: &str) -> bool {
    let known = ["-s", "-t", "-c", "-n", "-e", "-h", "--budget", "--floor"];
    let named = ["--retired", "--sample", "--captions", "--pair"];
    known.contains(&option) || named.contains(&option) || option.starts_with("-w")
}

fn set(s: &mut Settings, option: &str, value: &str) -> Result<(), Trouble> {
    let float = || number::<f64>(option, value, "a number");
    match option {
        "-s" => {
            s.fit = match value {
                "0" => Fit::C,
                "1" => Fit::Nu,
                "2" => Fit::OneClass,
                _ => return usage(format!("-s: '{}' is none of 0, 1, 2", value)),
            }
        }
        "-t" if value == "4" => {}
        "-t" => return usage("-t: only 4 is there, a kernel computed beforehand".to_string()),
        "-c" => s.cost = float()?,
        "-n" => s.nu = float()?,
        "-e" => s.eps = float()?,
        "-h" => {
            s.shrinking = match value {
                "0" => false,
                "1" => true,
                _ => return usage(format!("-h: '{}' is neither 0 nor 1", value)),
            }
        }
        "--budget" => s.budget = passes(option, value)?,
        "--floor" => s.floor = float()?,
        "--retired" if s.retired.is_some() => {
            return usage("--retired: it is there twice; one list has them all".to_string())
        }
        "--retired" => s.retired = Some(value.to_string()),
        "--sample" if s.sample.is_some() => {
            return usage("--sample: it is there twice; one sample is told of".to_string())
        }
        "--sample" => s.sample = Some(value.to_string()),
        "--captions" => s.captions = Some(value.to_string()),
        "--pair" if s.pair.is_some() => {
            return usage("--pair: it is there twice; one pair is trained".to_string())
        }
        "--pair" => s.pair = Some(labels(value)?),
        _ if option.starts_with("-w") => {
            let label = number(option, &option[2..], "a label, which is a whole number")?;
            s.weights.push((label, float()?));
        }
        _ => return usage(format!("there is no option '{}'", option)),
    }
    Ok(())
}

/// Two labels, parted by a comma.
fn labels(value: &str) -> Result<[i32; 2], Trouble> {
    let both = value.split_once(',').and_then(|(first, second)| {
        let label = |word: &str| problem::whole(word.trim());
        Some([label(first)?, label(second)?])
    });
    match both {
        Some([one, other]) if one == other => {
            usage(format!("--pair: '{}' is one label twice", value))
        }
        Some(both) => Ok(both),
        None => usage(format!("--pair: '{}' is not two labels, as 1,2", value)),
    }
}

#[cfg(test)]
mod tests {
    use super::*;

    fn parsed(line: &str) -> Result<Words, Trouble> {
        let words: Vec<String> = line.split_whitespace().map(str::to_string).collect();
        parse(&words)
    }

    fn call(line: &str) -> Call {
        match parsed(line) {
            Ok(Words::Call(call)) => call,
            _ => panic!("{}", line),
        }
    }

    #[test]
    fn options_are_read() {
        let c = call("train -s 1 -t 4 -c 2 -n 0.25 -e 1e-7 -h 1 -w-1 3 -w2 0.5 --budget 9 --floor 1e-12 -q some/where/a.txt");
        assert_eq!((c.command, c.settings.fit), (Command::Train, Fit::Nu));
        let s = &c.settings;
        assert_eq!((s.cost, s.nu, s.eps), (2.0, 0.25, 1e-7));
        assert_eq!((s.shrinking, s.budget, s.quiet), (true, 9, true));
        assert_eq!(s.floor, 1e-12);
        assert_eq!(s.weights, [(-1, 3.0), (2, 0.5)]);
        assert_eq!(
            (c.file.as_str(), c.model_path().as_str()),
            ("some/where/a.txt", "a.txt.model")
        );
        let c = call("train a.txt b.model -c 3");
        assert_eq!((c.model_path().as_str(), c.settings.cost), ("b.model", 3.0));
        assert_eq!(c.settings.retired, None);
        let c = call("train --retired 20,31 a.txt");
        assert_eq!(c.settings.retired.as_deref(), Some("20,31"));
        assert_eq!(call("weights a").command, Command::Weights);
        assert_eq!(call("check a").command, Command::Check);
        let c = call("trail --sample 20 --captions a.captions --retired 3 a");
        assert_eq!((c.command, c.file.as_str()), (Command::Trail, "a"));
        assert_eq!(c.settings.sample.as_deref(), Some("20"));
        assert_eq!(c.settings.captions.as_deref(), Some("a.captions"));
        assert_eq!((c.settings.pair, c.command.name()), (None, "trail"));
        for word in ["7,-1", "+7,-1.0", "7,-01"] {
            let c = call(&format!("weights --pair {} a", word));
            assert_eq!(c.settings.pair, Some([7, -1]));
        }
    }

    #[test]
    fn values_may_be_joined_and_files_may_look_like_options() {
        let c = call("train -s1 -c10 -e1e-7 -h1 -n.25 -w-1 3 --budget=9 --floor=1e-12 -- -c");
        let s = &c.settings;
        assert_eq!((s.fit, s.cost, s.nu, s.eps), (Fit::Nu, 10.0, 0.25, 1e-7));
        assert_eq!((s.shrinking, s.budget, s.floor), (true, 9, 1e-12));
        assert_eq!((&s.weights[..], c.file.as_str()), (&[(-1, 3.0)][..], "-c"));
        let c = call("train --pair=7,-1 --retired=a=b --part --write-anyway -- -q --help");
        assert_eq!(c.settings.pair, Some([7, -1]));
        assert_eq!(c.settings.retired.as_deref(), Some("a=b"));
        assert!(c.settings.part && c.settings.anyway && !c.settings.quiet);
        assert_eq!((c.file.as_str(), c.model_path().as_str()), ("-q", "--help"));
        assert_eq!(call("weights --csv a").settings.form, Form::Csv);
        assert_eq!(call("weights --json -").settings.form, Form::Json);
        assert_eq!(call("weights -").file, "-");
        // What a model records is read back as it was given.
        let s = settings("-s 0 -c 2.5 -w-1 3.0 -e 0.001 -h 1 --budget 9 --floor 1e-12").unwrap();
        assert_eq!((s.cost_of(-1), s.cost_of(1), s.budget), (7.5, 2.5, 9));
        assert!(!s.travelling && settings("-s 0 -h 1 --travelling").unwrap().travelling);
        assert!(call("train --travelling a").settings.travelling);
        assert!(settings("-s 0 a").is_err() && settings("-q").is_err() && settings("").is_err());
    }

    #[test]
    fn help_and_version_have_several_words() {
        let text = |line: &str| match parsed(line) {
            Ok(Words::Help(text)) => text,
            _ => panic!("{}", line),
        };
        for line in ["-V", "--version"] {
            assert_eq!(text(line), help::VERSION);
        }
        for line in ["-h", "--help", "help"] {
            assert_eq!(text(line), help::ALL);
        }
        for line in [
            "help decide",
            "decide -h",
            "decide a --help",
            "decide --help -- b",
        ] {
            assert_eq!(text(line), help::DECIDE);
        }
        // With a value it is shrinking.
        assert!(call("train -h 1 a").settings.shrinking);
        assert!(matches!(parsed("train a -h"), Err(Trouble::Usage(_))));
    }

    #[test]
    fn the_words_of_sort_are_read() {
        let sorting = |line| match parsed(line) {
            Ok(Words::Sort(sorting)) => sorting,
            _ => panic!("{}", line),
        };
        let plain = sorting("sort a.model b");
        assert_eq!((&plain.model[..], &plain.file[..]), ("a.model", "b"));
        assert!(!plain.tally && !plain.labels && !plain.quiet);
        assert!(sorting("sort --votes a b").tally);
        let quiet = sorting("sort a --labels b -q");
        assert!(quiet.labels && quiet.quiet && !quiet.tally);
        match parsed("show a.model b") {
            Ok(Words::Show(asked)) => {
                assert_eq!(
                    (&asked.model[..], asked.file.as_deref()),
                    ("a.model", Some("b"))
                )
            }
            _ => panic!(),
        }
        match parsed("decide --csv - b") {
            Ok(Words::Decide(asked)) => {
                assert_eq!((&asked.model[..], asked.form), ("-", Form::Csv))
            }
            _ => panic!(),
        }
    }

    #[test]
    fn the_usual_settings_are_those_that_help_tells() {
        let s = call("train a").settings;
        assert_eq!((s.fit, s.cost, s.nu, s.eps), (Fit::C, 1.0, 0.5, 0.001));
        assert_eq!((s.shrinking, s.budget), (false, 10_000_000));
        assert_eq!((s.floor, s.travelling), (1e-10, false));
        for told in [
            "usually 1)",
            "usually 0.5)",
            "usually 0.001)",
            "usually 0: off)",
            "usually 10000000)",
            "usually 1e-10,",
        ] {
            assert!(help::TRAIN.contains(told), "{}", told);
        }
    }

    #[test]
    fn wrong_words_are_told() {
        for (line, told) in [
            ("", "a command is missing"),
            ("tame a", "there is no command 'tame'"),
            ("train", "a file is missing"),
            ("train a b c", "'c' is one file too many"),
            ("check a b", "'b' is one file too many"),
            ("train a -c", "-c: its value is missing"),
            ("train a -c x", "-c: 'x' is not a number"),
            ("train a -s 3", "-s: '3' is none of 0, 1, 2"),
            ("train a -h 2", "-h: '2' is neither 0 nor 1"),
            (
                "train a -t 2",
                "-t: only 4 is there, a kernel computed beforehand",
            ),
            (
                "train a --budget -1",
                "--budget: '-1' is not a whole number from 0 on",
            ),
            ("train a --floor", "--floor: its value is missing"),
            ("train a --floor x", "--floor: 'x' is not a number"),
            (
                "check a --floor 1e-10x",
                "--floor: '1e-10x' is not a number",
            ),
            (
                "train a -wx 1",
                "-wx: 'x' is not a label, which is a whole number",
            ),
            ("train a -w1 x", "-w1: 'x' is not a number"),
            ("train a -b 1", "there is no option '-b'"),
            ("train a --verbose", "there is no option '--verbose'"),
            ("train a -w1", "-w1: its value is missing"),
            ("train a --retired", "--retired: its value is missing"),
            (
                "train a --retired 1 -c 2 --retired 2",
                "--retired: it is there twice; one list has them all",
            ),
            (
                "trail a",
                "--sample, the serial number to follow, is missing",
            ),
            ("trail --sample 1", "a file is missing"),
            ("trail --sample 1 a b", "'b' is one file too many"),
            (
                "trail --sample 1 --sample 2 a",
                "--sample: it is there twice; one sample is told of",
            ),
            (
                "trail --sample 1 -h 1 a",
                "-h 1: with shrinking on samples move, so a trail is told with -h 0 only",
            ),
            (
                "trail --sample 1 --floor 1e-12 a",
                "--floor: a trail is told with the usual one only, 1e-10; where every curvature is above 0 no floor has a say",
            ),
            (
                "trail --sample 1 --travelling a",
                "--travelling: a trail is told with -h 0 only, where no sample moves; leave it out",
            ),
            (
                "train -s 1 --travelling a",
                "--travelling: only -s 0 has ceilings that may differ; leave it out",
            ),
            (
                "check --travelling -s 2 -h 1 a",
                "--travelling: only -s 0 has ceilings that may differ; leave it out",
            ),
            (
                "weights --travelling --retired 1 -h 1 a",
                "--travelling: with --retired shrinking is off, and no sample moves; leave it out",
            ),
            ("train --travelling=1 a", "--travelling: it has no value"),
            ("sort --travelling a b", "`sort` has no option '--travelling'"),
            (
                "trail --sample 1 --retired 2 -s 2 a",
                "--retired: only -s 0 trains with retired samples",
            ),
            (
                "check --sample 1 a",
                "--sample: only `weights` and `trail` have it",
            ),
            (
                "train --captions 1 a",
                "--captions: only `weights` and `trail` have it",
            ),
            (
                "train --csv a",
                "--csv: only `weights` and `decide` have it",
            ),
            (
                "trail --sample 1 --json a",
                "--json: only `weights` and `decide` have it",
            ),
            (
                "weights --write-anyway a",
                "--write-anyway: only `train` has it",
            ),
            (
                "weights --csv --json a",
                "--csv beside --json: one of them, or neither",
            ),
            ("weights --csv=1 a", "--csv: it has no value"),
            ("train -cx a", "-c: 'x' is not a number"),
            ("train -c=1 a", "-c: '=1' is not a number"),
            ("train --floor= a", "--floor: '' is not a number"),
            ("train -q1 a", "there is no option '-q1'"),
            ("train -č1 a", "there is no option '-č1'"),
            ("train -- -c 1 2", "'2' is one file too many"),
            ("train --", "a file is missing"),
            ("train a -", "'-' is standard input: a model goes to a file"),
            (
                "train -",
                "FILE is standard input: MODEL, where the model goes, is missing",
            ),
            (
                "sort - -",
                "'-': standard input is one file, and there it is twice",
            ),
            ("help tame", "there is no command 'tame'"),
            ("help train sort", "'sort' is one word too many"),
            ("show", "a file is missing: `show` has a model"),
            ("show -c 1 a", "`show` has no option '-c'"),
            ("show a b c", "'c' is one file too many"),
            (
                "decide a",
                "a file is missing: `decide` has a model, then captions",
            ),
            ("decide --votes a b", "`decide` has no option '--votes'"),
            ("sort --csv a b", "`sort` has no option '--csv'"),
            (
                "train --retired 1 -s 1 a",
                "--retired: only -s 0 trains with retired samples",
            ),
            ("train a --pair", "--pair: its value is missing"),
            ("train a --pair 1", "--pair: '1' is not two labels, as 1,2"),
            (
                "train a --pair 1,2,3",
                "--pair: '1,2,3' is not two labels, as 1,2",
            ),
            (
                "train a --pair x,2",
                "--pair: 'x,2' is not two labels, as 1,2",
            ),
            (
                "train a --pair 1,1.5",
                "--pair: '1,1.5' is not two labels, as 1,2",
            ),
            ("train a --pair 1,+1", "--pair: '1,+1' is one label twice"),
            (
                "train --pair 1,2 --pair 1,3 a",
                "--pair: it is there twice; one pair is trained",
            ),
            (
                "weights -s 2 --pair 1,2 a",
                "--pair: with -s 2 there is one class",
            ),
            (
                "sort",
                "a file is missing: `sort` has a model, then captions",
            ),
            (
                "sort -q a",
                "a file is missing: `sort` has a model, then captions",
            ),
            ("sort a b c", "'c' is one file too many"),
            ("sort -c 1 a b", "`sort` has no option '-c'"),
            ("sort a b --retired 1", "`sort` has no option '--retired'"),
            (
                "sort --votes --labels a b",
                "--votes beside --labels: one of them, or neither",
            ),
            (
                "check -s 2 a --retired 1",
                "--retired: only -s 0 trains with retired samples",
            ),
        ] {
            match parsed(line) {
                Err(Trouble::Usage(text)) => assert_eq!(text, told),
                _ => panic!("{}", line),
            }
        }
        let words = ["train", ""].map(str::to_string);
        let told = parse(&words).err().map(|trouble| trouble.to_string());
        assert_eq!(
            told.as_deref(),
            Some("a file's name is empty (see altuliscia --help)")
        );
    }

    /// What has_value knows is what is set.
    #[test]
    fn options_that_have_a_value_are_those_that_are_set() {
        for option in [
            "-s",
            "-t",
            "-c",
            "-n",
            "-e",
            "-h",
            "--budget",
            "--floor",
            "--retired",
            "--sample",
            "--captions",
            "--pair",
            "-w1",
            "-x",
            "-v",
            "-b",
            "-m",
            "--help",
        ] {
            let mut settings = Settings::USUAL;
            let unknown = matches!(set(&mut settings, option, "x"), Err(Trouble::Usage(text)) if text.starts_with("there is no"));
            assert_eq!(has_value(option), !unknown, "{}", option);
        }
    }
}
