//! What the command line does, for its program and its tests.
#![deny(missing_docs, unsafe_code)]

mod arguments;
mod decide;
mod faults;
mod help;
mod input;
mod list;
mod model;
mod problem;
mod progress;
mod record;
mod report;
mod retired;
mod save;
mod saved;
mod several;
mod sha256;
mod show;
mod sort;
mod sorter;
mod text;
mod trail;
mod trouble;

pub use trouble::Trouble;

use altuliscia::{Answer, OneClass, Options, Problem, Refusal, Training, Tuned};
use arguments::{Call, Command, Fit, Settings, Words};
use faults::Judged;
use problem::Samples;
use record::Record;
use std::io::Write;

/// Does what the words ask for and writes what it has to tell: to `out`, and what shouldn't stand there to `err`. A progress line is
/// shown on `err` where `terminal` is true.
pub fn run(
    words: &[String],
    out: &mut dyn Write,
    err: &mut (dyn Write + Send),
    terminal: bool,
) -> Result<(), Trouble> {
    match arguments::parse(words)? {
        Words::Help(text) => tell(out, text),
        Words::Call(call) => carried_out(&call, out, err, terminal),
        Words::Sort(asked) => sort::carried_out(&asked, out, err, terminal),
        Words::Decide(asked) => decide::carried_out(&asked, out, err, terminal),
        Words::Show(asked) => show::carried_out(&asked, out),
    }
}

fn carried_out(
    call: &Call,
    out: &mut dyn Write,
    err: &mut (dyn Write + Send),
    terminal: bool,
) -> Result<(), Trouble> {
    if call.command == Command::Train {
        never_what_is_read(call, &call.model_path())?;
    }
    let settings = &call.settings;
    let data = progress::shown(err, terminal, "reading", || input::read(&call.file))?;
    if call.command == Command::Weights && saved::is_model(&data) {
        return show::weights(call, &data, out, err);
    }
    let (samples, listed) = progress::shown(err, terminal, "reading", || read(call, &data))?;
    drop(data);
    let whole = Whole {
        wrong: samples.misnumbered(settings.part),
        n: samples.n,
        serials: samples.serials.clone(),
        classes: samples.classes.len(),
    };
    let (samples, costs) = asked(samples, settings)?;
    match samples.classes.len() > 2 {
        true => several::carried_out(call, &samples, &costs, (whole, listed), out, err, terminal),
        false => {
            let ceilings = (costs[0], costs[1]);
            of_one_training(
                call,
                &samples,
                ceilings,
                (whole, listed),
                out,
                err,
                terminal,
            )
        }
    }
}

/// Carries out what is asked of two classes, or of one.
fn of_one_training(
    call: &Call,
    samples: &Samples,
    ceilings: (f64, f64),
    (whole, listed): (Whole, Vec<Trouble>),
    out: &mut dyn Write,
    err: &mut (dyn Write + Send),
    terminal: bool,
) -> Result<(), Trouble> {
    let settings = &call.settings;
    let mut judged = faults::judged(samples, settings, ceilings, listed);
    judged.faults.splice(0..0, whole.wrong.iter().cloned());
    judged.of_settings(settings, &[ceilings.0, ceilings.1]);
    let mut judged = judged.stand(call, samples, out, err)?;
    if call.command == Command::Check {
        return Ok(());
    }
    let captions = trail::captions(samples, settings, &whole)?;
    let finger = trail::finger(samples, settings, &whole, captions.clone())?;
    let pointed = finger.as_ref().filter(|_| call.command == Command::Trail);
    let work = || trained(samples, settings, ceilings);
    let answer = match pointed {
        Some(finger) => told_trail(settings, samples, ceilings, finger, out, err, terminal)?,
        None => progress::shown(err, terminal, "training", work)?,
    };
    let outside = report::of_ceilings(samples, settings, ceilings, &answer);
    judged.cautions.extend(outside);
    let parted = report::of_answer(samples, settings, &answer);
    judged.notes.extend(parted);
    let told = Told {
        call,
        samples,
        ceilings,
        answer: &answer,
        whole: &whole,
        judged: &judged,
    };
    told.out(finger, captions, out)?;
    told.err(err);
    told.ended()
}

/// Follows a sample, tells its steps, and hands back the answer of the whole run.
fn told_trail(
    settings: &Settings,
    samples: &Samples,
    ceilings: (f64, f64),
    finger: &trail::Finger,
    out: &mut dyn Write,
    err: &mut (dyn Write + Send),
    terminal: bool,
) -> Result<Answer, Trouble> {
    let work = || trail::followed(samples, settings, ceilings, finger.sample);
    let trail = progress::shown(err, terminal, "following", work)?;
    tell(out, &trail::text(samples, settings, finger, &trail))?;
    Ok(trail.answer)
}

/// What is known of a whole file, where a pair of it is trained.
struct Whole {
    /// What is wrong with its serial numbers.
    wrong: Vec<Trouble>,
    n: usize,
    serials: Vec<u64>,
    classes: usize,
}

/// An answer, and what it is the answer to.
struct Told<'a> {
    call: &'a Call,
    samples: &'a Samples,
    ceilings: (f64, f64),
    answer: &'a Answer,
    whole: &'a Whole,
    judged: &'a Judged,
}

impl Told<'_> {
    /// Writes the model, or the list; of a trail all was told.
    fn out(
        &self,
        finger: Option<trail::Finger>,
        captions: Option<Vec<String>>,
        out: &mut dyn Write,
    ) -> Result<(), Trouble> {
        let (s, settings, ceilings, answer) = (
            self.samples,
            &self.call.settings,
            self.ceilings,
            self.answer,
        );
        match self.call.command {
            Command::Weights => {
                let mut list = list::List::of(s, settings, ceilings, answer);
                list.cautions = Some(self.judged.cautions.clone());
                list.captioned(&captions.unwrap_or_default());
                if let Some(finger) = finger {
                    list.rows.retain(|row| row.sample == Some(finger.sample));
                }
                tell(out, &list.text(settings))
            }
            Command::Train => {
                let unfit = report::unfit(settings, answer);
                let written = unfit.is_none() || settings.anyway;
                if written {
                    let cautions = &self.judged.cautions;
                    let record = Record::of(s, settings, &[answer.reason], unfit, cautions);
                    let text = model::text(s, settings, answer);
                    save::whole(&self.call.model_path(), &record.behind(&text))?;
                }
                let summary = report::summary(s, settings, ceilings, answer);
                summed_up(self.call, written, &summary, out)
            }
            _ => Ok(()),
        }
    }

    /// How the run ended, where no summary has told it, and the notes.
    fn err(&self, err: &mut (dyn Write + Send)) {
        let (s, settings) = (self.samples, &self.call.settings);
        let mut lines = Vec::new();
        if self.call.command != Command::Train && !settings.quiet {
            lines = report::beside(s, settings, self.answer);
            if self.whole.classes > 2 {
                lines.insert(0, format!("pair: {} {}", s.classes[0], s.classes[1]));
            }
        }
        lines.extend(self.judged.lines());
        noted(lines, err);
    }

    fn ended(&self) -> Result<(), Trouble> {
        match report::unfit(&self.call.settings, self.answer) {
            Some(why) => Err(unfit(self.call, why)),
            None => Ok(()),
        }
    }
}

/// That what was trained isn't to be released, and what became of its model.
fn unfit(call: &Call, why: String) -> Trouble {
    let model = match (call.command, call.settings.anyway) {
        (Command::Train, true) => format!("; {} was written all the same", call.model_path()),
        (Command::Train, false) => format!(
            "; no model was written (--write-anyway writes it){}",
            older(&call.model_path())
        ),
        _ => String::new(),
    };
    Trouble::Unfit(format!("not to be released: {}{}", why, model))
}

/// That a file of that name is an older one.
fn older(path: &str) -> String {
    match std::fs::metadata(path).map_or(false, |old| old.is_file()) {
        true => format!("; the older {} still stands", path),
        false => String::new(),
    }
}

/// Tells of a training; where that can't be, it is told that its model was written all the same.
fn summed_up(call: &Call, written: bool, text: &str, out: &mut dyn Write) -> Result<(), Trouble> {
    if call.settings.quiet {
        return Ok(());
    }
    tell(out, text).map_err(|trouble| match trouble {
        Trouble::Write(told) if written => {
            Trouble::Write(format!("{}; {} was written", told, call.model_path()))
        }
        other => other,
    })
}

/// Lines for standard error. Where it takes nothing, there is no place left to say so.
fn noted(lines: Vec<String>, err: &mut (dyn Write + Send)) {
    let text: String = lines.into_iter().map(|line| line + "\n").collect();
    let _ = err.write_all(text.as_bytes());
}

impl Judged {
    /// What the settings alone have to tell, by the ceilings of the classes.
    fn of_settings(&mut self, settings: &Settings, ceilings: &[f64]) {
        self.cautions.extend(report::of_shrinking(settings));
        self.notes.extend(report::of_travelling(settings, ceilings));
        self.notes.extend(settings.idle());
    }

    /// What a check tells, and else the first fault. The rest is handed back; a check has told it.
    fn stand(
        self,
        call: &Call,
        s: &Samples,
        out: &mut dyn Write,
        err: &mut (dyn Write + Send),
    ) -> Result<Judged, Trouble> {
        if call.command == Command::Check {
            let lines = self.lines();
            let done = checked(s, &call.settings, self.faults, out);
            noted(lines, err);
            return done.map(|()| Judged::default());
        }
        match self.faults.first() {
            Some(first) => Err(first.clone()),
            None => Ok(self),
        }
    }
}

/// The samples of a call, the retired ones marked, and what is wrong with the list of these.
fn read(call: &Call, data: &[u8]) -> Result<(Samples, Vec<Trouble>), Trouble> {
    let mut samples = problem::read(input::name(&call.file), data, call.settings.fit)?;
    let listed = match &call.settings.retired {
        Some(list) => retired::mark(&mut samples, list)?,
        None => Vec::new(),
    };
    Ok((samples, listed))
}

/// The samples that the settings ask for, with the ceiling of each class: all of them, or those of one pair.
fn asked(samples: Samples, settings: &Settings) -> Result<(Samples, Vec<f64>), Trouble> {
    let costs = settings.costs(&samples)?;
    Ok(match settings.alone(&samples)? {
        Some((first, second)) => {
            let pair = samples.pair(first, second);
            (pair, vec![costs[first], costs[second]])
        }
        None => (samples, costs),
    })
}

fn never_what_is_read(call: &Call, path: &str) -> Result<(), Trouble> {
    let list = call.settings.retired.as_deref().and_then(retired::file);
    let what = match list {
        _ if call.file != "-" && save::one_file(&call.file, path) => "problem itself",
        Some(list) if save::one_file(list, path) => "list of retired samples",
        _ => return Ok(()),
    };
    let told = format!("'{}' is the {}: the model would replace it", path, what);
    Err(Trouble::Usage(told))
}

fn checked(
    s: &Samples,
    settings: &Settings,
    faults: Vec<Trouble>,
    out: &mut dyn Write,
) -> Result<(), Trouble> {
    if !settings.quiet || !faults.is_empty() {
        tell(out, &faults::told(s, &faults))?;
    }
    match faults.first() {
        Some(first) => Err(Trouble::Faults(first.status())),
        None => Ok(()),
    }
}

/// Trains a problem without faults.
fn trained(s: &Samples, settings: &Settings, costs: (f64, f64)) -> Result<Answer, Trouble> {
    answered(s, settings, costs).map_err(|refusal| Trouble::Refused(s.path.clone(), refusal))
}

/// What the library answers.
fn answered(s: &Samples, settings: &Settings, costs: (f64, f64)) -> Result<Answer, Refusal> {
    let labels = s.positive();
    let mut tuned = Tuned::from(options(settings));
    tuned.floor = settings.floor;
    tuned.travelling = settings.travelling;
    training(s, settings, costs, &labels).fit_tuned(&tuned)
}

fn options(settings: &Settings) -> Options {
    Options {
        eps: settings.eps,
        shrinking: settings.shrinking,
        budget: settings.budget,
    }
}

/// What the settings ask to train. The labels are those of the samples.
fn training<'a>(
    s: &'a Samples,
    settings: &Settings,
    (cpos, cneg): (f64, f64),
    labels: &'a [bool],
) -> Training<'a> {
    let nu = settings.nu;
    let problem = Problem {
        matrix: &s.matrix,
        labels,
    };
    let samples = OneClass {
        n: s.n,
        matrix: &s.matrix,
    };
    match settings.fit {
        Fit::C if settings.retired.is_some() => Training::CRetired {
            problem,
            cpos,
            cneg,
            retired: &s.retired,
        },
        Fit::C => Training::C {
            problem,
            cpos,
            cneg,
        },
        Fit::Nu => Training::Nu { problem, nu },
        Fit::OneClass => Training::OneClass { samples, nu },
    }
}

fn tell(out: &mut dyn Write, text: &str) -> Result<(), Trouble> {
    let told = out.write_all(text.as_bytes()).and_then(|()| out.flush());
    told.map_err(|e| Trouble::telling(&e))
}
