//! Several languages: every two of them are trained by themselves, each as a file of these two would be.
use crate::arguments::{Call, Command, Settings};
use crate::problem::Samples;
use crate::record::Record;
use crate::{answered, faults, model, noted, progress, report, save, summed_up, Trouble, Whole};
use altuliscia::{pairs, Answer, ExitReason, SUPPORT_LIMIT};
use std::io::Write;

/// The pairs of so many classes in their order, by the classes' places from 0 on.
pub fn places(classes: usize) -> impl Iterator<Item = (usize, usize)> {
    pairs(classes).map(|(first, second)| (first - 1, second - 1))
}

/// What the trainings of all pairs leave.
pub struct Trained {
    /// Of each sample a weight for each other class, in their order: that of its pair with it. Those of other pairs aren't there.
    pub weights: Vec<Vec<f64>>,
    pub rhos: Vec<f64>,
    /// What is told of each pair: its name, its training, and a note on it.
    told: Vec<(String, Vec<String>, Option<String>)>,
    ends: Vec<ExitReason>,
    /// The pairs whose budget ran out.
    spent: Vec<String>,
    /// The pairs that aren't to be released, each with its reason.
    unfit: Vec<String>,
    /// The weights above their ceilings and below 0, with their pairs.
    outside: Vec<String>,
}

impl Trained {
    /// Whether one of a sample's weights isn't zero. However small it is, a decision needs it.
    pub fn listed(&self, k: usize) -> bool {
        self.weights[k].iter().any(|weight| *weight != 0.0)
    }

    /// Whether one of them counts as support.
    fn counted(&self, k: usize) -> bool {
        let mut weights = self.weights[k].iter();
        weights.any(|weight| weight.abs() > SUPPORT_LIMIT)
    }

    /// The notes on the pairs, each with its pair.
    fn notes(&self) -> Vec<String> {
        let told = self.told.iter();
        told.filter_map(|(name, _, note)| Some(format!("{}: {}", name, note.as_ref()?)))
            .collect()
    }

    /// Takes what is to be said of a pair's answer.
    fn judge(
        &mut self,
        labels: &str,
        pair: &Samples,
        settings: &Settings,
        ceilings: (f64, f64),
        answer: &Answer,
    ) {
        let unfit = report::unfit(settings, answer);
        let unfit = unfit.map(|why| format!("pair {}: {}", labels, why));
        self.unfit.extend(unfit);
        let outside = report::of_ceilings(pair, settings, ceilings, answer);
        let outside = outside.into_iter();
        self.outside
            .extend(outside.map(|told| format!("{}, in the pair {}", told, labels)));
        if answer.reason == ExitReason::Iterations {
            self.spent.push(labels.to_string());
        }
        self.ends.push(answer.reason);
    }

    fn with(&mut self, s: &Samples, (first, second): (usize, usize), answer: &Answer) {
        let own = (0..s.n).filter(|k| [Some(first), Some(second)].contains(&s.class(*k)));
        for (k, weight) in own.zip(&answer.home) {
            // The column of the other class, among all but its own.
            let column = match s.class(k) == Some(first) {
                true => second - 1,
                false => first,
            };
            self.weights[k][column] = *weight;
        }
        self.rhos.push(answer.rho);
    }
}

/// Carries out what is asked of a file with more than two labels.
pub fn carried_out(
    call: &Call,
    s: &Samples,
    costs: &[f64],
    (whole, listed): (Whole, Vec<Trouble>),
    out: &mut dyn Write,
    err: &mut (dyn Write + Send),
    terminal: bool,
) -> Result<(), Trouble> {
    let settings = &call.settings;
    if call.command == Command::Weights || call.command == Command::Trail {
        return Err(third(call, s));
    }
    let mut judged = faults::of_pairs(s, settings, costs, listed);
    judged.faults.splice(0..0, whole.wrong);
    judged.of_settings(settings, costs);
    let mut judged = judged.stand(call, s, out, err)?;
    if call.command == Command::Check {
        return Ok(());
    }
    let trained = progress::in_parts(err, terminal, |now| trained(s, settings, costs, now))?;
    judged.cautions.extend(trained.outside.iter().cloned());
    judged.notes.extend(trained.notes());
    let unfit = Some(trained.unfit.join("; ")).filter(|why| !why.is_empty());
    let written = unfit.is_none() || settings.anyway;
    if written {
        let (ends, cautions) = (&trained.ends, &judged.cautions);
        let record = Record::of(s, settings, ends, unfit.clone(), cautions);
        let text = model::of_several(s, settings.fit, &trained);
        save::whole(&call.model_path(), &record.behind(&text))?;
    }
    summed_up(call, written, &summary(s, settings, &trained), out)?;
    noted(judged.lines(), err);
    match unfit {
        Some(why) => Err(crate::unfit(call, why)),
        None => Ok(()),
    }
}

/// The first sample of a third label, where two are wanted.
fn third(call: &Call, s: &Samples) -> Trouble {
    let place = (0..s.n).find(|k| s.class(*k) == Some(2));
    Trouble::File(format!(
        "{}: a third label, {}: `{}` is of two classes, and --pair says of which",
        s.place(place.unwrap_or_default(), 0),
        s.classes[2],
        call.command.name()
    ))
}

/// Trains every pair, in their order.
fn trained(
    s: &Samples,
    settings: &Settings,
    costs: &[f64],
    now: &dyn Fn(String),
) -> Result<Trained, Trouble> {
    let classes = s.classes.len();
    let all = places(classes).count();
    let mut trained = Trained {
        weights: vec![vec![0.0; classes - 1]; s.n],
        rhos: Vec::new(),
        told: Vec::new(),
        ends: Vec::new(),
        spent: Vec::new(),
        unfit: Vec::new(),
        outside: Vec::new(),
    };
    for (k, (first, second)) in places(classes).enumerate() {
        let labels = format!("{} {}", s.classes[first], s.classes[second]);
        let name = format!("pair {} of {}: {}", k + 1, all, labels);
        now(name.clone());
        let pair = s.pair(first, second);
        let ceilings = (costs[first], costs[second]);
        let answer = answered(&pair, settings, ceilings)
            .map_err(|refusal| Trouble::Refused(format!("{}: {}", s.path, name), refusal))?;
        trained.with(s, (first, second), &answer);
        trained.judge(&labels, &pair, settings, ceilings, &answer);
        trained.told.push((
            name,
            report::of_pair(&pair, settings, ceilings, &answer),
            report::of_answer(&pair, settings, &answer),
        ));
    }
    Ok(trained)
}

/// What is told of each pair, then of all of them.
fn summary(s: &Samples, settings: &Settings, trained: &Trained) -> String {
    let mut lines = Vec::new();
    for (name, told, _) in &trained.told {
        lines.push(name.clone());
        lines.extend(told.iter().cloned());
        lines.push(String::new());
    }
    let count = |test: &dyn Fn(usize) -> bool| (0..s.n).filter(|k| test(*k)).count();
    let counted = count(&|k| trained.counted(k));
    let listed = count(&|k| trained.listed(k));
    lines.push(format!("Total nSV = {}", counted));
    if listed != counted {
        lines.push(format!(
            "samples in the model: {} ({} of them not counted as support)",
            listed,
            listed - counted
        ));
    }
    lines.extend(report::of_all(s, settings));
    lines.push(ended(settings, trained));
    lines.join("\n") + "\n"
}

/// How the trainings ended.
fn ended(settings: &Settings, trained: &Trained) -> String {
    let all = trained.told.len();
    match trained.spent.len() {
        0 => format!("exit reason: threshold, of all {} pairs", all),
        some => format!(
            "exit reason: iterations (all {} of the budget), of {} of {} pairs: {}",
            settings.budget,
            some,
            all,
            trained.spent.join(", ")
        ),
    }
}
