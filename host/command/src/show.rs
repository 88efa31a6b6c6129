//! `show`: what a model says of itself, and whether it was trained on a file. And `weights` of a model.
use crate::arguments::{Call, Fit, Showing};
use crate::list::List;
use crate::model::double;
use crate::problem::Samples;
use crate::record::Record;
use crate::saved::Model;
use crate::{input, noted, problem, record, tell, Trouble};
use std::io::Write;

pub fn carried_out(asked: &Showing, out: &mut dyn Write) -> Result<(), Trouble> {
    let model = Model::read(&asked.model)?;
    let mut lines = about(&model);
    let unlike = match &asked.file {
        Some(file) => {
            let said = compared(&model, file)?;
            lines.extend(said.as_ref().ok().cloned());
            said.err()
        }
        None => None,
    };
    tell(out, &(lines.join("\n") + "\n"))?;
    match (unlike, model.unfit()) {
        (Some(unlike), _) => Err(Trouble::Unlike(unlike)),
        (None, Some(why)) => Err(not_to_be_released(&model, &why)),
        (None, None) => Ok(()),
    }
}

fn not_to_be_released(model: &Model, why: &str) -> Trouble {
    Trouble::Unfit(format!("{} isn't to be released: {}", model.path, why))
}

/// What a model says, a line each.
fn about(model: &Model) -> Vec<String> {
    let labels: Vec<String> = model.labels.iter().map(i32::to_string).collect();
    let fit = match model.fit {
        Fit::C => "with a cost (c_svc)",
        Fit::Nu => "with nu (nu_svc)",
        Fit::OneClass => "with nu (one_class)",
    };
    let mut lines = vec![match model.fit {
        Fit::OneClass => format!("model: of one class, {}", fit),
        _ => format!("model: of the labels {}, {}", labels.join(" "), fit),
    }];
    lines.push(format!("samples with a weight: {}", model.support.len()));
    let single = model.rhos.len() == 1;
    for (name, rho) in model.trainings() {
        lines.push(match single {
            true => format!("rho: {}", double(rho)),
            false => format!("rho of {}: {}", name, double(rho)),
        });
    }
    lines.extend(recorded(model));
    lines
}

/// What its record says.
fn recorded(model: &Model) -> Vec<String> {
    let record = match &model.record {
        Some(record) => record,
        None => {
            let none = "record: none, so its options and what it was trained on aren't known";
            return vec![none.to_string()];
        }
    };
    let retired: Vec<String> = record.retired.iter().map(u64::to_string).collect();
    let mut lines = vec![
        format!("written by: altuliscia {}", record.version),
        format!("options: {}", record.options),
        match retired.is_empty() {
            true => "retired: nobody".to_string(),
            false => format!("retired: {}", retired.join(",")),
        },
        format!("exit reason: {}", exit(model, record)),
        match model.unfit() {
            None if record.cautions.is_empty() => {
                "to be released: nothing speaks against it".to_string()
            }
            None => "to be released: with caution, see below".to_string(),
            Some(why) => format!("to be released: no: {}", why),
        },
        format!(
            "trained on: {} samples, sha256 {}",
            record.samples, record.hash
        ),
    ];
    lines.extend(record.cautions.iter().map(|c| format!("caution: {}", c)));
    lines
}

/// Why its trainings ended.
fn exit(model: &Model, record: &Record) -> String {
    let ends = model.trainings().into_iter().zip(&record.exits);
    let spent = ends.filter(|(_, end)| *end != "threshold");
    let spent: Vec<String> = spent.map(|((name, _), _)| name).collect();
    match (spent.len(), record.exits.len()) {
        (0, _) => "threshold".to_string(),
        (_, 1) => "iterations".to_string(),
        _ => format!(
            "iterations, of {}; threshold, of the others",
            spent.join(" ")
        ),
    }
}

/// That a model was trained on a file; the error is that it wasn't, or doesn't say.
fn compared(model: &Model, file: &str) -> Result<Result<String, String>, Trouble> {
    let name = input::name(file);
    let samples = problem::read(name, &input::read(file)?, model.fit)?;
    let record = match &model.record {
        Some(record) => record,
        None => {
            return Ok(Err(format!(
                "{} has no record of what it was trained on",
                model.path
            )))
        }
    };
    let all = samples.n;
    let samples = match narrowed(model, samples) {
        Some(samples) => samples,
        None => {
            return Ok(Err(format!(
                "{} has other labels than {}",
                name, model.path
            )))
        }
    };
    let (found, fewer) = (record::hash(&samples), samples.n < all);
    Ok(match found == record.hash {
        true if fewer => Ok(format!(
            "{}: its {} samples of the labels {} and {} are what it was trained on, and no others of it",
            name, samples.n, model.labels[0], model.labels[1]
        )),
        true => Ok(format!("{}: this is what it was trained on", name)),
        false => Err(format!(
            "{} isn't what {} was trained on: {} samples, sha256 {}",
            name, model.path, samples.n, found
        )),
    })
}

/// The samples of a model's labels: all of them, or those of a pair; nothing where they have others.
fn narrowed(model: &Model, s: Samples) -> Option<Samples> {
    let place = |label: &i32| s.classes.iter().position(|class| class == label);
    match model.labels[..] {
        [] => Some(s),
        [a, b] if s.classes.len() > 2 => Some(s.pair(place(&a)?, place(&b)?)),
        _ => (s.classes == model.labels).then(|| s),
    }
}

/// `weights` of a model: what it lists. Nothing is trained.
pub fn weights(
    call: &Call,
    data: &[u8],
    out: &mut dyn Write,
    err: &mut (dyn Write + Send),
) -> Result<(), Trouble> {
    let settings = &call.settings;
    let own = ["--pair", "--sample", "--csv", "--json", "-q"];
    if let Some(option) = settings.given.iter().find(|o| !own.contains(&o.as_str())) {
        return Err(Trouble::Usage(format!(
            "{}: {} is a model, which has its options in it: nothing is trained",
            option,
            input::name(&call.file)
        )));
    }
    let model = Model::of(input::name(&call.file), data)?;
    let mut list = List::of_model(&model);
    if let Some(pair) = settings.pair {
        list.paired(pair)?;
    }
    if let Some(word) = &settings.sample {
        list.only(word)?;
    }
    tell(out, &list.text(settings))?;
    if !settings.quiet {
        noted(about(&model), err);
    }
    match model.unfit() {
        Some(why) => Err(not_to_be_released(&model, &why)),
        None => Ok(()),
    }
}

#[cfg(test)]
mod tests {
    use super::*;

    /// What its numbers say counts, whatever its record does.
    #[test]
    fn a_record_does_not_speak_for_a_weight_that_is_not_finite() {
        let record = Record {
            version: "1.6.0".to_string(),
            options: "-s 1 -n 0.3".to_string(),
            retired: Vec::new(),
            exits: vec!["threshold".to_string()],
            unfit: None,
            samples: 2,
            hash: "0".to_string(),
            cautions: Vec::new(),
        };
        for (weight, told) in [
            ("2", "to be released: nothing speaks against it"),
            ("inf", "to be released: no: a weight of serial 1 is inf"),
        ] {
            let text = format!("svm_type nu_svc\nkernel_type precomputed\nnr_class 2\ntotal_sv 2\nrho 0\nlabel 7 3\nnr_sv 1 1\nSV\n{} 0:1\n-2 0:2\n", weight);
            let model = Model::of("a", record.behind(&text).as_bytes()).unwrap();
            assert!(about(&model).contains(&told.to_string()), "{}", told);
        }
    }
}
