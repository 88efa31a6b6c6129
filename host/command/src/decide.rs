//! `decide`: what each training of a model decides on the captions of a file.
use crate::arguments::{Form, Sorting};
use crate::list::Field;
use crate::model::double;
use crate::problem::whole;
use crate::saved::Model;
use crate::sort::{accuracy, captions, notes, unrecorded, Caption};
use crate::sorter::Sorter;
use crate::{noted, progress, tell, text, Trouble};
use std::io::Write;

/// A caption, the label that it is sorted to, and what each training decides.
struct Decided {
    caption: Caption,
    sorted: i32,
    decisions: Vec<f64>,
}

pub fn carried_out(
    asked: &Sorting,
    out: &mut dyn Write,
    err: &mut (dyn Write + Send),
    terminal: bool,
) -> Result<(), Trouble> {
    let work = || {
        let model = Model::read(&asked.model)?;
        let sorter = Sorter::of(&model);
        let captions = captions(&asked.file, &sorter)?;
        let decided = captions
            .into_iter()
            .map(|caption| decided(caption, &sorter));
        let decided = decided.collect::<Result<Vec<_>, _>>()?;
        Ok((model, decided))
    };
    let (model, decided) = progress::shown(err, terminal, "deciding", work)?;
    tell(
        out,
        &match asked.form {
            Form::Table => table(&model, &decided),
            Form::Csv => csv(&model, &decided),
            Form::Json => json(&model, &decided),
        },
    )?;
    let mut lines = notes(&model, decided.iter().map(|d| &d.caption));
    if !asked.quiet {
        lines.extend(unrecorded(&model));
        let right = |d: &Decided| Some(d.caption.label? == d.sorted);
        lines.extend(accuracy(decided.iter().map(right)));
    }
    noted(lines, err);
    Ok(())
}

/// Of one class it is 1 where the decision is from 0 on, else -1, as svm-predict has it; of more the label that wins the library's vote.
fn decided(caption: Caption, sorter: &Sorter) -> Result<Decided, Trouble> {
    let decisions = sorter.decisions(&caption.values)?;
    let sorted = match sorter.labels.is_empty() {
        true if decisions[0] >= 0.0 => 1,
        true => -1,
        false => {
            let votes = sorter.votes(&caption.values);
            let votes = votes.map_err(|why| Trouble::Differs(why.to_string()))?;
            sorter.label(votes.winner())
        }
    };
    Ok(Decided {
        caption,
        sorted,
        decisions,
    })
}

/// What the decisions are called: the two labels of each, the first of which a decision from 0 on speaks for; of one class `class`.
fn names(model: &Model) -> Vec<String> {
    let names = model.trainings().into_iter().map(|(name, _)| name);
    let named = |name: String| match name.is_empty() {
        true => "class".to_string(),
        false => name,
    };
    names.map(named).collect()
}

fn table(model: &Model, decided: &[Decided]) -> String {
    let head = "  line serial  label  sorted".to_string();
    let columns: String = names(model)
        .iter()
        .map(|n| format!("  {:<24}", n))
        .collect();
    let mut lines = vec![(head + &columns).trim_end().to_string()];
    for d in decided {
        let label = d.caption.label.map_or(String::new(), |l| l.to_string());
        let decisions = d.decisions.iter().map(|x| format!("  {:<24}", double(*x)));
        let line = format!(
            "{:>6} {:>6} {:>6} {:>7}{}{}",
            d.caption.line,
            d.caption.serial,
            label,
            d.sorted,
            decisions.collect::<String>(),
            d.caption.mark()
        );
        lines.push(line.trim_end().to_string());
    }
    lines.join("\n") + "\n"
}

/// The fields of a caption before its decisions.
const FIELDS: [&str; 5] = ["line", "serial", "label", "sorted", "finite"];

fn fields(d: &Decided) -> [Field; 5] {
    [
        Field::Whole(Some(d.caption.line as i64)),
        serial(&d.caption.serial),
        Field::Whole(d.caption.label.map(i64::from)),
        Field::Whole(Some(i64::from(d.sorted))),
        Field::Flag(d.caption.finite()),
    ]
}

/// A serial number, which may be any number that a file has there.
fn serial(word: &str) -> Field {
    match whole(word) {
        Some(number) => Field::Whole(Some(i64::from(number))),
        None => Field::Double(word.parse().ok()),
    }
}

fn csv(model: &Model, decided: &[Decided]) -> String {
    let quoted = |name: &String| Field::Text(Some(name.clone())).csv();
    let names: Vec<String> = names(model).iter().map(quoted).collect();
    let mut lines = vec![format!("{},{}", FIELDS.join(","), names.join(","))];
    for d in decided {
        let words = fields(d).iter().map(Field::csv).collect::<Vec<_>>();
        let decisions: Vec<String> = d.decisions.iter().map(|x| double(*x)).collect();
        lines.push([words, decisions].concat().join(","));
    }
    lines.join("\n") + "\n"
}

fn json(model: &Model, decided: &[Decided]) -> String {
    let names = names(model);
    let line = |d: &Decided| {
        let own = FIELDS.iter().zip(fields(d));
        let own = own.map(|(name, field)| format!("\"{}\": {}", name, field.json()));
        let decisions = names.iter().zip(&d.decisions);
        let decisions: Vec<String> = decisions
            .map(|(name, x)| format!("{}: {}", text::json(name), Field::Double(Some(*x)).json()))
            .collect();
        let rest = format!("\"decisions\": {{{}}}", decisions.join(", "));
        let words: Vec<String> = own.chain([rest]).collect();
        format!("  {{{}}}", words.join(", "))
    };
    let lines: Vec<String> = decided.iter().map(line).collect();
    format!("[\n{}\n]\n", lines.join(",\n"))
}
