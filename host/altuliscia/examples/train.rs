//! Trains a sorter of short captions: the kernel counts the letters that two captions share.
use altuliscia::{fit_c, Options, Problem};
use std::error::Error;

const CAPTIONS: [(&str, bool); 6] = [
    ("NOT-AUS", true),
    ("ZURUECK", true),
    ("BETRIEB", true),
    ("ARRESTO", false),
    ("INDIETRO", false),
    ("MARCIA", false),
];

fn shared(a: &str, b: &str) -> f64 {
    let count = |s: &str, letter: char| s.chars().filter(|c| *c == letter).count();
    ('A'..='Z')
        .map(|x| (count(a, x) * count(b, x)) as f64)
        .sum()
}

fn main() -> Result<(), Box<dyn Error>> {
    let matrix: Vec<f64> = CAPTIONS
        .iter()
        .flat_map(|(a, _)| CAPTIONS.iter().map(move |(b, _)| shared(a, b)))
        .collect();
    let labels = CAPTIONS.map(|(_, german)| german);
    let problem = Problem {
        matrix: &matrix,
        labels: &labels,
    };
    let options = Options {
        eps: 0.001,
        ..Options::default()
    };
    let answer = fit_c(&problem, 1.0, 1.0, &options)?;
    if let Some(why) = answer.unfit() {
        return Err(format!("not to be released: {}", why).into());
    }

    println!(
        "rho {:.4}, {:?} after {} steps",
        answer.rho, answer.reason, answer.iterations
    );
    for ((caption, _), weight) in CAPTIONS.iter().zip(&answer.home) {
        println!("{:<10}{:>8.4}", caption, weight);
    }
    Ok(())
}
