//! Sorts captions of three languages: a training for each two of them, and their votes. The kernel counts the letters that two captions share.
use altuliscia::{Corpus, Options, Sorter, Tuned, Way};
use std::error::Error;

const LANGUAGES: [&str; 3] = ["German", "Italian", "Finnish"];

/// Captions to train on, four of each language.
const TRAIN: [(usize, &str); 12] = [
    (1, "NOT-AUS"),
    (2, "ARRESTO"),
    (3, "SEIS"),
    (1, "ZURUECK"),
    (2, "INDIETRO"),
    (3, "TAAKSE"),
    (1, "BETRIEB"),
    (2, "MARCIA"),
    (3, "KAYTTO"),
    (1, "STOERUNG"),
    (2, "GUASTO"),
    (3, "VIKA"),
];

const NEW: [&str; 9] = [
    "WERKZEUG",
    "AVVIO",
    "KAYNNISTYS",
    "WEITER",
    "PORTA APERTA",
    "OVI AUKI",
    "TUER OFFEN",
    "RITORNO",
    "HIDAS",
];

fn shared(a: &str, b: &str) -> f64 {
    let count = |s: &str, letter: char| s.chars().filter(|c| *c == letter).count();
    ('A'..='Z')
        .map(|x| (count(a, x) * count(b, x)) as f64)
        .sum()
}

fn main() -> Result<(), Box<dyn Error>> {
    let matrix: Vec<f64> = TRAIN
        .iter()
        .flat_map(|(_, a)| TRAIN.iter().map(move |(_, b)| shared(a, b)))
        .collect();
    let labels = TRAIN.map(|(language, _)| language);
    let options = Options {
        eps: 0.001,
        ..Options::default()
    };
    let corpus = Corpus::new(&matrix, &labels);
    let sorter = Sorter::train(&corpus, Way::C(0.5), &Tuned::from(options))?;
    for (pair, why) in sorter.unfit() {
        println!("{} and {}: {}", pair.first, pair.second, why);
    }

    for caption in NEW {
        let found = sorter.sort(&TRAIN.map(|(_, trained)| shared(caption, trained)))?;
        let language = LANGUAGES[found.winner() - 1];
        let tie = if found.tied() { ", a tie" } else { "" };
        let votes = found.votes.counts();
        println!("{:<13} {:<8} {:?}{}", caption, language, votes, tie);
    }
    Ok(())
}
