//! What becomes of a training when captions are withdrawn.
use crate::percent;
use altuliscia::{fit_c_retired, Answer, Options, Problem};
use captions::{fitted, language, sorted, Figures};

const CEILING: f64 = 10.0;
/// How many captions are listed.
const LISTED: usize = 12;

/// Trains with all captions, then with some of them retired, and compares. Serial numbers are those of `captions libsvm`, from 1 on.
/// The error is a word that makes no sense, a refusal, or an answer that isn't that of the figures without the retired captions.
pub fn retired(f: &Figures, serials: &[&str]) -> Result<String, String> {
    if f.held.is_empty() {
        return Err("there is no held-out caption to sort".to_string());
    }
    let gone = named(f, serials)?;
    let (before, after) = (usual(f)?, trained(f, &gone)?);
    let alone = put_back(usual(&f.without(&gone))?, &gone);
    checked(&after, &alone)?;
    let mut lines = head(f, &gone);
    for (name, answer) in [("with them", &before), ("without", &after)] {
        let right = sorted(f, answer).home;
        lines.push(format!(
            "{:<9}  {:>5}  {:>15}  {} ({})",
            name,
            answer.iterations,
            answer.support,
            right,
            percent(right, f.held.len())
        ));
    }
    lines.extend(table(f, &gone, &before, &after));
    lines.push(format!(
        "\nAll {} weights are bit for bit those of a training on the other {} captions alone, put back at the old numbers.",
        gone.len(),
        gone.iter().filter(|gone| !**gone).count()
    ));
    Ok(lines.join("\n") + "\n")
}

/// Which captions are retired.
fn named(f: &Figures, serials: &[&str]) -> Result<Vec<bool>, String> {
    let n = f.train.len();
    let mut gone = vec![false; n];
    for word in serials.iter().flat_map(|list| list.split(',')) {
        let serial = word.parse::<usize>().ok().filter(|s| (1..=n).contains(s));
        let serial = serial.ok_or(format!(
            "'{}' is none of the serial numbers 1 to {}",
            word, n
        ))?;
        if std::mem::replace(&mut gone[serial - 1], true) {
            return Err(format!("the serial number {} is named twice", serial));
        }
    }
    let stands = |first: bool| (0..n).any(|k| f.train[k].first == first && !gone[k]);
    match stands(true) && stands(false) {
        true => Ok(gone),
        false => {
            Err("every caption of a language is retired, so nothing is left to part".to_string())
        }
    }
}

fn options() -> Options {
    Options::default()
}

/// The training on all captions of the figures.
fn usual(f: &Figures) -> Result<Answer, String> {
    fitted(f, f.train.len(), CEILING, &options()).map_err(|r| r.to_string())
}

fn trained(f: &Figures, gone: &[bool]) -> Result<Answer, String> {
    let n = f.train.len();
    let problem = Problem {
        matrix: &f.matrix(n),
        labels: &f.labels(n),
    };
    fit_c_retired(&problem, CEILING, CEILING, gone, &options()).map_err(|r| r.to_string())
}

/// The answer for the captions that are left, with 0 at the numbers of those that are gone.
fn put_back(left: Answer, gone: &[bool]) -> Answer {
    let spread = |list: &[f64]| -> Vec<f64> {
        let mut rest = list.iter();
        let mut place = |gone: &bool| if *gone { None } else { rest.next() };
        let all = gone.iter().map(|gone| place(gone).copied());
        all.map(|weight| weight.unwrap_or(0.0)).collect()
    };
    Answer {
        home: spread(&left.home),
        crate_reading: spread(&left.crate_reading),
        ..left
    }
}

/// Whether two answers are the same bit for bit.
fn checked(after: &Answer, alone: &Answer) -> Result<(), String> {
    let bits = |a: &Answer| -> Vec<u64> {
        let numbers = [a.rho, a.obj];
        let lists = numbers.iter().chain(&a.home).chain(&a.crate_reading);
        lists.map(|x| x.to_bits()).collect()
    };
    let rest = |a: &Answer| (a.iterations, a.support, a.reason);
    match bits(after) == bits(alone) && rest(after) == rest(alone) {
        true => Ok(()),
        false => {
            Err("the training with retired captions isn't that on the others alone".to_string())
        }
    }
}

fn head(f: &Figures, gone: &[bool]) -> Vec<String> {
    let retired = (0..gone.len()).filter(|k| gone[*k]);
    let retired = retired.map(|k| format!("{} ({})", k + 1, tongue(f, k)));
    vec![
        format!(
            "{} or {}? {} captions to train on, {} others to sort. C {}, eps {:e}, shrinking off.",
            language(&f.languages.0),
            language(&f.languages.1),
            gone.len(),
            f.held.len(),
            CEILING,
            options().eps
        ),
        format!("Retired: {}.", retired.collect::<Vec<_>>().join(", ")),
        String::new(),
        "           steps  support vectors  sorted rightly".to_string(),
    ]
}

fn tongue(f: &Figures, k: usize) -> &str {
    match f.train[k].first {
        true => language(&f.languages.0),
        false => language(&f.languages.1),
    }
}

/// The retired captions and those whose weight changed most, by number.
fn table(f: &Figures, gone: &[bool], before: &Answer, after: &Answer) -> Vec<String> {
    let change = |k: usize| (after.home[k] - before.home[k]).abs();
    let mut listed: Vec<usize> = (0..gone.len()).collect();
    listed.sort_by(|a, b| {
        let retired = gone[*b].cmp(&gone[*a]);
        retired.then(change(*b).total_cmp(&change(*a)))
    });
    listed.truncate(LISTED);
    listed.sort_unstable();
    let mut lines = vec![
        String::new(),
        "The retired ones and those whose weight changed most, each under its old number:"
            .to_string(),
        String::new(),
        "sample serial  language    with them      without".to_string(),
    ];
    for k in listed {
        let line = format!(
            "{:>6} {:>6}  {:<10} {:>10.6}   {:>10.6}  {}",
            k,
            k + 1,
            tongue(f, k),
            // so that no zero has a sign
            before.home[k] + 0.0,
            after.home[k] + 0.0,
            if gone[k] { "retired" } else { "" }
        );
        lines.push(line.trim_end().to_string());
    }
    lines
}

#[cfg(test)]
mod tests {
    use super::*;

    /// The second caption is like the third, and takes its part where that is retired.
    const SMALL: &str = "package none 0
languages xx yy
train 3
held 2
1 4
0 0 9
0 0 9 9
1 4 4 0 0
0 9 0 9 9
";

    fn of(serials: &[&str]) -> Result<String, String> {
        retired(&Figures::read(SMALL).unwrap(), serials)
    }

    #[test]
    fn every_caption_stands_under_its_own_number() {
        let told = of(&["3"]).unwrap();
        let lines: Vec<Vec<&str>> = told
            .lines()
            .map(|line| line.split_whitespace().collect())
            .collect();
        assert!(told.contains("\nRetired: 3 (yy).\n"), "{}", told);
        for row in [
            &["without", "1", "2", "2", "(100.0", "%)"][..],
            &["0", "1", "xx", "1.000000", "1.000000"],
            &["1", "2", "yy", "0.000000", "-1.000000"],
            &["2", "3", "yy", "-1.000000", "0.000000", "retired"],
        ] {
            assert!(lines.iter().any(|line| line == row), "{:?}\n{}", row, told);
        }
        let last =
            "All 3 weights are bit for bit those of a training on the other 2 captions alone";
        assert!(told.contains(last), "{}", told);
    }

    #[test]
    fn wrong_words_are_told() {
        for (serials, told) in [
            (&["4"][..], "'4' is none of the serial numbers 1 to 3"),
            (&["1", "0"], "'0' is none of the serial numbers 1 to 3"),
            (&["1", "x"], "'x' is none of the serial numbers 1 to 3"),
            (&["1", "3", "1"], "the serial number 1 is named twice"),
            (
                &["3,1"],
                "every caption of a language is retired, so nothing is left to part",
            ),
            (
                &["3", "2"],
                "every caption of a language is retired, so nothing is left to part",
            ),
            (&["1,,2"], "'' is none of the serial numbers 1 to 3"),
        ] {
            assert_eq!(of(serials).unwrap_err(), told);
        }
        let none = "package none 0\nlanguages xx yy\ntrain 1\nheld 0\n1 4\n";
        let told = retired(&Figures::read(none).unwrap(), &["1"]).unwrap_err();
        assert_eq!(told, "there is no held-out caption to sort");
    }

    /// One bit of one number is enough.
    #[test]
    fn another_answer_is_told() {
        let f = Figures::read(SMALL).unwrap();
        let gone = [false, false, true];
        let after = trained(&f, &gone).unwrap();
        let alone = put_back(usual(&f.without(&gone)).unwrap(), &gone);
        assert_eq!(checked(&after, &alone), Ok(()));
        let changes: [fn(&mut Answer); 6] = [
            |a| a.home[2] = -0.0,
            |a| a.crate_reading[1] = -1.0000000000000002,
            |a| a.home.swap(0, 1),
            |a| a.rho = -a.rho,
            |a| a.iterations += 1,
            |a| a.support += 1,
        ];
        for change in changes {
            let mut other = after.clone();
            change(&mut other);
            assert!(checked(&other, &alone).is_err());
        }
    }
}
