//! All that is wrong with a problem and its settings, not only the first.
use crate::arguments::{Fit, Settings};
use crate::model::double;
use crate::problem::{Samples, HEAD};
use crate::several::places;
use crate::{training, Trouble};
use altuliscia::{Caution, Refusal, MOST_PASSES, MOST_SAMPLES};
use std::collections::BTreeSet;

/// 2^1000.
fn limit() -> f64 {
    2.0_f64.powi(1000)
}

/// What is to be told before a training.
#[derive(Default)]
pub struct Judged {
    /// Where there is one, nothing is trained.
    pub faults: Vec<Trouble>,
    /// What is trained all the same, and speaks against the answer: a model keeps it.
    pub cautions: Vec<String>,
    /// What else who trains should know, a line each.
    pub notes: Vec<String>,
}

impl Judged {
    /// The lines for standard error.
    pub fn lines(&self) -> Vec<String> {
        let cautions = self.cautions.iter().map(|text| format!("note: {}", text));
        cautions.chain(self.notes.iter().cloned()).collect()
    }
}

/// Every fault, in the order of the refusals and by index, and what is wrong with the list of retired samples where refusal 12 would stand;
/// then what isn't refused and can't be met. Without such a list the first refusal is what the library would answer.
pub fn judged(
    s: &Samples,
    settings: &Settings,
    ceilings: (f64, f64),
    listed: Vec<Trouble>,
) -> Judged {
    let given = given(s, settings, ceilings);
    let own = match given.is_empty() {
        true => cautions(s, settings, ceilings),
        false => Judged::default(),
    };
    let mut faults = with_settings(given, settings, listed);
    faults.extend(own.faults);
    Judged { faults, ..own }
}

/// Of more than two classes: what there is to tell of every pair, once, with the first pair that meets it; then the faults of the settings.
pub fn of_pairs(s: &Samples, settings: &Settings, costs: &[f64], listed: Vec<Trouble>) -> Judged {
    let mut seen = BTreeSet::new();
    let (mut all, mut last) = (Vec::new(), Judged::default());
    for (first, second) in places(s.classes.len()) {
        let (pair, ceilings) = (s.pair(first, second), (costs[first], costs[second]));
        let named = format!("in the pair {} {}", pair.classes[0], pair.classes[1]);
        let given = given(&pair, settings, ceilings);
        if given.is_empty() {
            let own = cautions(&pair, settings, ceilings);
            let faults = own.faults.into_iter().map(|fault| of_pair(fault, &named));
            last.faults.extend(faults);
            // A caution has its kind before its first colon.
            let new = own.cautions.into_iter().filter(|caution| {
                let kind = caution.split(':').next().unwrap_or_default();
                seen.insert(kind.to_string())
            });
            let new = new.map(|caution| format!("{}, {}", caution, named));
            last.cautions.extend(new);
        }
        let new = given.into_iter().filter(|fault| match fault {
            Trouble::Refused(_, Refusal::Samples) => true,
            Trouble::Refused(place, _) => seen.insert(place.clone()),
            _ => true,
        });
        all.extend(new.map(|fault| of_pair(fault, &named)));
    }
    let mut faults = with_settings(all, settings, listed);
    faults.extend(last.faults);
    Judged { faults, ..last }
}

/// A fault with its pair.
fn of_pair(fault: Trouble, named: &str) -> Trouble {
    match fault {
        Trouble::Usage(text) => Trouble::Usage(format!("{}, {}", text, named)),
        Trouble::Refused(place, Refusal::Samples) => {
            Trouble::Refused(format!("{} {}", place, named), Refusal::Samples)
        }
        Trouble::Refused(place, refusal) => {
            Trouble::Refused(format!("{}, {}", place, named), refusal)
        }
        other => other,
    }
}

/// What the library accepts, and yet is mostly a mistake: a nu that can't be met is a fault of the words.
fn cautions(s: &Samples, settings: &Settings, ceilings: (f64, f64)) -> Judged {
    let mut judged = Judged::default();
    let labels = s.positive();
    for caution in training(s, settings, ceilings, &labels).cautions() {
        match caution {
            Caution::InfeasibleNu {
                nu,
                positive,
                negative,
            } => {
                let rarer = s.classes[usize::from(negative < positive)];
                judged.faults.push(Trouble::Usage(format!(
                    "-n {} can't be met: half of it times {} samples is above {}, the number of those of label {}",
                    double(nu), positive + negative, positive.min(negative), rarer
                )));
            }
            Caution::Asymmetric {
                column,
                row,
                entry,
                mirrored,
                count,
            } => judged.cautions.push(format!(
                "the kernel isn't symmetric: serial {0} has {1} with serial {2}, but serial {2} has {3} with serial {0} (places that differ: {4}, none by more)",
                s.serials[column], double(entry), s.serials[row], double(mirrored), count
            )),
            Caution::UnequalCeilings => judged.cautions.push(format!(
                "the costs differ: label {} has {}, label {} has {}; it isn't promised then that every weight lies in 0..ceiling",
                s.classes[0], double(ceilings.0), s.classes[1], double(ceilings.1)
            )),
            other => judged.cautions.push(other.to_string()),
        }
    }
    judged
}

/// The faults of what is given, then those of the settings, and what is wrong with the list of retired samples.
fn with_settings(mut all: Vec<Trouble>, settings: &Settings, listed: Vec<Trouble>) -> Vec<Trouble> {
    all.extend(of_settings(settings));
    all.extend(listed);
    if settings.retired.is_some() && settings.shrinking {
        let place = "--retired".to_string();
        all.push(Trouble::Refused(place, Refusal::RetiredShrinking));
    }
    all
}

/// The faults of refusals 1 to 5.
fn given(s: &Samples, settings: &Settings, ceilings: (f64, f64)) -> Vec<Trouble> {
    let mut all = Vec::new();
    let two = settings.fit != Fit::OneClass;
    let mut add = |refusal: Refusal, place: String| all.push(Trouble::Refused(place, refusal));
    if s.n == 0 || s.n > MOST_SAMPLES {
        add(Refusal::Samples, format!("{}: {} samples", s.path, s.n));
    }
    // Files of bytes only: a text's lists are as long as they should be.
    let labels = s.labels.len() == s.n || !two && s.labels.is_empty();
    if s.n.checked_mul(s.n) != Some(s.matrix.len()) || !labels {
        add(Refusal::Length, lengths(s));
    } else {
        for (k, place) in entries(s) {
            add(Refusal::Kernel { index: k as u64 }, place);
        }
        let after = HEAD + 8 * s.matrix.len();
        for k in (0..s.labels.len()).filter(|k| two && s.labels[*k] > 1) {
            add(Refusal::Label { index: k as u64 }, s.place(k, after + k));
        }
    }
    let bad = |c: f64| !(c > 0.0 && c <= limit());
    for (index, c) in [(0, ceilings.0), (1, ceilings.1)] {
        if settings.fit == Fit::C && bad(c) {
            let class = s.classes.get(index as usize).copied().unwrap_or_default();
            add(
                Refusal::Ceiling { index },
                format!("that of label {} is {}", class, double(c)),
            );
        }
    }
    all
}

/// The faults of refusals 8, 9, 10 and 14.
fn of_settings(settings: &Settings) -> Vec<Trouble> {
    let mut all = Vec::new();
    let mut add = |refusal: Refusal, place: String| all.push(Trouble::Refused(place, refusal));
    let part = |x: f64| x > 0.0 && x <= 1.0;
    if !settings.eps.is_finite() || settings.eps.is_sign_negative() {
        add(Refusal::Eps, format!("it is {}", double(settings.eps)));
    }
    if settings.fit != Fit::C && !part(settings.nu) {
        add(Refusal::Nu, format!("it is {}", double(settings.nu)));
    }
    if settings.budget == 0 || settings.budget > MOST_PASSES {
        let more = if settings.budget == u64::MAX {
            " or more"
        } else {
            ""
        };
        add(
            Refusal::Budget,
            format!("it is {}{}", settings.budget, more),
        );
    }
    if !part(settings.floor) {
        let place = format!("it is {}", double(settings.floor));
        add(Refusal::Floor, place);
    }
    all
}

/// The kernel values that are refused: the index of each and where it stands, with its word in a text.
fn entries(s: &Samples) -> Vec<(usize, String)> {
    let bad = |k: &usize| !(s.matrix[*k].abs() <= limit());
    let place = |k: usize| {
        let column = k / s.n;
        let place = s.place(column, HEAD + 8 * k);
        let line = s.lines.get(column).map_or("", |line| &line.text);
        // The first two are the label and the serial number.
        let mut words = line.split_ascii_whitespace();
        match words.nth(1 + s.serials[k % s.n] as usize) {
            Some(word) => format!("{}: '{}'", place, word),
            None => place,
        }
    };
    let all = (0..s.matrix.len()).filter(bad);
    all.map(|k| (k, place(k))).collect()
}

/// The file of bytes, and what should stand in it where n may be.
fn lengths(s: &Samples) -> String {
    match s.n <= MOST_SAMPLES {
        true => format!(
            "{}: n is {}, so {} bytes of matrix and {} of labels should follow it",
            s.path,
            s.n,
            8 * s.n * s.n,
            s.n
        ),
        false => format!(
            "{}: what follows n isn't the matrix and the labels of {} samples",
            s.path, s.n
        ),
    }
}

/// The faults for a reader, a line each, then how many there are.
pub fn told(s: &Samples, faults: &[Trouble]) -> String {
    let mut lines: Vec<String> = faults.iter().map(Trouble::to_string).collect();
    let retired = match s.gone() {
        0 => String::new(),
        some => format!(", {} of them retired", some),
    };
    let count = match faults.len() {
        0 => "no fault".to_string(),
        1 => "1 fault".to_string(),
        many => format!("{} faults", many),
    };
    let of = match s.classes.len() {
        k if k > 2 => format!(" of {} labels", k),
        _ => String::new(),
    };
    lines.push(format!(
        "{}: {} samples{}{}, {}",
        s.path, s.n, of, retired, count
    ));
    lines.join("\n") + "\n"
}

#[cfg(test)]
mod tests {
    use super::*;

    /// Numbers that look drawn, from 0 up to a limit.
    struct Drawn(u64);

    impl Drawn {
        fn below(&mut self, limit: u64) -> u64 {
            self.0 = self
                .0
                .wrapping_mul(6364136223846793005)
                .wrapping_add(1442695040888963407);
            (self.0 >> 33) % limit
        }

        fn of(&mut self, list: &[f64]) -> f64 {
            list[self.below(list.len() as u64) as usize]
        }

        /// A number that is good but for one time in many.
        fn mostly(&mut self, good: f64, list: &[f64]) -> f64 {
            if self.below(12) == 0 {
                self.of(list)
            } else {
                good
            }
        }
    }

    /// A fault that is a refusal: its place, its number and its index.
    fn refused(fault: &Trouble) -> (&str, u64, u64) {
        match fault {
            Trouble::Refused(place, refusal) => (place, refusal.number(), refusal.index()),
            other => panic!("{}", other),
        }
    }

    fn numbers(all: &[Trouble]) -> Vec<(u64, u64)> {
        let refused = all.iter().map(refused);
        refused.map(|(_, number, index)| (number, index)).collect()
    }

    /// The faults that are refusals, and whether there is one behind them, of a nu that can't be met.
    fn faults(
        s: &Samples,
        t: &Settings,
        c: (f64, f64),
        listed: Vec<Trouble>,
    ) -> (Vec<Trouble>, bool) {
        let mut all = judged(s, t, c, listed).faults;
        let unmet =
            matches!(all.last(), Some(Trouble::Usage(text)) if text.contains("can't be met"));
        all.truncate(all.len() - usize::from(unmet));
        (all, unmet)
    }

    fn samples(n: usize, matrix: Vec<f64>, labels: Vec<u8>) -> Samples {
        Samples {
            path: "a".to_string(),
            n,
            matrix,
            serials: (1..=n as u64).collect(),
            retired: vec![false; n],
            lines: Vec::new(),
            classes: vec![1, 0],
            width: n,
            labels,
        }
    }

    #[test]
    fn the_first_fault_is_what_the_library_answers() {
        let above = f64::from_bits(limit().to_bits() + 1);
        let strange = [
            f64::NAN,
            f64::INFINITY,
            -f64::INFINITY,
            0.0,
            -0.0,
            -1.0,
            above,
            -above,
            limit(),
            -limit(),
            5e-324,
            1.0000000000000002,
        ];
        let mut drawn = Drawn(1);
        let (mut counts, mut unmets) = ([0; 15], 0);
        // The order of the refusals.
        let place = |(number, index): &(u64, u64)| match number {
            14 => (11, 0),
            _ => (*number, *index),
        };
        for _ in 0..20_000 {
            let n = drawn.below(5) as usize;
            let size = n * n + usize::from(drawn.below(20) == 0);
            let matrix = (0..size).map(|_| drawn.mostly(1.0, &strange)).collect();
            let mut s = samples(n, matrix, (0..n).map(|_| drawn.below(2) as u8).collect());
            let c = (drawn.mostly(1.0, &strange), drawn.mostly(2.0, &strange));
            let mut t = Settings {
                fit: [Fit::C, Fit::Nu, Fit::OneClass][drawn.below(3) as usize],
                nu: drawn.mostly(0.5, &strange),
                eps: drawn.mostly(0.001, &strange),
                shrinking: drawn.below(2) == 0,
                budget: [1, 0, 10, 10, 10, 10_000_001][drawn.below(6) as usize],
                floor: drawn.mostly(1e-10, &strange),
                ..Settings::USUAL
            };
            if t.fit == Fit::C && drawn.below(2) == 0 {
                t.retired = Some(String::new());
                s.retired.fill_with(|| drawn.below(2) == 0);
            }
            let (all, unmet) = faults(&s, &t, c, Vec::new());
            let all = numbers(&all);
            let first = s.labels.iter().filter(|label| **label == 1).count();
            let rarer = first.min(n - first) as f64;
            // The library trains it all the same.
            if unmet {
                assert!(t.fit == Fit::Nu && t.nu * n as f64 / 2.0 > rarer);
                unmets += 1;
            }
            // What only a run can tell has no fault.
            let theirs = crate::answered(&s, &t, c).err();
            let theirs = theirs.filter(|r| *r != Refusal::ShrunkAway);
            let theirs = theirs.map(|r| (r.number(), r.index()));
            assert_eq!(all.first(), theirs.as_ref(), "{:?} {:?} {:?}", s, t, c);
            let in_order = |w: &[(u64, u64)]| place(&w[0]) < place(&w[1]);
            assert!(all.windows(2).all(in_order), "{:?}", all);
            counts[theirs.map_or(0, |(number, _)| number) as usize] += 1;
        }
        for number in [0, 1, 2, 3, 5, 8, 9, 10, 13, 14] {
            assert!(counts[number] > 20, "{:?}", counts);
        }
        assert!(unmets > 100, "{}", unmets);
    }

    #[test]
    fn every_fault_is_named() {
        let s = samples(2, vec![f64::NAN, 0.0, 0.0, f64::INFINITY], vec![2, 3]);
        let t = Settings {
            eps: -0.0,
            nu: 0.0,
            budget: 0,
            floor: 1.0000000000000002,
            ..Settings::USUAL
        };
        assert_eq!(
            numbers(&faults(&s, &t, (0.0, f64::NAN), Vec::new()).0),
            [
                (3, 0),
                (3, 3),
                (4, 0),
                (4, 1),
                (5, 0),
                (5, 1),
                (8, 0),
                (10, 0),
                (14, 0)
            ]
        );
        let (all, _) = faults(&s, &t, (1.0, 1.0), Vec::new());
        let places = all.iter().map(|fault| refused(fault).0);
        assert_eq!(
            places.collect::<Vec<_>>(),
            [
                "a: byte 16",
                "a: byte 40",
                "a: byte 48",
                "a: byte 49",
                "it is -0.0",
                "it is 0",
                "it is 1.0000000000000002"
            ]
        );
    }

    #[test]
    fn labels_may_be_left_out_for_one_class_alone() {
        let s = samples(1, vec![1.0], Vec::new());
        let of = |fit| {
            faults(
                &s,
                &Settings {
                    fit,
                    ..Settings::USUAL
                },
                (1.0, 1.0),
                Vec::new(),
            )
            .0
            .len()
        };
        assert_eq!((of(Fit::C), of(Fit::Nu), of(Fit::OneClass)), (1, 1, 0));
    }

    #[test]
    fn what_is_wrong_with_the_list_stands_between_14_and_13() {
        let s = samples(1, vec![1.0], vec![1]);
        let t = Settings {
            budget: 0,
            floor: f64::NAN,
            shrinking: true,
            retired: Some("9".to_string()),
            ..Settings::USUAL
        };
        let listed = vec![Trouble::Usage("a list".to_string())];
        let (all, _) = faults(&s, &t, (1.0, 1.0), listed);
        let statuses: Vec<u8> = all.iter().map(Trouble::status).collect();
        assert_eq!(statuses, [20, 24, 2, 23]);
    }
}
