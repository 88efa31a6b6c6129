//! What is told of an answer.
use crate::arguments::{Fit, Settings};
use crate::model::{double, listed};
use crate::problem::Samples;
use crate::record;
use altuliscia::{Answer, ExitReason, Unfit, SUPPORT_LIMIT, USUAL_FLOOR};
use std::cmp::Ordering;

/// A double as `%f` of C writes it, but for what would have more than sixteen digits before the point.
fn six(x: f64) -> String {
    match x.abs() < 1e16 {
        true => format!("{:.6}", x),
        false => double(x),
    }
}

/// The ceiling of a sample's weight. The nu fit divides its weights, and so their ceiling, by r, which may be negative.
pub fn ceiling(s: &Samples, fit: Fit, ceilings: (f64, f64), answer: &Answer, k: usize) -> f64 {
    match (fit, answer.r, s.labels.get(k)) {
        (Fit::Nu, Some(r), _) => (1.0 / r).abs(),
        (_, _, Some(0)) => ceilings.1,
        _ => ceilings.0,
    }
}

/// A weight without the sign of its class, and of an r that is below 0. Of one class no label has a say.
fn unsigned(s: &Samples, fit: Fit, answer: &Answer, k: usize) -> f64 {
    let second = fit != Fit::OneClass && s.labels.get(k) == Some(&0);
    let turned = answer.r.map_or(false, |r| r < 0.0);
    match second != turned {
        true => -answer.home[k],
        false => answer.home[k],
    }
}

/// Whether a weight, without a sign, is `below 0`, `at` its ceiling or `above` it. Where r makes the ceiling 0 or infinite, nothing is.
pub fn beside_ceiling(weight: f64, ceiling: f64) -> Option<&'static str> {
    if ceiling == 0.0 || ceiling.is_infinite() {
        return None;
    }
    match weight.partial_cmp(&ceiling) {
        _ if weight < 0.0 => Some("below 0"),
        Some(Ordering::Equal) => Some("at"),
        Some(Ordering::Greater) => Some("above"),
        _ => None,
    }
}

/// What is said beside a sample's weight: `retired`, `at`, `above`, `below 0`.
pub fn mark(
    s: &Samples,
    fit: Fit,
    ceilings: (f64, f64),
    answer: &Answer,
    k: usize,
) -> Option<&'static str> {
    match s.retired[k] {
        true => Some("retired"),
        false => beside_ceiling(
            unsigned(s, fit, answer, k),
            ceiling(s, fit, ceilings, answer, k),
        ),
    }
}

fn differs(answer: &Answer, k: usize) -> bool {
    let (home, other) = (answer.home[k], answer.crate_reading[k]);
    home != other && !(home.is_nan() && other.is_nan())
}

/// The lines that svm-train ends with, then with what it was trained and why the run ended.
pub fn summary(s: &Samples, settings: &Settings, ceilings: (f64, f64), a: &Answer) -> String {
    let mut lines = finished(s, settings, ceilings, a);
    if settings.fit != Fit::OneClass {
        lines.push(format!("Total nSV = {}", a.support));
    }
    lines.extend(uncounted(a));
    lines.extend(of_all(s, settings));
    lines.push(ended(settings, a));
    lines.join("\n") + "\n"
}

/// The lines that svm-train tells of one training.
fn finished(s: &Samples, settings: &Settings, ceilings: (f64, f64), a: &Answer) -> Vec<String> {
    let mut lines = vec![format!("optimization finished, #iter = {}", a.iterations)];
    match (settings.fit, a.r) {
        (Fit::C, _) if ceilings.0 == ceilings.1 => {
            let sum: f64 = a.home.iter().map(|w| w.abs()).sum();
            let most = ceilings.0 * (s.n - s.gone()) as f64;
            lines.push(format!("nu = {}", six(sum / most)));
        }
        (Fit::Nu, Some(r)) => {
            lines.push(format!("nu = {}", six(settings.nu)));
            lines.push(format!("C = {}", six(1.0 / r)));
        }
        _ => {}
    }
    lines.push(format!("obj = {}, rho = {}", six(a.obj), six(a.rho)));
    // Of the weights that nSV counts.
    let bounded = (0..s.n)
        .filter(|k| a.home[*k].abs() > SUPPORT_LIMIT)
        .filter_map(|k| mark(s, settings.fit, ceilings, a, k))
        .filter(|mark| ["at", "above"].contains(mark))
        .count();
    lines.push(format!("nSV = {}, nBSV = {}", a.support, bounded));
    lines
}

/// Of a pair among several: what is told of its training.
pub fn of_pair(s: &Samples, settings: &Settings, ceilings: (f64, f64), a: &Answer) -> Vec<String> {
    let mut lines = finished(s, settings, ceilings, a);
    lines.extend(uncounted(a));
    lines.push(ended(settings, a));
    lines
}

/// What is told of all pairs together: who is retired, a floor that isn't the usual one, ceilings that travel, the options.
pub fn of_all(s: &Samples, settings: &Settings) -> Vec<String> {
    let options = format!("options: {}", record::options(s, settings));
    let told = || "travelling: each sample keeps its own ceiling".to_string();
    let travelling = settings.travelling.then(told);
    let first = retired(s)
        .into_iter()
        .chain(floor(settings))
        .chain(travelling);
    first.chain([options]).collect()
}

/// Where the model lists more weights than nSV counts: how many it lists, and what the others are.
fn uncounted(a: &Answer) -> Option<String> {
    let all = listed(a).count();
    let others = |what: &str, test: fn(f64) -> bool| {
        let count = listed(a).filter(|k| test(a.home[*k])).count();
        (count > 0).then(|| format!("{} of them {}, ", count, what))
    };
    let small = others("at most 100*2^-52 in magnitude", |w| {
        w.abs() <= SUPPORT_LIMIT
    });
    let told: String = [small, others("NaN", f64::is_nan)]
        .into_iter()
        .flatten()
        .collect();
    let told = format!(
        "weights in the model: {} ({}not counted as support)",
        all, told
    );
    (all as u64 != a.support).then_some(told)
}

/// The lines for standard error, where no summary is told: how the run ended, and with what.
pub fn beside(s: &Samples, settings: &Settings, a: &Answer) -> Vec<String> {
    let mut lines = vec![ended(settings, a), format!("rho = {}", double(a.rho))];
    lines.extend(of_all(s, settings));
    lines
}

/// Who is retired, as --retired takes it.
fn retired(s: &Samples) -> Option<String> {
    let gone = (0..s.n).filter(|k| s.retired[*k]);
    let serials: Vec<String> = gone.map(|k| s.serials[k].to_string()).collect();
    let told = || {
        format!(
            "retired: {} ({} of {} samples)",
            serials.join(","),
            serials.len(),
            s.n
        )
    };
    (!serials.is_empty()).then(told)
}

/// The floor, where it isn't the usual one.
fn floor(settings: &Settings) -> Option<String> {
    let told = || format!("floor = {}", double(settings.floor));
    (settings.floor != USUAL_FLOOR).then(told)
}

fn ended(settings: &Settings, a: &Answer) -> String {
    match a.reason {
        ExitReason::Threshold => "exit reason: threshold".to_string(),
        ExitReason::Iterations => format!(
            "exit reason: iterations (all {} of the budget)",
            settings.budget
        ),
    }
}

/// Why an answer isn't to be released (docs/PROMISES.md, 'What to do with it'), where it isn't.
pub fn unfit(settings: &Settings, a: &Answer) -> Option<String> {
    Some(match a.unfit()? {
        Unfit::Budget => format!("the budget ran out, all {} of it", settings.budget),
        Unfit::Scale => scale(a.r.unwrap_or_default()),
        Unfit::Rho => format!(
            "rho is {}, so everything is sorted into one and the same class{}",
            double(a.rho),
            if settings.shrinking {
                "; train with -h 0"
            } else {
                ""
            }
        ),
        other => other.to_string(),
    })
}

/// What an r is by which weights can't be divided.
fn scale(r: f64) -> String {
    let why = match r {
        r if r.is_finite() && r < 0.0 => ": each weight has the other class's sign",
        r if r > 0.0 && r.is_finite() => ", so small that 1/r isn't finite",
        _ => "",
    };
    let told = "r, by which the weights are divided, is";
    format!("{} {}{}", told, double(r), why)
}

/// What the list that linfa-svm answers has otherwise.
pub fn of_answer(s: &Samples, settings: &Settings, a: &Answer) -> Option<String> {
    let parted = (0..s.n).filter(|k| differs(a, *k)).count();
    let told = || {
        format!(
            "note: {} of {} samples have another weight in the list that linfa-svm {}; the model has each sample's own",
            parted,
            s.n,
            match (settings.as_linfa_svm(), settings.travelling) {
                (true, _) => "answers",
                (false, false) => "would answer with this floor",
                (false, true) => "would answer with these options",
            }
        )
    };
    (parted > 0).then(told)
}

/// The note on ceilings that travel, where that changes nothing: by ceilings of the classes.
pub fn of_travelling(settings: &Settings, ceilings: &[f64]) -> Option<String> {
    let why = match settings.shrinking {
        false => "with -h 0 no sample moves",
        true if ceilings.iter().all(|c| *c == ceilings[0]) => "all ceilings are the same",
        true => return None,
    };
    let note = || format!("note: --travelling has no say here: {}", why);
    settings.travelling.then(note)
}

/// The caution of shrinking, where it is on. With --retired it is refused.
pub fn of_shrinking(settings: &Settings) -> Option<String> {
    let told = "shrinking is on: with -h 1 'threshold' speaks only of the samples still active, and obj and rho needn't be those of these weights; train with -h 0";
    let on = settings.shrinking && settings.retired.is_none();
    on.then(|| told.to_string())
}

/// The cautions of weights above their ceilings and below 0, where there are some.
pub fn of_ceilings(
    s: &Samples,
    settings: &Settings,
    ceilings: (f64, f64),
    a: &Answer,
) -> Vec<String> {
    let told = |wanted: &str, words: &str| {
        let those = (0..s.n).filter(|k| mark(s, settings.fit, ceilings, a, *k) == Some(wanted));
        let serials: Vec<String> = those.map(|k| s.serials[k].to_string()).collect();
        let serials = Some(serials.join(",")).filter(|all| !all.is_empty());
        serials.map(|all| format!("a weight is {}: that of serial {}", words, all))
    };
    let above = told("above", "above its ceiling");
    let below = told("below 0", "below 0");
    above.into_iter().chain(below).collect()
}
