//! The model file, as LIBSVM's svm-predict reads it for a precomputed kernel.
use crate::arguments::{Fit, Settings};
use crate::problem::Samples;
use crate::several::Trained;
use altuliscia::Answer;

/// A double in the words of C, so that reading it gives the same bits.
pub fn double(x: f64) -> String {
    match x {
        _ if x.is_nan() => "nan".to_string(),
        _ if x.is_infinite() => if x > 0.0 { "inf" } else { "-inf" }.to_string(),
        _ => format!("{:?}", x),
    }
}

/// The samples that a model lists: whose weight isn't zero. However small it is, a decision needs it.
pub fn listed(answer: &Answer) -> impl Iterator<Item = usize> + '_ {
    (0..answer.home.len()).filter(|k| answer.home[*k] != 0.0)
}

/// The lines of a class.
fn lines(s: &Samples, answer: &Answer, class: Option<u8>) -> Vec<String> {
    listed(answer)
        .filter(|k| class.map_or(true, |label| s.labels[*k] == label))
        .map(|k| format!("{} 0:{}", double(answer.home[k]), s.serials[k]))
        .collect()
}

fn kind(fit: Fit) -> &'static str {
    match fit {
        Fit::C => "c_svc",
        Fit::Nu => "nu_svc",
        Fit::OneClass => "one_class",
    }
}

/// The weights are the home reading's: each sample's own.
pub fn text(s: &Samples, settings: &Settings, answer: &Answer) -> String {
    let classes: Vec<Vec<String>> = match settings.fit {
        Fit::OneClass => vec![lines(s, answer, None)],
        _ => vec![lines(s, answer, Some(1)), lines(s, answer, Some(0))],
    };
    let mut lines = vec![
        format!("svm_type {}", kind(settings.fit)),
        "kernel_type precomputed".to_string(),
        "nr_class 2".to_string(),
        format!("total_sv {}", classes.iter().map(Vec::len).sum::<usize>()),
        format!("rho {}", double(answer.rho)),
    ];
    if let ([first, second], [a, b]) = (&s.classes[..], &classes[..]) {
        lines.push(format!("label {} {}", first, second));
        lines.push(format!("nr_sv {} {}", a.len(), b.len()));
    }
    lines.push("SV".to_string());
    lines.extend(classes.concat());
    lines.join("\n") + "\n"
}

/// The model of several classes: a sample has a weight for each other class, in their order, and is listed where one of them isn't zero.
pub fn of_several(s: &Samples, fit: Fit, trained: &Trained) -> String {
    let classes: Vec<Vec<String>> = (0..s.classes.len())
        .map(|class| {
            let own = (0..s.n).filter(|k| s.class(*k) == Some(class) && trained.listed(*k));
            own.map(|k| several_weights(&trained.weights[k], s.serials[k]))
                .collect()
        })
        .collect();
    let joined = |words: Vec<String>| words.join(" ");
    let rhos = trained.rhos.iter().map(|rho| double(*rho)).collect();
    let labels = s.classes.iter().map(i32::to_string).collect();
    let counts = classes.iter().map(|lines| lines.len().to_string());
    let mut lines = vec![
        format!("svm_type {}", kind(fit)),
        "kernel_type precomputed".to_string(),
        format!("nr_class {}", s.classes.len()),
        format!("total_sv {}", classes.iter().map(Vec::len).sum::<usize>()),
        format!("rho {}", joined(rhos)),
        format!("label {}", joined(labels)),
        format!("nr_sv {}", joined(counts.collect())),
        "SV".to_string(),
    ];
    lines.extend(classes.concat());
    lines.join("\n") + "\n"
}

/// A sample's line; a zero has no sign there.
fn several_weights(weights: &[f64], serial: u64) -> String {
    let word = |x: &f64| double(if *x == 0.0 { 0.0 } else { *x });
    let words: Vec<String> = weights.iter().map(word).collect();
    format!("{} 0:{}", words.join(" "), serial)
}
