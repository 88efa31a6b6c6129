//! A problem and its answer for a reader.

use crate::judge::faults;
use crate::problem::{Entry, Problem};
use crate::run::{Answer, Outcome};
use std::fmt::Write;

fn float(x: f64) -> String {
    if x.is_nan() {
        format!("NaN({:016x})", x.to_bits())
    } else {
        format!("{x:?}")
    }
}

fn floats(list: &[f64]) -> String {
    let all: Vec<String> = list.iter().map(|x| float(*x)).collect();
    all.join("  ")
}

pub fn problem(p: &Problem) -> String {
    let mut t = String::new();
    let mut line = |name: &str, value: String| {
        let _ = writeln!(t, "{name:<18}{value}");
    };
    line("entry", p.entry.name().to_string());
    line("n", p.n.to_string());
    let entries = p.entries();
    line("matrix", format!("{} bytes", p.matrix.len()));
    let n = usize::try_from(p.n).unwrap_or(0);
    if n > 0 && n <= 16 && entries.len() == n * n {
        for (c, column) in entries.chunks(n).enumerate() {
            line(&format!("  column {c}"), floats(column));
        }
    } else if entries.len() <= 256 {
        line("  entries", floats(&entries));
    }
    if p.entry.has_labels() {
        line("labels", format!("{:?}", p.labels));
    }
    match p.entry {
        Entry::General | Entry::Retired => {
            line("ceilings", floats(&p.ceilings));
            line("start alphas", floats(&p.alphas));
            line("linear term", floats(&p.linear));
            line("nu rule", p.nu_rule.to_string());
        }
        Entry::C => {
            line("cpos", float(p.cpos));
            line("cneg", float(p.cneg));
        }
        Entry::Nu | Entry::OneClass => line("nu", float(p.nu)),
    }
    if p.entry == Entry::Retired {
        line("retired", format!("{:?}", p.retired));
    }
    line("eps", float(p.eps));
    line("shrinking", p.shrinking.to_string());
    line("budget", p.budget.to_string());
    line("floor", float(p.floor));
    line("travelling", p.travelling.to_string());
    line(
        "result lists",
        format!("crate {}, home {}", p.crate_len, p.home_len),
    );
    line(
        "scratch",
        format!(
            "{} floats, {} numbers, {} bytes",
            p.scratch_floats, p.scratch_numbers, p.scratch_bytes
        ),
    );
    line("numbers against", format!("{:?}", faults(p)));
    t
}

pub fn answer(w: &Answer) -> String {
    let mut t = String::new();
    let mut line = |name: &str, value: String| {
        let _ = writeln!(t, "{name:<18}{value}");
    };
    match &w.outcome {
        Outcome::Refused(r) => line("refused", format!("{} at index {}", r.number, r.index)),
        Outcome::Fault(message) => line("fault", message.clone()),
        Outcome::Accepted(a) => {
            line("accepted", format!("{:?}", a.reason));
            line("rho", float(a.rho));
            line("r", a.r.map_or("absent".to_string(), float));
            line("obj", float(a.obj));
            line("iterations", a.iterations.to_string());
            line("support", a.support.to_string());
            line("crate's reading", floats(&a.crate_reading));
            line("home reading", floats(&a.home));
            line("order", format!("{:?}", a.order));
            line("by position", floats(&a.weights));
            line("gradient", floats(&a.gradient));
            for (k, s) in a.trace.iter().enumerate() {
                line(
                    &format!("  pass {}", k + 1),
                    format!(
                        "i {} j {}  weights {} {}",
                        s.i,
                        s.j,
                        float(s.weight_i),
                        float(s.weight_j)
                    ),
                );
            }
        }
    }
    line("zero pair", w.zero_pair.to_string());
    line("events", format!("{:?}", w.events));
    t
}
