//! Runs in which a `max` or `min` met zeros of different sign, where Rust leaves the answer open. Every comparison is with the Rust
//! that keeps the first of them. Here that one is held against the Rust that keeps the second, and against the one with Rust's own
//! `max` and `min`: the sign of a zero rho under the C rule is all that may differ.
use oracle::problem::Problem;
use oracle::run::{canonical, solve_keeping, Accepted, Answer, Kept, Outcome};

#[derive(Default)]
pub struct Zeros {
    pub met: u64,
    /// Runs whose zero rho has the other sign where the second is kept.
    pub second: u64,
    /// The same, by Rust's own.
    pub own: u64,
}

impl Zeros {
    /// Counts a run, and says where the Rust parts from itself by more than that sign.
    #[must_use]
    pub fn add(&mut self, p: &Problem, answer: &Answer) -> Option<String> {
        if !answer.zero_pair {
            return None;
        }
        self.met += 1;
        let mut p = p.clone();
        p.lend_exactly();
        let first = solve_keeping(Kept::First, &p, true);
        for (kept, count) in [(Kept::Second, &mut self.second), (Kept::Own, &mut self.own)] {
            match other_sign(&first, &solve_keeping(kept, &p, true)) {
                Ok(other) => *count += u64::from(other),
                Err(field) => return Some(format!("zeros of different sign: {field}")),
            }
        }
        None
    }
}

/// Whether a zero rho has another sign, the rest being the same bit for bit; else the field that parts.
fn other_sign(one: &Answer, other: &Answer) -> Result<bool, &'static str> {
    let (a, b) = match (&one.outcome, &other.outcome) {
        (Outcome::Accepted(a), Outcome::Accepted(b)) => (a, b),
        (Outcome::Refused(a), Outcome::Refused(b)) if a == b => return Ok(false),
        _ => return Err("outcome"),
    };
    let lists = fields(a).into_iter().zip(fields(b));
    if let Some(((name, _), _)) = lists.into_iter().find(|((_, x), (_, y))| x != y) {
        return Err(name);
    }
    let open = a.rho == 0.0 && b.rho == 0.0 && a.r.is_none();
    match canonical(a.rho) == canonical(b.rho) {
        true => Ok(false),
        false if open => Ok(true),
        false => Err("rho"),
    }
}

/// All of an accepted run but rho.
fn fields(a: &Accepted) -> Vec<(&'static str, Vec<u64>)> {
    let words = |list: &[f64]| -> Vec<u64> { list.iter().map(|x| canonical(*x)).collect() };
    let steps = a.trace.iter().flat_map(|s| {
        let weights = [canonical(s.weight_i), canonical(s.weight_j)];
        [s.i as u64, s.j as u64].into_iter().chain(weights)
    });
    let order = a.order.iter().map(|k| *k as u64);
    vec![
        ("passes", steps.collect()),
        (
            "iterations, reason, support",
            vec![a.iterations, a.reason as u64, a.support],
        ),
        ("r", a.r.map(canonical).into_iter().collect()),
        ("obj", words(&[a.obj])),
        ("crate's reading", words(&a.crate_reading)),
        ("home reading", words(&a.home)),
        ("order", order.collect()),
        ("labels", a.labels.iter().map(|y| u64::from(*y)).collect()),
        ("weights", words(&a.weights)),
        ("ceilings", words(&a.ceilings)),
        ("gradient", words(&a.gradient)),
        ("fixed gradient", words(&a.fixed)),
        ("linear term", words(&a.linear)),
    ]
}
