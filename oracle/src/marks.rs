//! What a set of problems reaches: each answer carries marks, and a tally
//! counts them.

use crate::judge::faults;
use crate::problem::{Entry, Problem, BAD_FLOOR, LAST_REFUSAL, LIMIT, MOST_PASSES};
use crate::run::{canonical, Accepted, Answer, Outcome, Place, Reason};
use faint::{FAINT, WRONG};
use modes::{Modes, MODES, NEVER};
use still::{Still, STILL};
use tuned::{Tuned, TUNED};

mod faint;
mod modes;
mod retired;
mod step;
mod still;
mod tuned;

pub use retired::RETIRED;
pub use step::STEP;

/// How much a tally must have of a mark.
#[derive(Clone, Copy, Debug, PartialEq, Eq)]
pub enum Owed {
    /// A set of what `draw` draws isn't worth much where it never reaches it.
    Some,
    /// The same, of what `draw_retired` draws.
    Retired,
    /// The same, of what `draw_faint` draws.
    Faint,
    /// The same, of what `draw_tuned` draws.
    Tuned,
    /// The same, of what `draw_still` draws.
    Still,
    /// The same, of what `draw_modes` draws.
    Modes,
    /// It has never been seen, or must never be.
    None,
}

/// Every mark by name, in a fixed order.
pub fn names() -> Vec<(String, Owed)> {
    let mut all = Vec::new();
    let owed_by = |entry: Entry| match entry {
        Entry::Retired => Owed::Retired,
        _ => Owed::Some,
    };
    for entry in Entry::ALL {
        all.push((format!("accepted, {}", entry.name()), owed_by(entry)));
    }
    for (number, entry) in refusals() {
        let name = format!("refusal {number}, {}", entry.name());
        let tuned = number == BAD_FLOOR;
        all.push((name, if tuned { Owed::Tuned } else { owed_by(entry) }));
    }
    let several = "refused for several reasons at once";
    let index = "a refusal at an index that isn't 0";
    all.extend([several, index].map(|name| (name.into(), Owed::Some)));
    for (name, _) in ACCEPTED {
        all.push((format!("accepted: {name}"), Owed::Some));
    }
    for (name, _) in RETIRED {
        all.push((format!("retired: {name}"), Owed::Retired));
    }
    for (name, _) in FAINT {
        all.push((format!("home has {name}"), Owed::Faint));
    }
    for (rule, entry, _) in wrong_rules() {
        let name = format!("another support count if {rule}, {}", entry.name());
        all.push((name, Owed::Faint));
    }
    all.extend(tuned_names().map(|name| (name, Owed::Tuned)));
    for (name, _) in STILL {
        all.push((format!("shrinking off: {name}"), Owed::Still));
    }
    for (list, owed) in [(MODES, Owed::Modes), (NEVER, Owed::None)] {
        all.extend(
            list.iter()
                .map(|(name, _)| (format!("travelling: {name}"), owed)),
        );
    }
    let part = "the readings have different support counts";
    all.push((part.into(), Owed::None));
    all.push(("accepted: weight NaN or infinite".into(), Owed::None));
    all.push(("second look not optimal".into(), Owed::None));
    all.push(("fault of the oracle".into(), Owed::None));
    all
}

/// Every refusal of every entry.
fn refusals() -> Vec<(u64, Entry)> {
    let each = |number| Entry::ALL.into_iter().map(move |entry| (number, entry));
    (1..=LAST_REFUSAL)
        .flat_map(each)
        .filter(|(number, entry)| entry.can_refuse(*number))
        .collect()
}

/// Every wrong rule of the support count with each entry that can tell.
fn wrong_rules() -> impl Iterator<Item = (&'static str, Entry, fn(f64) -> bool)> {
    let each = |(rule, entries, test): &'static (_, &[Entry], _)| {
        entries.iter().map(move |entry| (*rule, *entry, *test))
    };
    WRONG.iter().flat_map(each)
}

/// The marks of a floor, in the order of [`tuned_marks`].
fn tuned_names() -> impl Iterator<Item = String> {
    let floors = tuned::edges().map(|floor| format!("floor {floor:?}"));
    let kinds = TUNED.iter().map(|(name, _)| format!("floor: {name}"));
    let entries = Entry::ALL.into_iter();
    let places = Place::ALL.into_iter().map(Place::name);
    floors
        .chain(kinds)
        .chain(entries.map(|e| format!("another answer than at 1e-10, {}", e.name())))
        .chain(places.clone().map(|p| format!("floor asked for: {p}")))
        .chain(places.map(|p| format!("another answer if 1e-10 stayed: {p}")))
}

fn tuned_marks(p: &Problem, answer: &Answer) -> Vec<bool> {
    let t = Tuned::of(p, answer);
    let mut all: Vec<bool> = tuned::edges().map(|floor| t.has(floor)).collect();
    all.extend(TUNED.iter().map(|(_, test)| test(&t)));
    all.extend(Entry::ALL.map(|entry| t.another_of(entry)));
    all.extend(Place::ALL.map(|place| t.asked(place)));
    all.extend(Place::ALL.map(|place| t.tells_at(place)));
    all
}

/// The marks of one answer, in the order of [`names`].
pub fn marks(p: &Problem, answer: &Answer) -> Vec<bool> {
    let mut all = Vec::new();
    let accepted = answer.accepted();
    let refusal = answer.refusal();
    for entry in Entry::ALL {
        all.push(accepted.is_some() && p.entry == entry);
    }
    for (number, entry) in refusals() {
        all.push(p.entry == entry && refusal.map_or(false, |r| r.number == number));
    }
    let drawn = p.entry != Entry::Retired;
    all.push(drawn && refusal.is_some() && faults(p).len() > 1);
    all.push(drawn && refusal.map_or(false, |r| r.index != 0));
    for (_, test) in ACCEPTED {
        all.push(drawn && accepted.map_or(false, |a| test(p, answer, a)));
    }
    for (_, test) in RETIRED {
        all.push(!drawn && test(p, answer));
    }
    for (_, test) in FAINT {
        all.push(accepted.map_or(false, test));
    }
    for (_, entry, rule) in wrong_rules() {
        let tells = accepted.map_or(false, |a| faint::differs(a, &a.home, rule));
        all.push(p.entry == entry && tells);
    }
    all.extend(tuned_marks(p, answer));
    let still = Still::of(p, answer);
    for (_, test) in STILL {
        all.push(still.as_ref().map_or(false, test));
    }
    let modes = Modes::of(p, answer);
    for (_, test) in MODES.iter().chain(NEVER) {
        all.push(modes.as_ref().map_or(false, test));
    }
    all.push(accepted.map_or(false, faint::readings_part));
    all.push(accepted.map_or(false, |a| a.weights.iter().any(|w| !w.is_finite())));
    all.push(answer.events.second_not_optimal > 0);
    all.push(matches!(answer.outcome, Outcome::Fault(_)));
    all
}

type Test = fn(&Problem, &Answer, &Accepted) -> bool;

const ACCEPTED: &[(&str, Test)] = &[
    ("reason threshold", |_, _, a| a.reason == Reason::Threshold),
    ("reason iterations", |_, _, a| {
        a.reason == Reason::Iterations
    }),
    ("no pass", |_, _, a| a.iterations == 0),
    ("one pass", |_, _, a| a.iterations == 1),
    ("above 100 passes", |_, _, a| a.iterations > 100),
    ("above 1000 passes", |_, _, a| a.iterations > 1000),
    ("budget 10,000,000", |p, _, _| p.budget == MOST_PASSES),
    ("n 1", |p, _, _| p.n == 1),
    ("n 11 to 24", |p, _, _| (11..=24).contains(&p.n)),
    ("n above 24", |p, _, _| p.n > 24),
    ("more room than must be", |p, _, _| {
        p.crate_len > p.n || p.home_len > p.n || p.scratch_floats > 7 * p.n
    }),
    ("matrix not symmetric", |p, _, _| !is_symmetric(p)),
    ("entry of magnitude 2^1000", |p, _, _| {
        p.entries().iter().any(|x| x.abs() == LIMIT)
    }),
    ("eps 0", |p, _, _| p.eps == 0.0),
    ("all labels equal", |p, _, _| {
        p.entry.has_labels() && p.labels.iter().all(|y| *y == p.labels[0])
    }),
    ("ceilings differ", |p, _, _| ceilings_differ(p)),
    ("nu rule in the general entry", |p, _, _| {
        p.entry == Entry::General && p.nu_rule
    }),
    ("nu·n is whole", |p, _, _| {
        matches!(p.entry, Entry::Nu | Entry::OneClass) && (p.nu * p.n as f64).fract() == 0.0
    }),
    ("nu 1", |p, _, _| p.nu == 1.0),
    ("shrinking off", |p, _, _| !p.shrinking),
    ("walked", |_, w, _| w.events.walks > 0),
    ("walked, nu rule", |_, w, a| {
        w.events.walks > 0 && a.r.is_some()
    }),
    ("shrunk", |p, w, _| {
        w.events.least_active.map_or(false, |k| k < p.n)
    }),
    ("shrunk, nu rule", |p, w, a| {
        w.events.least_active.map_or(false, |k| k < p.n) && a.r.is_some()
    }),
    ("no position left active", |_, w, _| {
        w.events.least_active == Some(0)
    }),
    ("swapped", |_, w, _| w.events.swaps > 0),
    ("swapped, nu rule", |_, w, a| {
        w.events.swaps > 0 && a.r.is_some()
    }),
    ("reconstructed, first branch", |_, w, _| {
        w.events.first_branch > 0
    }),
    ("reconstructed, second branch", |_, w, _| {
        w.events.second_branch > 0
    }),
    ("reconstructed at an optimal end", |_, w, a| {
        a.reason == Reason::Threshold && rebuilt_at_end(w)
    }),
    ("reconstructed when the budget ran out", |_, w, a| {
        a.reason == Reason::Iterations && rebuilt_at_end(w)
    }),
    ("unshrunk", |_, w, _| w.events.unshrinks > 0),
    ("unshrunk with positions given up", |_, w, _| {
        w.events.unshrinks_from_fewer > 0
    }),
    ("i no longer at upper", |_, w, _| w.events.turned_i[0] > 0),
    ("i newly at upper", |_, w, _| w.events.turned_i[1] > 0),
    ("j no longer at upper", |_, w, _| w.events.turned_j[0] > 0),
    ("j newly at upper", |_, w, _| w.events.turned_j[1] > 0),
    ("order changed", |_, _, a| {
        a.order.iter().enumerate().any(|(k, s)| k != *s)
    }),
    ("order not its own inverse", |_, _, a| {
        !is_own_inverse(&a.order)
    }),
    ("order not its own inverse, nu rule", |_, _, a| {
        a.r.is_some() && !is_own_inverse(&a.order)
    }),
    ("readings differ", |_, _, a| readings_differ(a)),
    ("rho NaN", |_, _, a| a.rho.is_nan()),
    ("rho infinite", |_, _, a| a.rho.is_infinite()),
    ("rho -0", |_, _, a| is_negative_zero(a.rho)),
    ("obj NaN", |_, _, a| a.obj.is_nan()),
    ("obj infinite", |_, _, a| a.obj.is_infinite()),
    ("gradient NaN", |_, _, a| {
        a.gradient.iter().any(|x| x.is_nan())
    }),
    ("gradient infinite", |_, _, a| {
        a.gradient.iter().any(|x| x.is_infinite())
    }),
    ("walked, gradient not finite", |_, w, a| {
        w.events.walks > 0 && a.gradient.iter().any(|x| !x.is_finite())
    }),
    ("r finite", |_, _, a| a.r.map_or(false, f64::is_finite)),
    ("r not finite", |_, _, a| {
        a.r.map_or(false, |r| !r.is_finite())
    }),
    ("weight -0", |_, _, a| {
        a.weights.iter().any(|w| is_negative_zero(*w))
    }),
    ("weight below 0", |_, _, a| {
        a.weights.iter().any(|w| *w < 0.0)
    }),
    ("weight above its place's ceiling", |p, _, a| {
        (0..a.weights.len()).any(|k| a.weights[k] > ceiling_of_place(p, k))
    }),
    ("coefficient NaN", |_, _, a| {
        a.home.iter().any(|w| w.is_nan())
    }),
    ("zero pair", |_, w, _| w.zero_pair),
    ("zero pair and rho 0", |_, w, a| w.zero_pair && a.rho == 0.0),
];

fn is_symmetric(p: &Problem) -> bool {
    let n = p.n as usize;
    let m = p.entries();
    (0..n * n).all(|k| m[k] == m[(k % n) * n + k / n])
}

pub fn ceilings_differ(p: &Problem) -> bool {
    match p.entry {
        Entry::General | Entry::Retired => p.ceilings.iter().any(|c| *c != p.ceilings[0]),
        Entry::C => p.cpos != p.cneg,
        _ => false,
    }
}

/// The ceiling that the place has by the samples' first order.
fn ceiling_of_place(p: &Problem, k: usize) -> f64 {
    match p.entry {
        Entry::General | Entry::Retired => p.ceilings[k],
        Entry::C if p.labels[k] == 1 => p.cpos,
        Entry::C => p.cneg,
        Entry::Nu | Entry::OneClass => 1.0,
    }
}

/// Whether the run reconstructed beyond its return to all positions.
fn rebuilt_at_end(w: &Answer) -> bool {
    w.events.first_branch + w.events.second_branch > w.events.unshrinks_from_fewer
}

pub fn is_own_inverse(order: &[usize]) -> bool {
    order.iter().enumerate().all(|(k, s)| order[*s] == k)
}

pub fn readings_differ(a: &Accepted) -> bool {
    a.crate_reading
        .iter()
        .zip(&a.home)
        .any(|(x, y)| canonical(*x) != canonical(*y))
}

/// What a caller is told, as words.
fn told(answer: &Answer) -> Vec<u64> {
    let a = match &answer.outcome {
        Outcome::Accepted(a) => a,
        Outcome::Refused(r) => return vec![r.number, r.index],
        Outcome::Fault(_) => return Vec::new(),
    };
    let numbers = [a.rho, a.r.unwrap_or(0.0), a.obj].into_iter();
    let lists = a.crate_reading.iter().chain(&a.home);
    let mut all: Vec<u64> = numbers.chain(lists.copied()).map(canonical).collect();
    all.extend([a.iterations, a.reason as u64, a.support]);
    all
}

fn is_negative_zero(x: f64) -> bool {
    x.to_bits() == 1 << 63
}

/// Counts of marks over a set.
#[derive(Clone, Debug, Default)]
pub struct Tally {
    /// Whose marks it should have.
    owed: Vec<Owed>,
    pub total: u64,
    pub accepted: u64,
    pub passes: u64,
    pub counts: Vec<u64>,
}

impl Tally {
    /// An empty one of a set that owes these marks.
    pub fn owing(owed: &[Owed]) -> Tally {
        let owed = [owed, &[Owed::None]].concat();
        Tally {
            owed,
            ..Tally::default()
        }
    }

    pub fn add(&mut self, p: &Problem, answer: &Answer) -> Vec<bool> {
        let marks = marks(p, answer);
        self.counts.resize(marks.len(), 0);
        for (count, mark) in self.counts.iter_mut().zip(&marks) {
            *count += u64::from(*mark);
        }
        self.total += 1;
        if let Some(a) = answer.accepted() {
            self.accepted += 1;
            self.passes += a.iterations;
        }
        marks
    }

    /// How many carry the mark of that name.
    pub fn count(&self, name: &str) -> u64 {
        let k = names().iter().position(|(m, _)| m == name);
        let k = k.unwrap_or_else(|| panic!("there is no mark {name}"));
        self.counts.get(k).copied().unwrap_or(0)
    }

    /// Every mark that such a set can carry, with what is owed of it and its
    /// count.
    pub fn carried(&self) -> Vec<(String, Owed, u64)> {
        let counts = self.counts.iter().copied().chain(std::iter::repeat(0));
        names()
            .into_iter()
            .zip(counts)
            .map(|((name, owed), count)| (name, owed, count))
            .filter(|(_, owed, _)| self.owed.contains(owed))
            .collect()
    }

    /// The marks that should be there and aren't, and those that are there and
    /// shouldn't.
    pub fn wrong(&self) -> Vec<String> {
        self.carried()
            .into_iter()
            .filter(|(_, owed, count)| (*count > 0) == (*owed == Owed::None))
            .map(|(name, _, _)| name)
            .collect()
    }

    /// One line a mark.
    pub fn lines(&self) -> Vec<String> {
        let mut lines = vec![
            format!("{:>9}  problems", self.total),
            format!("{:>9}  accepted", self.accepted),
            format!("{:>9}  refused", self.total - self.accepted),
            format!("{:>9}  passes in all", self.passes),
        ];
        for (name, _, count) in self.carried() {
            lines.push(format!("{count:>9}  {name}"));
        }
        lines
    }
}
