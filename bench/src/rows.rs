//! One row of the table: the contenders on one problem, taken in turn, and their answers compared.
use crate::given::{Given, Task};
use crate::library::{First, Library};
use crate::peers::{Libsvm, Sklearn};
use crate::rust::{oracle, Rust};
use crate::{median, Fit};
use std::time::Instant;

/// How the library's answer stands to the Rust's.
#[derive(Clone, Copy, PartialEq)]
pub enum Answers {
    /// Bit for bit, in both readings, rho, obj and iterations.
    Equal,
    /// The library refuses with 11, and the Rust panics.
    Refused,
    Differ,
}

pub struct Row {
    pub name: String,
    pub n: usize,
    pub task: Task,
    pub shrinking: bool,
    pub answers: Answers,
    pub passes: u64,
    pub libsvm_passes: Option<u64>,
    pub sklearn_passes: Option<u64>,
    /// Nanoseconds of each turn: library, Rust, LIBSVM, scikit-learn, the library's first trainer; empty where it isn't there.
    pub times: [Vec<f64>; WHO],
}

pub const WHO: usize = 5;

pub const LIBRARY: usize = 0;
pub const RUST: usize = 1;
pub const LIBSVM: usize = 2;
pub const SKLEARN: usize = 3;
/// With shrinking on the library is the first trainer, and nothing stands here.
pub const FIRST: usize = 4;

impl Row {
    /// The median of the ratios of contender a to contender b, turn by turn.
    pub fn ratio(&self, a: usize, b: usize) -> Option<f64> {
        let both = self.times[a].iter().zip(&self.times[b]);
        median(both.map(|(a, b)| a / b).collect())
    }

    pub fn time(&self, who: usize) -> Option<f64> {
        median(self.times[who].clone())
    }
}

fn timed(f: impl FnOnce()) -> f64 {
    let begun = Instant::now();
    f();
    begun.elapsed().as_nanos() as f64
}

/// Reads the matrix once, so that who comes next finds it near, as if it had just been computed.
fn warm(given: &Given) {
    std::hint::black_box(given.matrix.iter().sum::<f64>());
}

/// Whether the first trainer answers the same.
fn trainers_agree(given: &Given, task: Task, fit: &Fit) -> bool {
    let mut first = First::new(given, task);
    first.fit();
    first.fitted().is_ok_and(|other| Fit::same(fit, &other))
}

/// The library beside the oracle and beside the Rust that is timed; both trainers with shrinking off.
pub fn compared(given: &Given, task: Task, shrinking: bool) -> (Answers, u64) {
    let (mut library, mut rust) = (
        Library::new(given, task, shrinking),
        Rust::new(given, task, shrinking),
    );
    library.fit();
    rust.fit();
    match (
        library.fitted(),
        oracle(given, task, shrinking),
        rust.fitted(),
    ) {
        (Ok(a), Ok(b), Some(c)) if Fit::same(&a, &b) && Fit::same(&a, &c) => {
            match shrinking || trainers_agree(given, task, &a) {
                true => (Answers::Equal, a.iterations),
                false => (Answers::Differ, 0),
            }
        }
        (Err(11), Err(11), None) => (Answers::Refused, 0),
        _ => (Answers::Differ, 0),
    }
}

/// About how long a row takes, in nanoseconds, and its turns.
const ROW: f64 = 2.5e9;
const TURNS: (usize, usize) = (21, 301);

pub fn measured(
    given: &Given,
    task: Task,
    shrinking: bool,
    sklearn: &mut Option<Sklearn>,
    effort: f64,
) -> Row {
    let (answers, passes) = compared(given, task, shrinking);
    let mut row = Row {
        name: given.name.clone(),
        n: given.n,
        task,
        shrinking,
        answers,
        passes,
        libsvm_passes: None,
        sklearn_passes: None,
        times: Default::default(),
    };
    let mut library = Library::new(given, task, shrinking);
    let mut first = (!shrinking).then(|| First::new(given, task));
    let mut rust = Rust::new(given, task, shrinking);
    let mut libsvm = Libsvm::new(given, task, shrinking);
    let mut turns = TURNS.0;
    // the first turn warms up, and says how many there can be
    for turn in 0.. {
        if turn > turns {
            break;
        }
        let mut times = [None; WHO];
        warm(given);
        times[LIBRARY] = Some(timed(|| library.fit()));
        if let Some(first) = &mut first {
            warm(given);
            times[FIRST] = Some(timed(|| first.fit()));
        }
        if answers != Answers::Refused {
            warm(given);
            times[RUST] = Some(timed(|| rust.fit()));
            rust.forget();
        }
        if let Some(libsvm) = &mut libsvm {
            libsvm.warm();
            times[LIBSVM] = Some(timed(|| libsvm.fit()));
            row.libsvm_passes = Some(libsvm.forget());
        }
        if let Some(sklearn) = sklearn {
            let (time, passes) = sklearn.fit(task, shrinking);
            times[SKLEARN] = Some(time);
            row.sklearn_passes = Some(passes);
        }
        if turn == 0 {
            let whole: f64 = times.iter().flatten().sum();
            turns = ((effort * ROW / whole) as usize).clamp(TURNS.0, TURNS.1);
            continue;
        }
        for (all, time) in row.times.iter_mut().zip(times) {
            all.extend(time);
        }
    }
    row
}

/// What of a training with shrinking off is spent before the passes: medians in nanoseconds.
pub struct Before {
    pub name: String,
    pub n: usize,
    pub task: Task,
    pub whole: f64,
    /// The call with a budget of 0: refused with 10, once every entry is judged.
    pub judged: f64,
    /// With a budget of 1.
    pub one_pass: f64,
}

const BEFORE_TURNS: (f64, f64) = (401.0, 21.0);

pub fn before(given: &Given, task: Task, effort: f64) -> Option<Before> {
    let mut calls = [crate::library::BUDGET, 0, 1].map(|budget| {
        let mut library = Library::new(given, task, false);
        library.budget = budget;
        library
    });
    let mut times: [Vec<f64>; 3] = Default::default();
    let (most, least) = BEFORE_TURNS;
    for _ in 0..(effort * most).clamp(least, most) as usize {
        for (library, times) in calls.iter_mut().zip(&mut times) {
            warm(given);
            times.push(timed(|| library.fit()));
        }
    }
    let refused = |k: usize| calls[k].fitted().err();
    if (refused(0), refused(1), refused(2)) != (None, Some(10), None) {
        return None;
    }
    let [whole, judged, one_pass] = times.map(median);
    Some(Before {
        name: given.name.clone(),
        n: given.n,
        task,
        whole: whole?,
        judged: judged?,
        one_pass: one_pass?,
    })
}
