//! One problem through the published solver.

use crate::judge::{judge, Refusal};
use crate::problem::{Entry, Problem};
use crate::retired;
use linfa_kernel::Kernel;
use linfa_svm::classification::{fit_c, fit_nu, fit_one_class};
use linfa_svm::floor::usual_at;
use linfa_svm::permutable_kernel::PermutableKernel;
use linfa_svm::solver_smo::{SolverParams, SolverState};
use linfa_svm::watch::{self, Seen};
use linfa_svm::{ExitReason, Svm};
use ndarray::ArrayView2;
use std::any::Any;
use std::cell::{Cell, RefCell};
use std::panic::{self, AssertUnwindSafe};
use std::sync::Once;

pub use linfa::Kept;
pub use linfa_svm::floor::Place;
pub use linfa_svm::solver_smo::chosen::update as step;
pub use linfa_svm::watch::{Events, Given, Step};

/// Why an accepted run ended.
#[derive(Clone, Copy, Debug, PartialEq, Eq)]
pub enum Reason {
    Threshold,
    Iterations,
}

/// The answer of an accepted run.
#[derive(Clone, Debug)]
pub struct Accepted {
    pub rho: f64,
    /// Absent without the nu rule.
    pub r: Option<f64>,
    pub obj: f64,
    pub iterations: u64,
    pub reason: Reason,
    /// The Rust's `nsupport`, asked of `home`: how many places are above
    /// 100·2^-52 in magnitude.
    pub support: u64,
    /// What the Rust answers: place i has the weight at position order[i].
    pub crate_reading: Vec<f64>,
    /// Sample order[k] has the weight at position k.
    pub home: Vec<f64>,
    /// The sample at each position.
    pub order: Vec<usize>,
    /// The weight at each position, without sign and not divided.
    pub weights: Vec<f64>,
    /// What else stands at each position at the end: ceiling, gradient, fixed
    /// gradient, linear term, label. No part of an answer.
    pub ceilings: Vec<f64>,
    pub gradient: Vec<f64>,
    pub fixed: Vec<f64>,
    pub linear: Vec<f64>,
    pub labels: Vec<bool>,
    /// One step a pass, where it was asked for.
    pub trace: Vec<Step>,
}

#[derive(Clone, Debug)]
pub enum Outcome {
    Refused(Refusal),
    Accepted(Accepted),
    /// A panic that isn't refusal 11: a fault of the oracle, with its message.
    Fault(String),
}

#[derive(Clone, Debug)]
pub struct Answer {
    pub outcome: Outcome,
    /// Whether a `max` or `min` met two zeros of different sign. Rust leaves
    /// such a result's sign open; [`solve_keeping`] says which comes out.
    pub zero_pair: bool,
    pub events: Events,
}

impl Answer {
    pub fn accepted(&self) -> Option<&Accepted> {
        match &self.outcome {
            Outcome::Accepted(a) => Some(a),
            _ => None,
        }
    }

    pub fn refusal(&self) -> Option<Refusal> {
        match &self.outcome {
            Outcome::Refused(r) => Some(*r),
            _ => None,
        }
    }
}

/// The pattern of a float in which every NaN is one NaN.
pub fn canonical(x: f64) -> u64 {
    if x.is_nan() {
        0x7ff8_0000_0000_0000
    } else {
        x.to_bits()
    }
}

/// As [`solve`], with that choice between zeros of different sign.
pub fn solve_keeping(kept: Kept, p: &Problem, trace: bool) -> Answer {
    linfa::keeping(kept, || solve(p, trace))
}

/// As [`solve`], with the published 1e-10 at that place instead of the floor.
pub fn solve_usual_at(place: Place, p: &Problem, trace: bool) -> Answer {
    usual_at(place, || solve(p, trace))
}

/// The problem's answer: refused, or what the published solver answers. Of
/// zeros of different sign `max` and `min` keep the first.
pub fn solve(p: &Problem, trace: bool) -> Answer {
    if let Some(refusal) = judge(p) {
        return Answer {
            outcome: Outcome::Refused(refusal),
            zero_pair: false,
            events: Events::default(),
        };
    }
    if p.entry == Entry::Retired {
        return retired::solve(p, trace);
    }
    solve_judged(p, trace)
}

/// What the published solver answers to a problem that passed the judge, or
/// to one of no samples at all.
pub(crate) fn solve_judged(p: &Problem, trace: bool) -> Answer {
    watch::begin(trace);
    linfa::forget_zero_pair();
    let result = caught(|| run(p));
    let zero_pair = linfa::met_zero_pair();
    let seen = watch::take();
    let events = seen.events;
    let outcome = match result {
        Ok(svm) => Outcome::Accepted(read(p, svm, seen)),
        Err(stopped) if stopped.is_refusal() => Outcome::Refused(Refusal {
            number: 11,
            index: 0,
        }),
        Err(stopped) => Outcome::Fault(stopped.message),
    };
    Answer {
        outcome,
        zero_pair,
        events,
    }
}

fn run(p: &Problem) -> Svm<f64, f64> {
    let n = p.n as usize;
    let kernel = Kernel::given(n, p.entries());
    let labels: Vec<bool> = p.labels.iter().map(|y| *y == 1).collect();
    let params = SolverParams {
        eps: p.eps,
        shrinking: p.shrinking,
        budget: p.budget as usize,
        floor: p.floor,
        travelling: p.travelling,
    };
    // the solver asks for the samples only to pick the support vectors; here
    // sample k is a row of one place that holds k
    let samples: Vec<f64> = (0..n).map(|k| k as f64).collect();
    let dataset = ArrayView2::from_rows(n, 1, &samples);
    match p.entry {
        // no fit of the published text has this shape; its body is what each
        // of them does, with every list given
        Entry::General => SolverState::new(
            p.alphas.clone(),
            p.linear.clone(),
            labels.clone(),
            dataset,
            PermutableKernel::new(kernel, labels),
            p.ceilings.clone(),
            params,
            p.nu_rule,
        )
        .solve(),
        Entry::C => fit_c(params, dataset, kernel, &labels, p.cpos, p.cneg),
        Entry::Nu => fit_nu(params, dataset, kernel, &labels, p.nu),
        Entry::OneClass => fit_one_class(params, dataset, kernel, p.nu),
        Entry::Retired => unreachable!("what is left of it is a general problem"),
    }
}

fn read(p: &Problem, mut svm: Svm<f64, f64>, seen: Seen) -> Accepted {
    // the published count looks at `alpha`, so home stands there for it
    let home = home(p, svm.r(), &seen);
    let crate_reading = std::mem::replace(&mut svm.alpha, home);
    Accepted {
        rho: svm.rho,
        r: svm.r(),
        obj: svm.obj(),
        iterations: svm.iterations() as u64,
        reason: match svm.exit_reason() {
            ExitReason::ReachedThreshold => Reason::Threshold,
            ExitReason::ReachedIterations => Reason::Iterations,
        },
        support: svm.nsupport() as u64,
        crate_reading,
        home: svm.alpha,
        order: seen.order,
        weights: seen.weights,
        ceilings: seen.ceilings,
        gradient: seen.gradient,
        fixed: seen.fixed,
        linear: seen.linear,
        labels: seen.labels,
        trace: seen.trace,
    }
}

/// The home reading, with the sign and the division that the entry's fit gives
/// to its own reading.
fn home(p: &Problem, r: Option<f64>, seen: &Seen) -> Vec<f64> {
    let mut home = vec![0.0; seen.order.len()];
    for (sample, weight) in seen.order.iter().zip(&seen.weights) {
        home[*sample] = *weight;
    }
    if matches!(p.entry, Entry::C | Entry::Nu) {
        for (x, label) in home.iter_mut().zip(&p.labels) {
            *x = if *label == 1 { *x } else { -*x };
        }
    }
    if let (Entry::Nu, Some(r)) = (p.entry, r) {
        for x in &mut home {
            *x /= r;
        }
    }
    home
}

/// A caught panic.
pub(crate) struct Stopped {
    message: String,
    /// Whether it arose in the published solver's own file.
    in_solver: bool,
}

impl Stopped {
    /// Whether it is the active count that would have gone below zero: the
    /// only whole number that the solver's file takes away from without care.
    pub(crate) fn is_refusal(&self) -> bool {
        self.in_solver && self.message == "attempt to subtract with overflow"
    }
}

thread_local! {
    static QUIET: Cell<bool> = const { Cell::new(false) };
    static WHERE: RefCell<String> = const { RefCell::new(String::new()) };
}

/// Runs `f` and catches a panic without a word on the terminal.
pub(crate) fn caught<T>(f: impl FnOnce() -> T) -> Result<T, Stopped> {
    static HOOK: Once = Once::new();
    HOOK.call_once(|| {
        let loud = panic::take_hook();
        panic::set_hook(Box::new(move |info| {
            if QUIET.with(Cell::get) {
                let file = info.location().map_or("", |l| l.file());
                WHERE.with(|at| at.replace(file.to_string()));
            } else {
                loud(info);
            }
        }));
    });
    QUIET.with(|quiet| quiet.set(true));
    let result = panic::catch_unwind(AssertUnwindSafe(f));
    QUIET.with(|quiet| quiet.set(false));
    result.map_err(|payload| Stopped {
        message: message(payload.as_ref()),
        in_solver: WHERE.with(RefCell::take).ends_with("solver_smo.rs"),
    })
}

fn message(payload: &(dyn Any + Send)) -> String {
    if let Some(s) = payload.downcast_ref::<&str>() {
        s.to_string()
    } else if let Some(s) = payload.downcast_ref::<String>() {
        s.clone()
    } else {
        "a panic without a message".to_string()
    }
}

#[cfg(test)]
mod tests {
    use super::*;

    #[test]
    fn other_panics_are_no_refusal() {
        let Err(spoken) = caught(|| -> () { panic!("of its own") }) else {
            panic!("it was told to panic");
        };
        assert_eq!(spoken.message, "of its own");
        assert!(!spoken.is_refusal());

        // the same words from another file
        let zero = std::hint::black_box(0_usize);
        let Err(elsewhere) = caught(|| zero - std::hint::black_box(1)) else {
            panic!("overflow checks are off");
        };
        assert_eq!(elsewhere.message, "attempt to subtract with overflow");
        assert!(!elsewhere.is_refusal());
    }
}
