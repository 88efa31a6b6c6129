//! What the added lines of the solver write down: things that happen in a run
//! and that its model doesn't hand out. One notebook for each thread.

use crate::floor::Place;
use crate::Float;
use std::cell::RefCell;

/// What a step is made of. Of two numbers the first is i's.
#[derive(Clone, Copy, Debug, Default, PartialEq)]
pub struct Given {
    pub weights: [f64; 2],
    /// What the step clips by: the ceilings of the two places, in the travelling
    /// mode those of the two samples.
    pub ceilings: [f64; 2],
    pub gradients: [f64; 2],
    pub diagonals: [f64; 2],
    /// Row i at j: the kernel's entry, negated between different labels.
    pub entry: f64,
    /// Whether the labels agree.
    pub agree: bool,
}

impl Given {
    /// What a step is divided by, before anything stands in for it. Draws and
    /// marks ask; the solver has its own.
    pub fn curvature(&self) -> f64 {
        let diagonals = self.diagonals[0] + self.diagonals[1];
        if self.agree {
            diagonals - 2.0 * self.entry
        } else {
            diagonals + 2.0 * self.entry
        }
    }
}

/// One pass: the pair chosen, by position, what its step was made of, and the
/// two weights left.
#[derive(Clone, Copy, Debug, PartialEq)]
pub struct Step {
    pub i: usize,
    pub j: usize,
    pub given: Given,
    pub weight_i: f64,
    pub weight_j: f64,
}

/// How often each thing happened.
#[derive(Clone, Copy, Debug, Default, PartialEq, Eq)]
pub struct Events {
    /// Shrink walks that came to their end.
    pub walks: u64,
    /// The least active count after a walk.
    pub least_active: Option<u64>,
    /// Exchanges of two positions.
    pub swaps: u64,
    /// Reconstructions that took the first branch.
    pub first_branch: u64,
    /// Reconstructions that took the second branch.
    pub second_branch: u64,
    /// Times the run went back to all positions at ten times eps.
    pub unshrinks: u64,
    /// Those of them where positions had been given up.
    pub unshrinks_from_fewer: u64,
    /// Second choices after an optimal one.
    pub second_looks: u64,
    /// Second choices that were not optimal.
    pub second_not_optimal: u64,
    /// Times the weight at i stopped (0) or began (1) to be at its upper end
    /// by taking the ceiling of its place, which changes the fixed gradient.
    pub turned_i: [u64; 2],
    /// The same for j.
    pub turned_j: [u64; 2],
    /// Times each place asked for the floor.
    pub floored: [u64; Place::ALL.len()],
}

/// All that one run left in the notebook.
#[derive(Clone, Debug, Default, PartialEq)]
pub struct Seen {
    pub events: Events,
    /// Empty unless it was asked for.
    pub trace: Vec<Step>,
    /// The sample at each position, at the end.
    pub order: Vec<usize>,
    /// The weight at each position, at the end.
    pub weights: Vec<f64>,
    /// The ceiling that each weight carries, at the end.
    pub ceilings: Vec<f64>,
    /// The gradient at each position, at the end.
    pub gradient: Vec<f64>,
    /// The fixed gradient at each position, at the end.
    pub fixed: Vec<f64>,
    /// The linear term at each position, at the end.
    pub linear: Vec<f64>,
    /// The label at each position, at the end.
    pub labels: Vec<bool>,
    /// Of the last step, where a trace is kept.
    given: Given,
    keep_trace: bool,
}

thread_local! {
    static SEEN: RefCell<Seen> = RefCell::new(Seen::default());
}

fn note(f: impl FnOnce(&mut Seen)) {
    SEEN.with(|s| f(&mut s.borrow_mut()));
}

fn count(f: impl FnOnce(&mut Events)) {
    note(|s| f(&mut s.events));
}

/// Opens an empty notebook.
pub fn begin(keep_trace: bool) {
    let empty = Seen {
        keep_trace,
        ..Seen::default()
    };
    SEEN.with(|s| s.replace(empty));
}

/// Hands out the notebook and leaves an empty one.
pub fn take() -> Seen {
    SEEN.with(RefCell::take)
}

pub fn swap() {
    count(|e| e.swaps += 1);
}

pub fn first_branch() {
    count(|e| e.first_branch += 1);
}

pub fn second_branch() {
    count(|e| e.second_branch += 1);
}

pub fn turned_i(was_upper: bool) {
    count(|e| e.turned_i[usize::from(!was_upper)] += 1);
}

pub fn turned_j(was_upper: bool) {
    count(|e| e.turned_j[usize::from(!was_upper)] += 1);
}

pub fn floored(place: Place) {
    count(|e| e.floored[place as usize] += 1);
}

pub fn unshrink(fewer: bool) {
    count(|e| {
        e.unshrinks += 1;
        e.unshrinks_from_fewer += u64::from(fewer);
    });
}

pub fn walk(active: usize) {
    count(|e| {
        e.walks += 1;
        let active = active as u64;
        e.least_active = Some(e.least_active.map_or(active, |least| least.min(active)));
    });
}

pub fn second_look(optimal: bool) {
    count(|e| {
        e.second_looks += 1;
        e.second_not_optimal += u64::from(!optimal);
    });
}

pub fn given<F: Float>(pairs: [[F; 2]; 4], entry: F, agree: bool) {
    note(|s| {
        if s.keep_trace {
            let [weights, ceilings, gradients, diagonals] = pairs.map(|p| p.map(F::into));
            s.given = Given {
                weights,
                ceilings,
                gradients,
                diagonals,
                entry: entry.into(),
                agree,
            };
        }
    });
}

pub fn step<F: Float>(i: usize, j: usize, weight_i: F, weight_j: F) {
    note(|s| {
        if s.keep_trace {
            s.trace.push(Step {
                i,
                j,
                given: s.given,
                weight_i: weight_i.into(),
                weight_j: weight_j.into(),
            });
        }
    });
}

pub fn end<F: Float>(
    order: &[usize],
    alpha: impl Iterator<Item = (F, F)>,
    fields: [&Vec<F>; 3],
    labels: &[bool],
) {
    let [gradient, fixed, linear] = fields.map(|f| f.iter().map(|x| (*x).into()).collect());
    note(|s| {
        s.order = order.to_vec();
        (s.weights, s.ceilings) = alpha.map(|(w, b)| (w.into(), b.into())).unzip();
        (s.gradient, s.fixed, s.linear) = (gradient, fixed, linear);
        s.labels = labels.to_vec();
    });
}
