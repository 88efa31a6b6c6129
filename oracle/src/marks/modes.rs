//! What runs in the travelling mode reach, beside those in the crate's.

use super::{ceiling_of_place, ceilings_differ, told};
use crate::problem::{Entry, Problem, USUAL_FLOOR};
use crate::run::{solve, Answer};

type Test = fn(&Modes) -> bool;

/// A problem of the travelling mode that ran, and the run in the crate's.
pub(super) struct Modes<'a> {
    p: &'a Problem,
    w: &'a Answer,
    /// Its budget is 5000 at the most.
    theirs: Answer,
    another: bool,
}

impl<'a> Modes<'a> {
    pub(super) fn of(p: &'a Problem, w: &'a Answer) -> Option<Modes<'a>> {
        let ran = w.refusal().map_or(true, |r| r.number == 11);
        if !p.travelling || !ran {
            return None;
        }
        let mut q = p.clone();
        q.lend_exactly();
        q.travelling = false;
        q.budget = q.budget.min(5000);
        let theirs = solve(&q, false);
        let another = told(&theirs) != told(w);
        Some(Modes {
            p,
            w,
            theirs,
            another,
        })
    }

    fn moved(&self) -> bool {
        self.w.events.swaps > 0
    }

    fn another_of(&self, entry: Entry) -> bool {
        self.another && self.p.entry == entry
    }

    /// Whether the run in that mode has a weight above its sample's own ceiling.
    fn above(&self, answer: &Answer) -> bool {
        answer.accepted().map_or(false, |a| {
            let all = a.order.iter().zip(&a.weights);
            all.into_iter()
                .any(|(s, w)| *w > ceiling_of_place(self.p, *s))
        })
    }
}

fn is_eleven(answer: &Answer) -> bool {
    answer.refusal().map_or(false, |r| r.number == 11)
}

pub(super) const MODES: &[(&str, Test)] = &[
    ("accepted", |m| m.w.accepted().is_some()),
    ("samples moved, ceilings differ", |m| {
        m.moved() && ceilings_differ(m.p)
    }),
    ("samples moved, one common ceiling", |m| {
        m.moved() && !ceilings_differ(m.p)
    }),
    ("shrinking off, ceilings differ", |m| {
        !m.p.shrinking && ceilings_differ(m.p)
    }),
    ("another answer than in the crate's mode", |m| m.another),
    ("another answer, general", |m| m.another_of(Entry::General)),
    ("another answer, C", |m| m.another_of(Entry::C)),
    ("another answer, nu rule", |m| m.another && m.p.nu_rule),
    ("another answer, floor not 1e-10", |m| {
        m.another && m.p.floor != USUAL_FLOOR
    }),
    ("another answer, n of 2 to 5", |m| m.another && m.p.n <= 5),
    ("another answer, n above 24", |m| m.another && m.p.n > 24),
    ("another answer, order not its own inverse", |m| {
        let a = m.w.accepted();
        m.another && a.map_or(false, |a| !super::is_own_inverse(&a.order))
    }),
    ("refused with 11, and in the crate's mode", |m| {
        is_eleven(m.w) && is_eleven(&m.theirs)
    }),
    ("refused with 11, in the crate's mode accepted", |m| {
        is_eleven(m.w) && m.theirs.accepted().is_some()
    }),
    ("accepted, in the crate's mode refused with 11", |m| {
        m.w.accepted().is_some() && is_eleven(&m.theirs)
    }),
    ("a weight above its own ceiling", |m| m.above(m.w)),
    ("a weight above its own ceiling, in the crate's mode", |m| {
        m.above(&m.theirs)
    }),
];

/// What must never be: the two theorems; and that a weight begins or stops to be
/// at its upper end by taking its ceiling, which it had before.
pub(super) const NEVER: &[(&str, Test)] = &[
    ("another answer with one common ceiling", |m| {
        m.another && !ceilings_differ(m.p)
    }),
    ("another answer with shrinking off", |m| {
        m.another && !m.p.shrinking
    }),
    ("a fixed gradient changed", |m| {
        let e = &m.w.events;
        e.turned_i != [0; 2] || e.turned_j != [0; 2]
    }),
];
