//! What problems with a floor of their own reach.

use super::retired::refused_before;
use super::told;
use crate::draw::{FLOORS, TINY};
use crate::problem::{Entry, Problem, BAD_FLOOR, USUAL_FLOOR};
use crate::run::{solve, solve_usual_at, Answer, Place, Step};

type Test = fn(&Tuned) -> bool;

/// A problem with its answer. Where its floor isn't the usual one and it ran,
/// it is run again.
pub(super) struct Tuned<'a> {
    p: &'a Problem,
    w: &'a Answer,
    /// The problem for another run, which needn't go on for much longer.
    again: Option<Problem>,
    /// Whether the answer is another at the usual floor.
    another: bool,
    /// Each pass of the run.
    steps: Vec<Step>,
}

impl<'a> Tuned<'a> {
    pub(super) fn of(p: &'a Problem, w: &'a Answer) -> Tuned<'a> {
        let mut tuned = Tuned {
            p,
            w,
            again: None,
            another: false,
            steps: Vec::new(),
        };
        let ran = w.refusal().map_or(true, |r| r.number == 11);
        if !ran || p.floor == USUAL_FLOOR {
            return tuned;
        }
        let mut again = p.clone();
        again.lend_exactly();
        let passes = w.accepted().map_or(p.budget, |a| a.iterations + 1);
        again.budget = p.budget.min(passes);
        if let Some(a) = solve(&again, true).accepted() {
            tuned.steps = a.trace.clone();
        }
        tuned.again = Some(again);
        tuned.another = tuned.tells_with(USUAL_FLOOR);
        tuned
    }

    /// Whether such a run answers otherwise.
    fn tells(&self, run: impl Fn(&Problem) -> Answer) -> bool {
        let again = self.again.as_ref();
        again.map_or(false, |q| told(&run(q)) != told(self.w))
    }

    /// Whether the place asked for the floor, and 1e-10 there would tell.
    pub(super) fn tells_at(&self, place: Place) -> bool {
        self.asked(place) && self.tells(|q| solve_usual_at(place, q, false))
    }

    pub(super) fn asked(&self, place: Place) -> bool {
        self.w.events.floored[place as usize] > 0
    }

    fn asked_at_all(&self) -> bool {
        Place::ALL.iter().any(|place| self.asked(*place))
    }

    /// Whether the run asked for the floor, and another one would tell.
    fn tells_with(&self, floor: f64) -> bool {
        self.asked_at_all()
            && self.tells(|q| {
                let mut q = q.clone();
                q.floor = floor;
                solve(&q, false)
            })
    }

    pub(super) fn another_of(&self, entry: Entry) -> bool {
        self.another && self.p.entry == entry
    }

    /// Whether it has this floor, and is accepted or refused for it.
    pub(super) fn has(&self, floor: f64) -> bool {
        let judged = self.w.accepted().is_some() || self.refused();
        judged && self.p.floor.to_bits() == floor.to_bits()
    }

    fn refused(&self) -> bool {
        self.w.refusal().map_or(false, |r| r.number == BAD_FLOOR)
    }

    /// Whether a step by the floor is like that, and the two weights it left.
    fn stepped(&self, test: impl Fn(&Step, [f64; 2]) -> bool) -> bool {
        let mut floored = self.steps.iter().filter(|s| s.given.curvature() <= 0.0);
        floored.any(|s| test(s, [s.weight_i, s.weight_j]))
    }
}

/// The f64 so many units in the last place above.
fn next(x: f64, more: i64) -> f64 {
    f64::from_bits(x.to_bits().wrapping_add(more as u64))
}

/// Every edge of the floors with the next f64 on either side of it.
pub(super) fn edges() -> impl Iterator<Item = f64> {
    let each = |edge: f64| [-1, 0, 1].map(|more| next(edge, more));
    FLOORS.into_iter().flat_map(each)
}

pub(super) const TUNED: &[(&str, Test)] = &[
    ("refused for NaN", |t| t.refused() && t.p.floor.is_nan()),
    ("refused for infinity", |t| {
        t.refused() && t.p.floor == f64::INFINITY
    }),
    ("refused for minus infinity", |t| {
        t.refused() && t.p.floor == f64::NEG_INFINITY
    }),
    ("refused for -0", |t| {
        t.refused() && super::is_negative_zero(t.p.floor)
    }),
    ("refused for a number below 0", |t| {
        t.refused() && t.p.floor < 0.0 && t.p.floor.is_finite()
    }),
    ("refused with 10 where 14 holds too", |t| {
        refused_before(t.p, t.w, 10, BAD_FLOOR)
    }),
    ("refused with 14 where 12 holds too", |t| {
        refused_before(t.p, t.w, BAD_FLOOR, 12)
    }),
    ("refused with 14 where 13 holds too", |t| {
        refused_before(t.p, t.w, BAD_FLOOR, 13)
    }),
    ("asked for, and not 1e-10", |t| {
        t.again.is_some() && t.asked_at_all()
    }),
    ("another answer than at 1e-10", |t| t.another),
    ("another answer than at 1e-10, shrinking off", |t| {
        t.another && !t.p.shrinking
    }),
    ("another answer than at 1e-10, samples moved", |t| {
        t.another && t.w.events.swaps > 0
    }),
    ("another answer than at 1e-10, n 16 and more, huge", |t| {
        let huge = f64::from_bits((900 + 1023) << 52);
        let entries = t.p.entries();
        t.another && t.p.n >= 16 && entries.iter().any(|x| x.abs() >= huge)
    }),
    ("refused with 11, accepted at 1e-10", |t| {
        let eleven = t.w.refusal().map_or(false, |r| r.number == 11);
        eleven && t.another
    }),
    ("another answer at the next floor above", |t| {
        t.p.floor < 1.0 && t.tells_with(next(t.p.floor, 1))
    }),
    ("another answer at the next floor below", |t| {
        t.p.floor > TINY && t.tells_with(next(t.p.floor, -1))
    }),
    ("a step of curvature 0", |t| {
        t.stepped(|s, _| s.given.curvature() == 0.0)
    }),
    ("a step of curvature below 0", |t| {
        t.stepped(|s, _| s.given.curvature() < 0.0)
    }),
    ("a step by the floor to within the box", |t| {
        t.stepped(|s, left| (0..2).all(|k| left[k] > 0.0 && left[k] < s.given.ceilings[k]))
    }),
    ("a step of curvature above 0 and below the floor", |t| {
        let mut curvatures = t.steps.iter().map(|s| s.given.curvature());
        curvatures.any(|q| q > 0.0 && q < t.p.floor)
    }),
    ("a gradient divided by the floor infinite", |t| {
        t.stepped(|s, _| {
            let gradients = s.given.gradients;
            gradients
                .iter()
                .any(|x| x.is_finite() && (x / t.p.floor).is_infinite())
        })
    }),
];
