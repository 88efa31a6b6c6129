//! What stands in for a curvature that isn't above 0. The published text has
//! 1e-10 in six places; behind each an added line asks here.

use crate::{watch, Float};
use std::cell::Cell;

/// The published one.
pub const USUAL: f64 = 1e-10;

/// The six places.
#[derive(Clone, Copy, Debug, PartialEq, Eq)]
pub enum Place {
    /// The choice under the C rule, of a positive j.
    CPositive,
    CNegative,
    /// The choice under the nu rule, of a positive j.
    NuPositive,
    NuNegative,
    /// The update of a pair with labels that differ.
    Differ,
    Agree,
}

impl Place {
    pub const ALL: [Place; 6] = [
        Place::CPositive,
        Place::CNegative,
        Place::NuPositive,
        Place::NuNegative,
        Place::Differ,
        Place::Agree,
    ];

    pub fn name(self) -> &'static str {
        match self {
            Place::CPositive => "C rule, positive j",
            Place::CNegative => "C rule, negative j",
            Place::NuPositive => "nu rule, positive j",
            Place::NuNegative => "nu rule, negative j",
            Place::Differ => "update, labels differ",
            Place::Agree => "update, labels agree",
        }
    }
}

thread_local! {
    static USUAL_AT: Cell<Option<Place>> = const { Cell::new(None) };
}

/// Runs `f` with the published one at that place on this thread.
pub fn usual_at<T>(place: Place, f: impl FnOnce() -> T) -> T {
    USUAL_AT.with(|at| at.set(Some(place)));
    let result = f();
    USUAL_AT.with(|at| at.set(None));
    result
}

/// The floor, as that place takes it. That it was asked for is noted.
pub fn at<F: Float>(place: Place, floor: F) -> F {
    watch::floored(place);
    if USUAL_AT.with(Cell::get) == Some(place) {
        F::cast(USUAL)
    } else {
        floor
    }
}
