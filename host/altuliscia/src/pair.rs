//! The pair finder: one step of a run, by itself.
use crate::call;

/// What a step finds of one of its two samples.
#[derive(Clone, Copy, Debug, PartialEq)]
pub struct Before {
    /// Its weight before the step, without sign and not divided.
    pub weight: f64,
    /// The most that its weight may be.
    pub ceiling: f64,
    /// Its gradient before the step.
    pub gradient: f64,
    /// The kernel value of the sample with itself.
    pub diagonal: f64,
}

/// What a step leaves of the weights of its two samples, i and j, in that order: the library's own step (docs/RULE.md, 'Update').
///
/// `entry` is the kernel value of column i, row j where the labels of i and j agree, which `agree` says, and its negative where they don't.
/// Nothing is refused: NaN and infinities go through the same comparisons as any other number. The floor of the curvature is
/// [`USUAL_FLOOR`](crate::USUAL_FLOOR).
///
/// ```
/// use altuliscia::{find_pair, Before};
///
/// let sample = Before { weight: 0.0, ceiling: 1.0, gradient: -1.0, diagonal: 1.0 };
/// assert_eq!(find_pair(&sample, &sample, -0.5, false), (1.0, 1.0));
/// let low = Before { ceiling: 0.25, ..sample };
/// assert_eq!(find_pair(&low, &sample, -0.5, false), (0.25, 0.25));
/// ```
pub fn find_pair(i: &Before, j: &Before, entry: f64, agree: bool) -> (f64, f64) {
    call::pair(i, j, entry, agree)
}
