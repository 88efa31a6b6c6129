//! Stand-in for `linfa`: the trait `Float`, for `f64` alone.
//!
//! `max` and `min` are Rust's own, with one addition. Rust leaves open which
//! zero comes out where both operands are zeros of different sign. Here the
//! first operand comes out unless [`keeping`] says otherwise, and the meeting
//! is noted, so that a run that had one can be told apart.

use num_traits::{NumCast, ToPrimitive};
use std::cell::Cell;
use std::fmt::Debug;
use std::ops::{Add, AddAssign, Div, DivAssign, Mul, MulAssign, Neg, Sub, SubAssign};

/// The float operations that the solver asks for.
pub trait Float:
    Copy
    + Debug
    + Default
    + PartialEq
    + PartialOrd
    + NumCast
    + ToPrimitive
    + Add<Output = Self>
    + Sub<Output = Self>
    + Mul<Output = Self>
    + Div<Output = Self>
    + Neg<Output = Self>
    + AddAssign
    + SubAssign
    + MulAssign
    + DivAssign
    + Into<f64>
{
    fn zero() -> Self;
    fn one() -> Self;
    fn infinity() -> Self;
    fn epsilon() -> Self;
    fn abs(self) -> Self;
    fn max(self, other: Self) -> Self;
    fn min(self, other: Self) -> Self;

    fn cast<T: ToPrimitive>(x: T) -> Self {
        <Self as NumCast>::from(x).unwrap()
    }
}

/// Which of two zeros of different sign comes out of a `max` or `min`.
#[derive(Clone, Copy, Debug, PartialEq, Eq)]
pub enum Kept {
    First,
    Second,
    /// Whatever Rust's own answers on this machine.
    Own,
}

thread_local! {
    static ZERO_PAIR: Cell<bool> = const { Cell::new(false) };
    static KEPT: Cell<Kept> = const { Cell::new(Kept::First) };
}

/// Runs `f` with that choice on this thread, and goes back to the first.
pub fn keeping<T>(kept: Kept, f: impl FnOnce() -> T) -> T {
    KEPT.with(|k| k.set(kept));
    let result = f();
    KEPT.with(|k| k.set(Kept::First));
    result
}

/// Forgets what this thread has noted of zero pairs.
pub fn forget_zero_pair() {
    ZERO_PAIR.with(|met| met.set(false));
}

/// Whether a `max` or `min` on this thread met two zeros of different sign
/// since the last [`forget_zero_pair`].
pub fn met_zero_pair() -> bool {
    ZERO_PAIR.with(Cell::get)
}

/// What comes out of two zeros of different sign, where that isn't Rust's own.
fn zero_kept(a: f64, b: f64) -> Option<f64> {
    let is = a == 0.0 && b == 0.0 && a.is_sign_negative() != b.is_sign_negative();
    if !is {
        return None;
    }
    ZERO_PAIR.with(|met| met.set(true));
    match KEPT.with(Cell::get) {
        Kept::First => Some(a),
        Kept::Second => Some(b),
        Kept::Own => None,
    }
}

impl Float for f64 {
    fn zero() -> f64 {
        0.0
    }

    fn one() -> f64 {
        1.0
    }

    fn infinity() -> f64 {
        f64::INFINITY
    }

    fn epsilon() -> f64 {
        f64::EPSILON
    }

    fn abs(self) -> f64 {
        f64::abs(self)
    }

    fn max(self, other: f64) -> f64 {
        zero_kept(self, other).unwrap_or_else(|| f64::max(self, other))
    }

    fn min(self, other: f64) -> f64 {
        zero_kept(self, other).unwrap_or_else(|| f64::min(self, other))
    }
}
