//! Stand-in for `num_traits`: the two conversions that the published text
//! leans on.

/// From a number to another number type, where the value fits.
pub trait ToPrimitive {
    /// Towards zero; `None` where the result isn't a `usize`.
    fn to_usize(&self) -> Option<usize>;
    fn to_f64(&self) -> Option<f64>;
}

impl ToPrimitive for f64 {
    fn to_usize(&self) -> Option<usize> {
        // 2^64 itself is the least f64 that is too large
        if *self > -1.0 && *self < 18_446_744_073_709_551_616.0 {
            Some(*self as usize)
        } else {
            None
        }
    }

    fn to_f64(&self) -> Option<f64> {
        Some(*self)
    }
}

impl ToPrimitive for usize {
    fn to_usize(&self) -> Option<usize> {
        Some(*self)
    }

    fn to_f64(&self) -> Option<f64> {
        Some(*self as f64)
    }
}

impl ToPrimitive for i32 {
    fn to_usize(&self) -> Option<usize> {
        usize::try_from(*self).ok()
    }

    fn to_f64(&self) -> Option<f64> {
        Some(*self as f64)
    }
}

/// Into a number type, from any number.
pub trait NumCast: Sized {
    fn from<T: ToPrimitive>(n: T) -> Option<Self>;
}

impl NumCast for f64 {
    fn from<T: ToPrimitive>(n: T) -> Option<f64> {
        n.to_f64()
    }
}
