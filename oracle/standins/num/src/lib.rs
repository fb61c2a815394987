//! The part of the `num` crate that the engine calls, for f64 alone.

use std::ops::{Add, Div, Mul, Neg, Sub};

/// What has a zero.
pub trait Zero {
    fn zero() -> Self;
}

/// What has a one.
pub trait One {
    fn one() -> Self;
}

/// What can be read as an f64.
pub trait ToPrimitive {
    fn to_f64(&self) -> Option<f64>;
}

/// What can be made from a primitive number.
pub trait NumCast: Sized {
    fn from<N: ToPrimitive>(n: N) -> Option<Self>;
}

/// Floats, each operation that of the standard library.
pub trait Float:
    Copy
    + PartialOrd
    + Zero
    + One
    + NumCast
    + ToPrimitive
    + Neg<Output = Self>
    + Add<Output = Self>
    + Sub<Output = Self>
    + Mul<Output = Self>
    + Div<Output = Self>
{
    fn infinity() -> Self;
    fn epsilon() -> Self;
    fn is_finite(self) -> bool;
    fn abs(self) -> Self;
    fn max(self, other: Self) -> Self;
    fn powi(self, n: i32) -> Self;
    fn sqrt(self) -> Self;
}

impl Zero for f64 {
    fn zero() -> f64 {
        0.0
    }
}

impl One for f64 {
    fn one() -> f64 {
        1.0
    }
}

impl ToPrimitive for f64 {
    fn to_f64(&self) -> Option<f64> {
        Some(*self)
    }
}

impl NumCast for f64 {
    fn from<N: ToPrimitive>(n: N) -> Option<f64> {
        n.to_f64()
    }
}

impl Float for f64 {
    fn infinity() -> f64 {
        f64::INFINITY
    }
    fn epsilon() -> f64 {
        f64::EPSILON
    }
    fn is_finite(self) -> bool {
        f64::is_finite(self)
    }
    fn abs(self) -> f64 {
        f64::abs(self)
    }
    fn max(self, other: f64) -> f64 {
        f64::max(self, other)
    }
    fn powi(self, n: i32) -> f64 {
        f64::powi(self, n)
    }
    fn sqrt(self) -> f64 {
        f64::sqrt(self)
    }
}
