//! Stand-in for num-traits: the traits that the kept sources name, for the types they meet.

use std::ops::{Add, Div, Sub};

/// A type with a zero to add to.
pub trait Zero: Sized + Add<Self, Output = Self> {
    fn zero() -> Self;
}

impl Zero for f64 {
    #[inline]
    fn zero() -> f64 {
        0.0
    }
}

impl Zero for isize {
    #[inline]
    fn zero() -> isize {
        0
    }
}

/// A number; of its operations, those that the kept sources use.
pub trait Num: PartialEq + Zero + Sub<Output = Self> + Div<Output = Self> {}

impl Num for f64 {}

/// A type that a primitive number can be turned into.
pub trait FromPrimitive: Sized {
    fn from_f64(number: f64) -> Option<Self>;
    fn from_u32(number: u32) -> Option<Self>;
    fn from_usize(number: usize) -> Option<Self>;
}

impl FromPrimitive for f64 {
    #[inline]
    fn from_f64(number: f64) -> Option<f64> {
        Some(number)
    }

    #[inline]
    fn from_u32(number: u32) -> Option<f64> {
        Some(f64::from(number))
    }

    #[inline]
    fn from_usize(number: usize) -> Option<f64> {
        Some(number as f64)
    }
}

/// A type that can be turned into a primitive number.
pub trait ToPrimitive {
    fn to_f64(&self) -> Option<f64>;
}

impl ToPrimitive for f64 {
    #[inline]
    fn to_f64(&self) -> Option<f64> {
        Some(*self)
    }
}
