//! The few number traits that the Rust's rounder is generic over, for the three types that it serves.

use core::ops::{Neg, Rem};

pub trait ConstZero {
    const ZERO: Self;
}

pub trait Signed: Neg<Output = Self> + Rem<Output = Self> + Sized {}

pub trait ToPrimitive {
    fn to_i128(&self) -> Option<i128>;
}

pub trait NumCast: Sized {
    fn from<T: ToPrimitive>(number: T) -> Option<Self>;
}

pub trait FromPrimitive: Sized {
    fn from_i128(number: i128) -> Option<Self>;
}

pub trait Euclid: Sized {
    fn div_euclid(&self, divisor: &Self) -> Self;
    fn rem_euclid(&self, divisor: &Self) -> Self;
    fn div_rem_euclid(&self, divisor: &Self) -> (Self, Self) {
        (self.div_euclid(divisor), self.rem_euclid(divisor))
    }
}

pub mod cast {
    pub use super::FromPrimitive;
}

pub mod float {
    pub trait FloatCore {
        fn floor(self) -> Self;
        fn ceil(self) -> Self;
        fn trunc(self) -> Self;
    }

    impl FloatCore for f64 {
        fn floor(self) -> f64 {
            f64::floor(self)
        }
        fn ceil(self) -> f64 {
            f64::ceil(self)
        }
        fn trunc(self) -> f64 {
            f64::trunc(self)
        }
    }
}

macro_rules! numbers {
    ($($number:ty, $zero:literal, $from:expr;)*) => {$(
        impl ConstZero for $number {
            const ZERO: Self = $zero;
        }
        impl Signed for $number {}
        impl FromPrimitive for $number {
            fn from_i128(number: i128) -> Option<Self> {
                $from(number)
            }
        }
        impl NumCast for $number {
            fn from<T: ToPrimitive>(number: T) -> Option<Self> {
                Self::from_i128(number.to_i128()?)
            }
        }
    )*};
}

numbers! {
    i64, 0, |number| i64::try_from(number).ok();
    i128, 0, Some;
    f64, 0.0, |number| Some(number as f64);
}

macro_rules! euclid {
    ($($number:ty)*) => {$(
        impl Euclid for $number {
            fn div_euclid(&self, divisor: &Self) -> Self {
                <$number>::div_euclid(*self, *divisor)
            }
            fn rem_euclid(&self, divisor: &Self) -> Self {
                <$number>::rem_euclid(*self, *divisor)
            }
        }
    )*};
}

euclid! { u32 i64 i128 f64 }

impl ToPrimitive for u128 {
    fn to_i128(&self) -> Option<i128> {
        i128::try_from(*self).ok()
    }
}

impl ToPrimitive for i64 {
    fn to_i128(&self) -> Option<i128> {
        Some((*self).into())
    }
}

impl ToPrimitive for i128 {
    fn to_i128(&self) -> Option<i128> {
        Some(*self)
    }
}

impl ToPrimitive for f64 {
    fn to_i128(&self) -> Option<i128> {
        self.is_finite().then_some(*self as i128)
    }
}
