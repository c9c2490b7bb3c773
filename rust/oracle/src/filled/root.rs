//! The items that temporal_rs keeps at its root or in small modules of their own.

use super::error::{TemporalError, TemporalResult};
use core::num::NonZeroU128;

pub(crate) const MS_PER_DAY: u32 = 24 * 60 * 60 * 1000;
pub(crate) const NS_PER_DAY: u64 = MS_PER_DAY as u64 * 1_000_000;
pub(crate) const NS_PER_DAY_NONZERO: NonZeroU128 = match NonZeroU128::new(NS_PER_DAY as u128) {
    Some(length) => length,
    None => panic!("a day has a length"),
};
pub(crate) const NS_MAX_INSTANT: i128 = NS_PER_DAY as i128 * 100_000_000;
pub(crate) const NS_MIN_INSTANT: i128 = -NS_MAX_INSTANT;

#[derive(Debug, Clone, Copy, PartialEq, Eq, PartialOrd)]
pub enum Sign {
    Positive = 1,
    Zero = 0,
    Negative = -1,
}

impl From<i8> for Sign {
    fn from(value: i8) -> Self {
        match value.signum() {
            1 => Sign::Positive,
            0 => Sign::Zero,
            _ => Sign::Negative,
        }
    }
}

impl Sign {
    /// A duration keeps its sign beside the sizes of its parts; where it has none, every part is 0 anyway.
    pub(crate) const fn as_sign_multiplier(self) -> i8 {
        match self {
            Sign::Positive | Sign::Zero => 1,
            Sign::Negative => -1,
        }
    }
}

/// The proposal's `!`: a missing value is an error and not a panic.
pub(crate) trait TemporalUnwrap {
    type Output;
    fn temporal_unwrap(self) -> TemporalResult<Self::Output>;
}

impl<T> TemporalUnwrap for Option<T> {
    type Output = T;
    fn temporal_unwrap(self) -> TemporalResult<T> {
        self.ok_or(TemporalError::assert())
    }
}

impl<T> TemporalUnwrap for TemporalResult<T> {
    type Output = T;
    fn temporal_unwrap(self) -> TemporalResult<T> {
        self
    }
}

pub(crate) mod unix_time {
    #[derive(Debug, Clone, Copy)]
    pub struct EpochNanoseconds(pub i128);

    impl From<i128> for EpochNanoseconds {
        fn from(value: i128) -> Self {
            Self(value)
        }
    }
}
