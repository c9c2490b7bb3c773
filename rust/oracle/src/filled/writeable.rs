//! As much of the trait of things that can be written as the Rust's writers of text use.

use core::fmt;
use core::ops::Add;

pub trait Writeable {
    fn write_to<W: fmt::Write + ?Sized>(&self, sink: &mut W) -> fmt::Result;

    fn writeable_length_hint(&self) -> LengthHint {
        LengthHint
    }
}

/// How long a text will be. It only says how much memory to set aside, and nothing here does that, so it holds nothing.
pub struct LengthHint;

impl LengthHint {
    pub fn exact(_length: usize) -> Self {
        Self
    }

    pub fn between(_least: usize, _most: usize) -> Self {
        Self
    }
}

impl Add for LengthHint {
    type Output = Self;
    fn add(self, _other: Self) -> Self {
        self
    }
}

impl Add<usize> for LengthHint {
    type Output = Self;
    fn add(self, _length: usize) -> Self {
        self
    }
}

macro_rules! numbers {
    ($($number:ty)*) => {$(
        impl Writeable for $number {
            fn write_to<W: fmt::Write + ?Sized>(&self, sink: &mut W) -> fmt::Result {
                write!(sink, "{self}")
            }
        }
    )*};
}

numbers! { u8 i32 u32 u64 }

/// Prints a type by what it writes.
macro_rules! impl_display_with_writeable {
    ($written:ty) => {
        impl core::fmt::Display for $written {
            fn fmt(&self, formatter: &mut core::fmt::Formatter<'_>) -> core::fmt::Result {
                $crate::writeable::Writeable::write_to(self, formatter)
            }
        }
    };
}

pub(crate) use impl_display_with_writeable;
