//! The plain date and its calendar: only the ISO calendar, so the steps go straight to the Rust's `IsoDate`.

use crate::builtins::core::{
    calendar::Calendar,
    duration::{DateDuration, Duration},
};
use crate::iso::IsoDate;
use crate::options::{Overflow, Unit};
use crate::TemporalResult;

pub struct PlainDate {
    pub(crate) iso: IsoDate,
    calendar: Calendar,
}

impl PlainDate {
    pub(crate) fn new_unchecked(iso: IsoDate, calendar: Calendar) -> Self {
        Self { iso, calendar }
    }

    /// CreateTemporalDate: an error where the fields are not valid or the date is outside the limits.
    pub(crate) fn try_new(year: i32, month: u8, day: u8, calendar: Calendar) -> TemporalResult<Self> {
        Ok(Self::new_unchecked(IsoDate::new_with_overflow(year, month, day, Overflow::Reject)?, calendar))
    }

    /// CalendarDateUntil for the ISO calendar.
    pub(crate) fn internal_diff_date(&self, other: &Self, largest_unit: Unit) -> TemporalResult<Duration> {
        Ok(Duration::from(self.iso.diff_iso_date(&other.iso, largest_unit)?))
    }

    pub(crate) fn calendar(&self) -> &Calendar {
        &self.calendar
    }

    pub(crate) fn iso_year(&self) -> i32 {
        self.iso.year
    }

    pub(crate) fn iso_month(&self) -> u8 {
        self.iso.month
    }

    pub(crate) fn iso_day(&self) -> u8 {
        self.iso.day
    }
}

pub(crate) mod calendar {
    use super::*;

    #[derive(Debug, Clone)]
    pub struct Calendar;

    impl Calendar {
        /// CalendarDateAdd for the ISO calendar.
        pub(crate) fn date_add(
            &self,
            date: &IsoDate,
            duration: &DateDuration,
            overflow: Overflow,
        ) -> TemporalResult<PlainDate> {
            let sum = date.add_date_duration(duration, overflow)?;
            PlainDate::try_new(sum.year, sum.month, sum.day, self.clone())
        }
    }
}

#[derive(Debug, Default, Clone, Copy, PartialEq)]
pub struct PartialTime {
    pub hour: Option<u8>,
    pub minute: Option<u8>,
    pub second: Option<u8>,
    pub millisecond: Option<u16>,
    pub microsecond: Option<u16>,
    pub nanosecond: Option<u16>,
}
