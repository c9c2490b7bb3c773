//! Errors: every one is reported as `refused`, so neither kind nor message is kept.

#[derive(Debug, Clone, Copy)]
pub struct TemporalError;

pub type TemporalResult<T> = Result<T, TemporalError>;

impl TemporalError {
    pub(crate) const fn range() -> Self {
        Self
    }

    pub(crate) const fn assert() -> Self {
        Self
    }

    pub(crate) fn with_message(self, _message: &'static str) -> Self {
        self
    }

    pub(crate) fn with_enum(self, _message: ErrorMessage) -> Self {
        self
    }
}

/// The messages that the Rust's text names.
pub(crate) enum ErrorMessage {
    CalendarNameInvalid,
    DateOutOfRange,
    FractionalDigitsPrecisionInvalid,
    FractionalTimeMoreThanNineDigits,
    OffsetOptionInvalid,
    RoundToUnitInvalid,
    RoundingModeInvalid,
    SmallestUnitIsRequired,
    SmallestUnitLargerThanLargestUnit,
    SmallestUnitNotTimeUnit,
    TimeZoneNameInvalid,
    UnitNoAutoDuringComparison,
    UnitNotDate,
    UnitNotTime,
    UnitRequired,
}
