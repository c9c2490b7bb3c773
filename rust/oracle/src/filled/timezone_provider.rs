//! Month lengths and day numbers, whose text is missing: by the calendar equations of ECMA-262.

pub(crate) mod utils {
    use lines::days;

    /// iso.rs asks for months from 1 to 12 only.
    pub(crate) fn iso_days_in_month(year: i32, month: u8) -> u8 {
        days::month_length(year.into(), month.into()) as u8
    }

    /// iso.rs hands December on as month 0 of the next year, and unchecked records with any month.
    pub(crate) fn epoch_days_from_gregorian_date(year: i32, month: u8, day: u8) -> i64 {
        days::day_number(year.into(), month.into(), day.into()) as i64
    }

    /// MakeDate. The milliseconds of a far day leave 64 bits, which is told and not wrapped.
    pub(crate) fn epoch_days_to_epoch_ms(day: i64, time: i64) -> i64 {
        day * 86_400_000 + time
    }

    pub(crate) fn ymd_from_epoch_milliseconds(epoch_milliseconds: i64) -> (i32, u8, u8) {
        let (year, month, day) = days::date_of(epoch_milliseconds.div_euclid(86_400_000).into());
        (year as i32, month as u8, day as u8)
    }
}
