//! Each of the console's calls, handed to the Rust's own function.

use crate::builtins::core::{calendar::Calendar, duration::DateDuration};
use crate::iso::{balance_iso_year_month_with_clamp, IsoDate, IsoDateTime, IsoTime};
use crate::ixdtf::records::{Fraction, TimeRecord};
use crate::options::{Overflow, ResolvedRoundingOptions, RoundingIncrement, RoundingMode, Unit, UNIT_VALUE_TABLE};
use crate::parsers::{IxdtfStringBuilder, Precision};
use crate::rounding::IncrementRounder;
use crate::unix_time::EpochNanoseconds;
use crate::writeable::Writeable;
use crate::{trial, utils, TemporalError, TemporalResult, NS_PER_DAY};
use core::fmt;
use core::num::NonZeroU128;
use lines::{text, Call, Request};

/// What follows the 0 of an answer.
enum Given {
    Numbers(Vec<i128>),
    Text(String),
}

/// `None` where the Rust has no such call or its parameter types cannot take the input.
type Answer = TemporalResult<Option<Given>>;

pub fn answer(request: &Request) -> String {
    match work(request) {
        Err(_) => "refused".to_string(),
        Ok(None) => "-".to_string(),
        Ok(Some(Given::Text(text))) => format!("0 {text}"),
        Ok(Some(Given::Numbers(values))) => {
            let mut line = "0".to_string();
            for value in values {
                line.push(' ');
                line.push_str(&value.to_string());
            }
            line
        }
    }
}

// The casts of console numbers lose nothing: a request's numbers lie within their kinds.
fn work(request: &Request) -> Answer {
    let n = request.numbers();
    match request.call {
        Call::MonthLength => month_length(n[0] as i32, n[1] as u8),
        Call::DateToDay => values([date(n).to_epoch_days()]),
        Call::DayToDate => {
            let milliseconds = utils::epoch_days_to_epoch_ms(n[0] as i64, 0);
            let (year, month, day) = utils::ymd_from_epoch_milliseconds(milliseconds);
            date_answer(IsoDate::new_unchecked(year, month, day))
        }
        Call::BalanceYearMonth => {
            let (year, month) = balance_iso_year_month_with_clamp(n[0] as i64, n[1] as i64);
            values([i64::from(year), i64::from(month)])
        }
        Call::RegulateDate => date_answer(IsoDate::regulate(n[0] as i32, n[1] as u8, n[2] as u8, overflow(n[3]))?),
        Call::MakeDate => date_answer(IsoDate::new_with_overflow(n[0] as i32, n[1] as u8, n[2] as u8, overflow(n[3]))?),
        Call::DateLimits => {
            date(n).check_within_limits()?;
            values::<i64, 0>([])
        }
        Call::BalanceDate => date_answer(IsoDate::try_balance(n[0] as i32, n[1] as i32, n[2] as i64)?),
        Call::RegulateTime => {
            let t = time(n);
            let regulated =
                IsoTime::new(t.hour, t.minute, t.second, t.millisecond, t.microsecond, t.nanosecond, overflow(n[6]))?;
            numbers(time_values(regulated))
        }
        Call::BalanceTime => {
            carry_answer(IsoTime::balance(n[0] as i64, n[1] as i64, n[2] as i64, n[3] as i64, n[4], n[5]))
        }
        Call::TimeDifference => {
            let difference = time(n).diff(&time(&n[6..]));
            values([difference.seconds(), difference.subseconds().into()])
        }
        Call::RoundNumber => round_number(n, IncrementRounder::round),
        Call::RoundNumberAsIfPositive => round_number(n, IncrementRounder::round_as_if_positive),
        Call::RoundTime => match rounding_options(&n[6..])? {
            None => Ok(None),
            Some(options) => carry_answer(time(n).round(options)?),
        },
        Call::DurationNew => duration_answer(DateDuration::new(n[0] as i64, n[1] as i64, n[2] as i64, n[3] as i64)?),
        Call::DurationSign => values([duration(n).sign() as i64]),
        Call::DurationAbs => duration_answer(duration(n).abs()),
        Call::DurationNegated => duration_answer(duration(n).negated()),
        Call::DurationAdjust => {
            let weeks = (n[5] == 1).then_some(n[6] as i64);
            let months = (n[7] == 1).then_some(n[8] as i64);
            duration_answer(duration(n).adjust(n[4] as i64, weeks, months)?)
        }
        Call::DateSum => date_answer(date(n).add_date_duration(&duration(&n[3..]), overflow(n[7]))?),
        Call::DateDifference => {
            let (span, count) = trial::counted(|| date(n).diff_iso_date(&date(&n[3..]), unit(n[6])));
            let span = span?;
            values([span.years, span.months, span.weeks, span.days, count])
        }
        Call::DateTimeLimits => {
            date_time(n).check_within_limits()?;
            values::<i64, 0>([])
        }
        Call::BalanceDateTime => balance_date_time(n),
        Call::RoundDateTime => match rounding_options(&n[9..])? {
            None => Ok(None),
            Some(options) => date_time_answer(date_time(n).round(options)?),
        },
        Call::DateTimeDifference => {
            let (span, count) = trial::counted(|| date_time(n).diff(&date_time(&n[9..]), &Calendar, unit(n[18])));
            let span = span?;
            let (date, time) = (span.date(), span.normalized_time_duration());
            values([date.years, date.months, date.weeks, date.days, time.seconds(), time.subseconds().into(), count])
        }
        Call::DateTimeFromInstant => {
            let nanoseconds = n[0] * i128::from(NS_PER_DAY) + n[1];
            date_time_answer(IsoDateTime::from_epoch_nanos(&EpochNanoseconds(nanoseconds), n[2] as i64))
        }
        Call::ReadDate => match text::said_date(request.text) {
            None => Ok(None),
            Some([year, month, day]) => {
                date_answer(IsoDate::new_with_overflow(year as i32, month as u8, day as u8, Overflow::Reject)?)
            }
        },
        Call::ReadTime => match text::said_time(request.text).and_then(time_record) {
            None => Ok(None),
            Some(record) => numbers(time_values(IsoTime::from_time_record(record)?)),
        },
        Call::ReadDateTime => read_date_time(request.text),
        Call::WriteDate => written(IxdtfStringBuilder::default().with_date(date(n)), n[3]),
        Call::WriteTime => written(IxdtfStringBuilder::default().with_time(time(n), Precision::Auto), n[6]),
        Call::WriteDateTime => {
            written(IxdtfStringBuilder::default().with_date(date(n)).with_time(time(&n[3..]), Precision::Auto), n[9])
        }
    }
}

/// The steps that the Rust takes from the parser's two records to a date and time within the limits.
fn read_date_time(bytes: &[u8]) -> Answer {
    let Some(([year, month, day], said)) = text::said_date_time(bytes) else {
        return Ok(None);
    };
    let Some(record) = time_record(said) else {
        return Ok(None);
    };
    let date = IsoDate::regulate(year as i32, month as u8, day as u8, Overflow::Reject)?;
    date_time_answer(IsoDateTime::new(date, IsoTime::from_time_record(record)?)?)
}

/// The parser's record of a time. The proposal's grammar has no second above 60, so the Rust's parser hands none on:
/// `from_time_record` would take any of them as 59.
fn time_record([hour, minute, second, nanoseconds]: [i128; 4]) -> Option<TimeRecord> {
    (second <= 60).then_some(TimeRecord {
        hour: hour as u8,
        minute: minute as u8,
        second: second as u8,
        fraction: Some(Fraction { nanoseconds: Some(nanoseconds as u32) }),
    })
}

/// What the Rust writes into an output with so much room.
fn written(builder: IxdtfStringBuilder, room: i128) -> Answer {
    let mut lent = Lent { text: String::new(), room: room as usize };
    builder.write_to(&mut lent).map_err(|_| TemporalError::range())?;
    Ok(Some(Given::Text(lent.text)))
}

/// A lent output. What it has no room for is an error, and the Rust hands it on.
struct Lent {
    text: String,
    room: usize,
}

impl fmt::Write for Lent {
    fn write_str(&mut self, piece: &str) -> fmt::Result {
        if self.text.len() + piece.len() > self.room {
            return Err(fmt::Error);
        }
        self.text.push_str(piece);
        Ok(())
    }
}

/// The table of month lengths is ours and has no row for another month.
fn month_length(year: i32, month: u8) -> Answer {
    if !(1..=12).contains(&month) {
        return Ok(None);
    }
    values([i64::from(utils::iso_days_in_month(year, month))])
}

fn round_number(n: &[i128], round: fn(&IncrementRounder<i128>, RoundingMode) -> i128) -> Answer {
    let Some(step) = NonZeroU128::new(n[1] as u128) else {
        return Ok(None);
    };
    let rounder = IncrementRounder::<i128>::from_signed_num(n[0], step)?;
    values([round(&rounder, mode(n[2]))])
}

/// The Rust takes the day of a date and time in 32 bits.
fn balance_date_time(n: &[i128]) -> Answer {
    let Ok(day) = i32::try_from(n[2]) else {
        return Ok(None);
    };
    date_time_answer(IsoDateTime::balance(
        n[0] as i32,
        n[1] as i32,
        day,
        n[3] as i64,
        n[4] as i64,
        n[5] as i64,
        n[6] as i64,
        n[7],
        n[8],
    ))
}

/// Unit, increment and mode. The Rust's own constructor of an increment takes 32 bits and refuses 0 and more than 10^9.
fn rounding_options(n: &[i128]) -> TemporalResult<Option<ResolvedRoundingOptions>> {
    let Ok(increment) = u32::try_from(n[1]) else {
        return Ok(None);
    };
    Ok(Some(ResolvedRoundingOptions {
        largest_unit: Unit::Auto,
        smallest_unit: unit(n[0]),
        increment: RoundingIncrement::try_new(increment)?,
        rounding_mode: mode(n[2]),
    }))
}

fn date(n: &[i128]) -> IsoDate {
    IsoDate::new_unchecked(n[0] as i32, n[1] as u8, n[2] as u8)
}

fn time(n: &[i128]) -> IsoTime {
    IsoTime::new_unchecked(n[0] as u8, n[1] as u8, n[2] as u8, n[3] as u16, n[4] as u16, n[5] as u16)
}

fn date_time(n: &[i128]) -> IsoDateTime {
    IsoDateTime::new_unchecked(date(n), time(&n[3..]))
}

fn duration(n: &[i128]) -> DateDuration {
    DateDuration::new_unchecked(n[0] as i64, n[1] as i64, n[2] as i64, n[3] as i64)
}

fn overflow(n: i128) -> Overflow {
    [Overflow::Constrain, Overflow::Reject][n as usize]
}

/// The console counts units as the Rust's table of them does, from year down.
fn unit(n: i128) -> Unit {
    UNIT_VALUE_TABLE[n as usize]
}

fn mode(n: i128) -> RoundingMode {
    use RoundingMode::*;
    [Ceil, Floor, Expand, Trunc, HalfCeil, HalfFloor, HalfExpand, HalfTrunc, HalfEven][n as usize]
}

fn numbers(values: Vec<i128>) -> Answer {
    Ok(Some(Given::Numbers(values)))
}

fn values<T: Into<i128>, const N: usize>(values: [T; N]) -> Answer {
    numbers(values.into_iter().map(Into::into).collect())
}

fn date_answer(d: IsoDate) -> Answer {
    values([d.year, d.month.into(), d.day.into()])
}

fn time_values(t: IsoTime) -> Vec<i128> {
    vec![
        t.hour.into(),
        t.minute.into(),
        t.second.into(),
        t.millisecond.into(),
        t.microsecond.into(),
        t.nanosecond.into(),
    ]
}

fn carry_answer((carry, time): (i64, IsoTime)) -> Answer {
    let mut values = vec![carry.into()];
    values.extend(time_values(time));
    numbers(values)
}

fn date_time_answer(d: IsoDateTime) -> Answer {
    let mut values = vec![d.date.year.into(), d.date.month.into(), d.date.day.into()];
    values.extend(time_values(d.time));
    numbers(values)
}

fn duration_answer(d: DateDuration) -> Answer {
    values([d.years, d.months, d.weeks, d.days])
}
