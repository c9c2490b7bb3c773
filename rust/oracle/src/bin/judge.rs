//! Judges the console's answers by the oracle's: `judge DIFFERENCES REQUESTS CONSOLE ORACLE`, four files.
//!
//! They agree where the lines are the same, or where the Rust refuses (it has one error) and the console gives one of
//! its refusal numbers. Where they may part, an entry below says for which requests, what the Rust does there and what
//! the rules answer, and the console has to give just that answer. An entry counts only if its number stands in
//! DIFFERENCES.

use lines::days::{date_of, day_number, month_length};
use lines::{lines, read_number, text, Call, Kind, Request};

/// As many disagreements as are shown.
const SHOWN: usize = 40;

fn main() {
    let paths: Vec<String> = std::env::args().skip(1).collect();
    let [differences, requests, console, oracle] = &paths[..] else {
        eprintln!("usage: judge DIFFERENCES REQUESTS CONSOLE ORACLE");
        std::process::exit(2);
    };
    let entries = listed_entries(differences);
    let [requests, console, oracle] = [requests, console, oracle].map(|path| std::fs::read(path).expect(path));
    let counts = [&requests, &console, &oracle].map(|text| lines(text).count());
    if counts[1] != counts[0] || counts[2] != counts[0] {
        println!("{} requests, but {} lines of the console and {} of the oracle", counts[0], counts[1], counts[2]);
        std::process::exit(1);
    }

    let (mut agree, mut differ, mut own) = (0, 0, 0);
    let mut explained = vec![0; entries.len()];
    for ((request, console), oracle) in lines(&requests).zip(lines(&console)).zip(lines(&oracle)) {
        own += usize::from(oracle != b"-" && is_own(request));
        let listed = explanation(&entries, request, oracle);
        match &listed {
            Some((at, paper)) if Paper::read(console).as_ref() == Some(paper) => explained[*at] += 1,
            None if console == oracle || (oracle == b"refused" && is_refusal(console)) => agree += 1,
            _ => {
                differ += 1;
                if differ > SHOWN {
                    continue;
                }
                println!("{}", request.escape_ascii());
                println!("    console: {}", console.escape_ascii());
                println!("    oracle:  {}", oracle.escape_ascii());
                if let Some((at, paper)) = &listed {
                    println!("    {}: the rules have {paper:?}", entries[*at].number);
                }
            }
        }
    }
    for (entry, count) in entries.iter().zip(&explained) {
        println!("{} explains {count}: {}", entry.number, entry.title);
    }
    println!("{own} are requests to the Rust's own text: not spoiled, not of the calls that are filled in, and such that its types take them");
    let explained: usize = explained.iter().sum();
    println!("compared {}, agree {agree}, explained {explained}, differ {differ}", counts[0]);
    std::process::exit(i32::from(differ > 0));
}

/// The entries whose numbers stand in the list of differences.
fn listed_entries(path: &str) -> Vec<&'static Entry> {
    let Ok(text) = std::fs::read_to_string(path) else {
        eprintln!("{path} is not there: every entry of the judge is taken as listed");
        return ENTRIES.iter().collect();
    };
    // D-1 is not listed by D-10.
    let is_listed = |number: &str| {
        text.match_indices(number).any(|(at, _)| !text[at + number.len()..].starts_with(|c: char| c.is_ascii_digit()))
    };
    ENTRIES.iter().filter(|entry| is_listed(entry.number)).collect()
}

/// The calls whose whole Rust is filled in, since it is not in the text at hand.
const FILLED: [&str; 3] = ["month_length", "date_to_day", "day_to_date"];

fn is_own(line: &[u8]) -> bool {
    Request::read(line).is_some_and(|request| !FILLED.contains(&request.call.name()))
}

fn is_refusal(line: &[u8]) -> bool {
    refusal_number(line).is_some()
}

fn refusal_number(line: &[u8]) -> Option<u8> {
    let number = u8::try_from(read_number(line)?).ok()?;
    (1..=10).contains(&number).then_some(number)
}

/// The entry that the Rust's answer to a request falls under, and the rules' answer to it.
fn explanation(entries: &[&Entry], request: &[u8], oracle: &[u8]) -> Option<(usize, Paper)> {
    let request = Request::read(request)?;
    let rust = Rust::read(oracle)?;
    entries.iter().enumerate().find_map(|(at, entry)| Some((at, (entry.paper)(&request, &rust)?)))
}

/// What the oracle tells of the Rust, where it does not refuse. What a text says does not matter: where the rules write
/// one, it is compared as a line.
#[derive(PartialEq)]
enum Rust {
    Values(Vec<i128>),
    Text,
    Overflow,
    NotTaken,
}

impl Rust {
    fn read(line: &[u8]) -> Option<Rust> {
        match line {
            b"overflow" => Some(Rust::Overflow),
            b"-" => Some(Rust::NotTaken),
            [b'0', b' ', ..] if values(line).is_none() => Some(Rust::Text),
            _ => values(line).map(Rust::Values),
        }
    }

    fn answers(&self) -> bool {
        matches!(self, Rust::Values(_))
    }

    /// It computes on with the numbers as they are. That overflows only for large ones: a difference of years is
    /// multiplied by 12 in 32 bits, weeks by 7 before the days are added in 64, and a fraction to be written is put
    /// together as nanoseconds in 32 bits.
    fn computes(&self, request: &Request) -> bool {
        let large = |(number, kind): (&i128, &Kind)| match kind {
            Kind::I32 => !fits_i32(number.abs() * 2 * 12),
            Kind::I64 => !fits_i64(number.abs() * 2 * 8),
            _ => false,
        };
        let n = request.numbers();
        match (request.call, self) {
            (Call::WriteDate, _) => *self == Rust::Text,
            (Call::WriteTime, _) => *self == time_unchecked(&n[3..]),
            (Call::WriteDateTime, _) => *self == time_unchecked(&n[6..]),
            (_, Rust::Values(_)) => true,
            (_, Rust::Overflow) => n.iter().zip(request.call.kinds()).any(large),
            _ => false,
        }
    }
}

/// What the Rust does with a time to be written, by its milliseconds, microseconds and nanoseconds.
fn time_unchecked(fraction: &[i128]) -> Rust {
    let nanoseconds = fraction[0] * 1_000_000 + fraction[1] * 1_000 + fraction[2];
    if nanoseconds > u32::MAX.into() {
        Rust::Overflow
    } else {
        Rust::Text
    }
}

/// An answer of the rules: a refusal number or values.
#[derive(PartialEq, Debug)]
enum Paper {
    Refusal(u8),
    Values(Vec<i128>),
}

impl Paper {
    fn read(line: &[u8]) -> Option<Paper> {
        refusal_number(line).map(Paper::Refusal).or_else(|| values(line).map(Paper::Values))
    }
}

fn values(line: &[u8]) -> Option<Vec<i128>> {
    let mut words = line.split(|&b| b == b' ');
    if words.next() != Some(b"0") {
        return None;
    }
    words.map(read_number).collect()
}

// ---- The entries ----

struct Entry {
    number: &'static str,
    title: &'static str,
    /// The rules' answer, where the entry tells of this request and of what the Rust does with it.
    paper: fn(&Request, &Rust) -> Option<Paper>,
}

const ENTRIES: &[Entry] = &[
    Entry { number: "D-1", title: "the Rust has no such call, or its types cannot take the input", paper: not_taken },
    Entry { number: "D-2", title: "the Rust does not check the fields of a record", paper: fields_unchecked },
    Entry { number: "D-3", title: "the Rust's day numbers have no range", paper: days_unbounded },
    Entry { number: "D-4", title: "balancing a date overflows on the way", paper: balance_overflows },
    Entry { number: "D-5", title: "balancing a time has no bound", paper: time_unbounded },
    Entry { number: "D-6", title: "the Rust's rounder leaves 64 bits", paper: rounder_wider },
    Entry { number: "D-7", title: "the Rust's inner time rounding takes any increment", paper: increment_untested },
    Entry { number: "D-8", title: "the Rust does not check a date duration", paper: duration_unchecked },
    Entry { number: "D-9", title: "adjusting a date duration is unchecked", paper: adjust_unchecked },
    Entry { number: "D-10", title: "the Rust does not check the limits of a record", paper: limits_unchecked },
    Entry { number: "D-11", title: "a date difference takes units below day as day", paper: small_unit_as_day },
    Entry { number: "D-12", title: "balancing a date and time has no range", paper: date_time_unbounded },
    Entry { number: "D-13", title: "balancing a date and time is cut to 32 bits", paper: date_time_cut },
    Entry { number: "D-14", title: "the Rust does not check an instant", paper: instant_unchecked },
];

/// A refusal by the rules, where a condition holds.
fn refusal_if(condition: bool, number: u8) -> Option<Paper> {
    condition.then_some(Paper::Refusal(number))
}

/// D-1: a month length has no month but the twelve, the rounder's step is never 0, an increment has 32 bits, and so has
/// the day of a date and time. The parser is not in the text: one hands on what a well-formed text says, with a second
/// of at most 60.
fn not_taken(request: &Request, rust: &Rust) -> Option<Paper> {
    let n = request.numbers();
    match request.call {
        _ if *rust != Rust::NotTaken => None,
        Call::MonthLength => refusal_if(!(1..=12).contains(&n[1]), 1),
        Call::RoundNumber | Call::RoundNumberAsIfPositive => refusal_if(n[1] == 0, 6),
        Call::RoundTime if n[7] > u32::MAX.into() => rounding_refusal(request).map(Paper::Refusal),
        Call::RoundDateTime if n[10] > u32::MAX.into() => rounding_refusal(request).map(Paper::Refusal),
        Call::BalanceDateTime if !fits_i32(n[2]) => Some(balanced_date_time(n)),
        Call::ReadDate => refusal_if(text::said_date(request.text).is_none(), 9),
        Call::ReadTime => not_handed_on(text::said_time(request.text)),
        Call::ReadDateTime => not_handed_on(text::said_date_time(request.text).map(|(_, time)| time)),
        _ => None,
    }
}

/// A text of another form is 9; a second above 60 is a bad field.
fn not_handed_on(time: Option<[i128; 4]>) -> Option<Paper> {
    match time {
        None => Some(Paper::Refusal(9)),
        Some([_, _, second, _]) => refusal_if(second > 60, 1),
    }
}

/// D-2: a record with a bad field is 1; the Rust computes with the field as it is, or writes it.
fn fields_unchecked(request: &Request, rust: &Rust) -> Option<Paper> {
    refusal_if(record_refusal(request) == Some(1) && rust.computes(request), 1)
}

/// D-3: a day count beyond 100,000,001 in size is 4; the Rust gives day or date, or overflows on milliseconds.
fn days_unbounded(request: &Request, rust: &Rust) -> Option<Paper> {
    let n = request.numbers();
    let (day, far) = match request.call {
        Call::DateToDay if is_date(n) => {
            let day = day_number(n[0], n[1], n[2]);
            (day, Rust::Values(vec![day]))
        }
        Call::DayToDate if fits_i64(n[0] * DAY_MILLISECONDS) => (n[0], Rust::Values(date_values(n[0]))),
        Call::DayToDate => (n[0], Rust::Overflow),
        _ => return None,
    };
    refusal_if(day.abs() > LAST_BALANCED && *rust == far, 4)
}

/// D-4: the rules go by the exact count. The Rust adds the years of the months in 32 bits and the day in 64, and
/// takes the size of the sum, each of which may overflow.
fn balance_overflows(request: &Request, rust: &Rust) -> Option<Paper> {
    let n = request.numbers();
    if request.call != Call::BalanceDate || *rust != Rust::Overflow {
        return None;
    }
    let sum = day_number(n[0], n[1], 1) + n[2];
    let overflows = !fits_i32(n[0] + n[1].div_euclid(12)) || ![sum, sum - 1, (sum - 1).abs()].into_iter().all(fits_i64);
    overflows.then(|| balanced_date(sum - 1))
}

/// D-5: a field to be balanced is 7 beyond 2^53 - 1 in size; the Rust balances it, or overflows on the way up.
fn time_unbounded(request: &Request, rust: &Rust) -> Option<Paper> {
    let n = request.numbers();
    let (time, balanced) = match request.call {
        Call::BalanceTime => {
            let (carry, time) = carry_and_time(n);
            (n, Rust::Values([vec![carry], time].concat()))
        }
        Call::BalanceDateTime if fits_i32(n[2]) => (&n[3..], balance_in_32_bits(n)),
        _ => return None,
    };
    let expected = if carries_fit_i64(time) { balanced } else { Rust::Overflow };
    refusal_if(time_beyond_bound(time) && *rust == expected, 7)
}

/// Whether the sums on the way from nanoseconds up to hours stay within signed 64 bits; the Rust has the two lowest
/// in 128.
fn carries_fit_i64(time: &[i128]) -> bool {
    let microseconds = time[4] + time[5].div_euclid(1000);
    let milliseconds = time[3] + microseconds.div_euclid(1000);
    let seconds = time[2] + milliseconds.div_euclid(1000);
    let minutes = time[1] + seconds.div_euclid(60);
    let hours = time[0] + minutes.div_euclid(60);
    [milliseconds, seconds, minutes, hours].into_iter().all(fits_i64)
}

/// D-6: a rounded number outside signed 64 bits is 7; the Rust gives it in 128.
fn rounder_wider(request: &Request, rust: &Rust) -> Option<Paper> {
    let rounds = matches!(request.call, Call::RoundNumber | Call::RoundNumberAsIfPositive);
    refusal_if(rounds && matches!(rust, Rust::Values(values) if !fits_i64(values[0])), 7)
}

/// D-7: an increment that does not divide the unit's field is 6; the Rust's own bounds are 1 and 10^9.
fn increment_untested(request: &Request, rust: &Rust) -> Option<Paper> {
    refusal_if(rounding_refusal(request) == Some(6) && rust.answers(), 6)
}

/// D-8: an invalid duration is 8, after the date's record; the Rust computes with its parts as they are.
fn duration_unchecked(request: &Request, rust: &Rust) -> Option<Paper> {
    let n = request.numbers();
    let unchecked = match request.call {
        Call::DurationSign | Call::DurationNegated => !is_duration(n) && rust.answers(),
        // The size of the least number of 64 bits is beyond them.
        Call::DurationAbs => !is_duration(n) && (*rust == Rust::Overflow) == n.contains(&i64::MIN.into()),
        Call::DateSum => record_refusal(request).is_none() && !is_duration(&n[3..]) && rust.computes(request),
        _ => false,
    };
    refusal_if(unchecked, 8)
}

/// D-9: an invalid duration, or one that is invalid once adjusted, is 8; the Rust puts the parts together.
fn adjust_unchecked(request: &Request, rust: &Rust) -> Option<Paper> {
    let n = request.numbers();
    if request.call != Call::DurationAdjust {
        return None;
    }
    let months = if n[7] == 1 { n[8] } else { n[1] };
    let weeks = if n[5] == 1 { n[6] } else { n[2] };
    let adjusted = vec![n[0], months, weeks, n[4]];
    refusal_if((!is_duration(n) || !is_duration(&adjusted)) && *rust == Rust::Values(adjusted), 8)
}

/// D-10: a record outside the limits is 2, or 3 with a time; the Rust computes with it, or writes it. (Where the limits
/// themselves are asked for it refuses, and nothing parts.)
fn limits_unchecked(request: &Request, rust: &Rust) -> Option<Paper> {
    let number = record_refusal(request).filter(|number| [2, 3].contains(number))?;
    refusal_if(rust.computes(request), number)
}

/// D-11: a unit below day is 5 for a date difference, equal dates included; the Rust gives the days, without a trial.
fn small_unit_as_day(request: &Request, rust: &Rust) -> Option<Paper> {
    let n = request.numbers();
    if request.call != Call::DateDifference || n[6] <= DAY || record_refusal(request).is_some() {
        return None;
    }
    let days = day_number(n[3], n[4], n[5]) - day_number(n[0], n[1], n[2]);
    refusal_if(*rust == Rust::Values(vec![0, 0, 0, days, 0]), 5)
}

/// D-12: an exact day count beyond 100,000,001 in size is 4; the Rust has no such test, and gives a date or overflows.
fn date_time_unbounded(request: &Request, rust: &Rust) -> Option<Paper> {
    let n = request.numbers();
    if request.call != Call::BalanceDateTime || !fits_i32(n[2]) || *rust != balance_in_32_bits(n) {
        return None;
    }
    Some(balanced_date_time(n)).filter(|paper| *paper == Paper::Refusal(4))
}

/// D-13: the rules go by the exact sum of day and carry. The Rust cuts the carry to 32 bits, adds it to the day in
/// 32 bits, and adds the years of the months in 32 bits: it answers another date, or overflows.
fn date_time_cut(request: &Request, rust: &Rust) -> Option<Paper> {
    let n = request.numbers();
    if request.call != Call::BalanceDateTime || !fits_i32(n[2]) || *rust != balance_in_32_bits(n) {
        return None;
    }
    match (balanced_date_time(n), rust) {
        (Paper::Values(paper), Rust::Values(rust)) if paper == *rust => None,
        (Paper::Values(paper), _) => Some(Paper::Values(paper)),
        (Paper::Refusal(_), _) => None,
    }
}

/// What the Rust makes of a date and time whose time fields add up within 64 bits.
fn balance_in_32_bits(n: &[i128]) -> Rust {
    let (carry, time) = carry_and_time(&n[3..]);
    let day = n[2] + i128::from(carry as i32);
    let count = day_number(n[0], n[1], day);
    if !fits_i32(day) || !fits_i32(n[0] + n[1].div_euclid(12)) || !fits_i64(count * DAY_MILLISECONDS) {
        return Rust::Overflow;
    }
    Rust::Values([date_values(count), time].concat())
}

/// D-14: a day, nanosecond or offset outside its range is 7; the Rust takes the instant and the offset as they are.
fn instant_unchecked(request: &Request, rust: &Rust) -> Option<Paper> {
    let n = request.numbers();
    if request.call != Call::DateTimeFromInstant || is_instant(n[0], n[1], n[2]) {
        return None;
    }
    refusal_if(*rust == instant_by_milliseconds(n[0] * DAY_NANOSECONDS + n[1], n[2]), 7)
}

/// What the Rust makes of an instant and an offset: it cuts the milliseconds to 64 bits, adds the offset to the
/// nanoseconds below a microsecond in 64 bits, and overflows where the day's milliseconds leave 64 bits.
fn instant_by_milliseconds(instant: i128, offset: i128) -> Rust {
    let milliseconds = i128::from(instant.div_euclid(1_000_000) as i64);
    let (count, time) = days_and_time(milliseconds * 1_000_000 + instant.rem_euclid(1_000_000) + offset);
    if !fits_i64(instant.rem_euclid(1_000) + offset) || !fits_i64(count * DAY_MILLISECONDS) {
        return Rust::Overflow;
    }
    Rust::Values([date_values(count), time].concat())
}

// ---- The rules' rules, as far as the entries lean on them ----

const LAST_BALANCED: i128 = 100_000_001;
const LAST_TIME_FIELD: i128 = (1 << 53) - 1;
const DAY_NANOSECONDS: i128 = 86_400_000_000_000;
const DAY_MILLISECONDS: i128 = 86_400_000;
const DAY: i128 = 3;

fn fits_i32(n: i128) -> bool {
    i32::try_from(n).is_ok()
}

fn fits_i64(n: i128) -> bool {
    i64::try_from(n).is_ok()
}

fn is_date(n: &[i128]) -> bool {
    (1..=12).contains(&n[1]) && (1..=month_length(n[0], n[1])).contains(&n[2])
}

fn is_time(n: &[i128]) -> bool {
    [23, 59, 59, 999, 999, 999].iter().zip(n).all(|(last, field)| field <= last)
}

fn is_within_date_limits(n: &[i128]) -> bool {
    (-LAST_BALANCED..LAST_BALANCED).contains(&day_number(n[0], n[1], n[2]))
}

fn is_within_date_time_limits(n: &[i128]) -> bool {
    let midnight_of_first = day_number(n[0], n[1], n[2]) == -LAST_BALANCED && n[3..9].iter().all(|&field| field == 0);
    is_within_date_limits(n) && !midnight_of_first
}

/// The refusal of a date record: fields, then limits.
fn date_refusal(n: &[i128]) -> Option<u8> {
    if !is_date(n) {
        return Some(1);
    }
    (!is_within_date_limits(n)).then_some(2)
}

/// The refusal of a date-and-time record: fields, then limits.
fn date_time_refusal(n: &[i128]) -> Option<u8> {
    if !is_date(n) || !is_time(&n[3..]) {
        return Some(1);
    }
    (!is_within_date_time_limits(n)).then_some(3)
}

/// The refusal of a request's records, the first wholly before the second.
fn record_refusal(request: &Request) -> Option<u8> {
    let n = request.numbers();
    let bad = |good: bool| (!good).then_some(1);
    match request.call {
        // A date to be turned into its day is not held to the date limits.
        Call::DateToDay => bad(is_date(n)),
        Call::DateLimits | Call::DateSum | Call::WriteDate => date_refusal(n),
        Call::DateDifference => date_refusal(n).or_else(|| date_refusal(&n[3..])),
        Call::TimeDifference => bad(is_time(n) && is_time(&n[6..])),
        Call::RoundTime | Call::WriteTime => bad(is_time(n)),
        Call::DateTimeLimits | Call::RoundDateTime | Call::WriteDateTime => date_time_refusal(n),
        Call::DateTimeDifference => date_time_refusal(n).or_else(|| date_time_refusal(&n[9..])),
        _ => None,
    }
}

/// The refusal of a time or a date and time to be rounded: records, unit, increment.
fn rounding_refusal(request: &Request) -> Option<u8> {
    let n = request.numbers();
    let (unit, increment) = match request.call {
        Call::RoundTime => (n[6], n[7]),
        Call::RoundDateTime => (n[9], n[10]),
        _ => return None,
    };
    record_refusal(request).or(if unit < DAY { Some(5) } else { None }).or_else(|| {
        let whole = [1, 24, 60, 60, 1000, 1000, 1000][(unit - DAY) as usize];
        let allowed = increment != 0 && whole % increment == 0 && (increment < whole || unit == DAY);
        (!allowed).then_some(6)
    })
}

fn is_duration(n: &[i128]) -> bool {
    let parts = &n[..4];
    let one_sign = parts.iter().all(|&part| part >= 0) || parts.iter().all(|&part| part <= 0);
    one_sign && parts[..3].iter().all(|part| part.abs() < 1 << 32) && (parts[3] * 86_400).abs() < 1 << 53
}

fn is_instant(day: i128, nanosecond: i128, offset: i128) -> bool {
    let within = (-100_000_000..100_000_000).contains(&day) || (day, nanosecond) == (100_000_000, 0);
    within && (0..DAY_NANOSECONDS).contains(&nanosecond) && offset.abs() < DAY_NANOSECONDS
}

fn date_values(day: i128) -> Vec<i128> {
    let (year, month, day) = date_of(day);
    vec![year, month, day]
}

/// The date of an exact day count, refused past the balanced range.
fn balanced_date(day: i128) -> Paper {
    if day.abs() > LAST_BALANCED {
        return Paper::Refusal(4);
    }
    Paper::Values(date_values(day))
}

fn time_beyond_bound(n: &[i128]) -> bool {
    n[..6].iter().any(|field| field.abs() > LAST_TIME_FIELD)
}

const LENGTHS: [i128; 6] = [3_600_000_000_000, 60_000_000_000, 1_000_000_000, 1_000_000, 1_000, 1];

/// Whole days, rounded down, and the time that is left.
fn days_and_time(nanoseconds: i128) -> (i128, Vec<i128>) {
    let left = nanoseconds.rem_euclid(DAY_NANOSECONDS);
    let wholes = [24, 60, 60, 1000, 1000, 1000];
    let time = LENGTHS.iter().zip(wholes).map(|(length, whole)| left / length % whole).collect();
    (nanoseconds.div_euclid(DAY_NANOSECONDS), time)
}

/// The floor carry in days of six fields and the time that is left.
fn carry_and_time(n: &[i128]) -> (i128, Vec<i128>) {
    days_and_time(n.iter().zip(LENGTHS).map(|(field, length)| field * length).sum())
}

/// The balance of a date and time: the bound of its time fields, then the exact count.
fn balanced_date_time(n: &[i128]) -> Paper {
    if time_beyond_bound(&n[3..]) {
        return Paper::Refusal(7);
    }
    let (carry, time) = carry_and_time(&n[3..]);
    match balanced_date(day_number(n[0], n[1], 1) + n[2] - 1 + carry) {
        Paper::Values(date) => Paper::Values([date, time].concat()),
        refusal => refusal,
    }
}
