//! The console's line protocol: which calls there are, what each takes, and when a line is a request.
//! The oracle, the maker of requests and the judge read the same table.

pub mod days;
pub mod sweep;
pub mod text;

/// The type of one number of a request, where a number outside it makes the line no request; or a text, which is the
/// last thing of its line and may be any bytes.
#[derive(Clone, Copy, PartialEq, Eq)]
pub enum Kind {
    U8,
    U16,
    I32,
    I64,
    U64,
    Unit,
    Mode,
    Overflow,
    Given,
    Room,
    Text,
}

impl Kind {
    /// The first and the last number of a type; a text has none.
    pub fn range(self) -> Option<(i128, i128)> {
        match self {
            Kind::U8 => Some((0, u8::MAX.into())),
            Kind::U16 => Some((0, u16::MAX.into())),
            Kind::I32 => Some((i32::MIN.into(), i32::MAX.into())),
            Kind::I64 => Some((i64::MIN.into(), i64::MAX.into())),
            Kind::U64 => Some((0, u64::MAX.into())),
            Kind::Unit => Some((0, 9)),
            Kind::Mode => Some((0, 8)),
            Kind::Overflow | Kind::Given => Some((0, 1)),
            Kind::Room => Some((0, text::LONGEST as i128)),
            Kind::Text => None,
        }
    }
}

macro_rules! calls {
    ($($call:ident $name:literal $kinds:expr;)*) => {
        #[derive(Clone, Copy, PartialEq, Eq, Debug)]
        pub enum Call { $($call),* }

        /// Every call, in the console's order.
        pub const CALLS: &[Call] = &[$(Call::$call),*];

        impl Call {
            pub fn name(self) -> &'static str {
                match self { $(Call::$call => $name),* }
            }

            pub fn kinds(self) -> &'static [Kind] {
                use Kind::*;
                match self { $(Call::$call => $kinds),* }
            }
        }
    };
}

calls! {
    MonthLength "month_length" &[I32, U8];
    DateToDay "date_to_day" &[I32, U8, U8];
    DayToDate "day_to_date" &[I64];
    BalanceYearMonth "balance_year_month" &[I32, I32];
    RegulateDate "regulate_date" &[I32, U8, U8, Overflow];
    MakeDate "make_date" &[I32, U8, U8, Overflow];
    DateLimits "date_limits" &[I32, U8, U8];
    BalanceDate "balance_date" &[I32, I32, I64];
    RegulateTime "regulate_time" &[U8, U8, U8, U16, U16, U16, Overflow];
    BalanceTime "balance_time" &[I64, I64, I64, I64, I64, I64];
    TimeDifference "time_difference" &[U8, U8, U8, U16, U16, U16, U8, U8, U8, U16, U16, U16];
    RoundNumber "round_number" &[I64, U64, Mode];
    RoundNumberAsIfPositive "round_number_as_if_positive" &[I64, U64, Mode];
    RoundTime "round_time" &[U8, U8, U8, U16, U16, U16, Unit, U64, Mode];
    DurationNew "duration_new" &[I64, I64, I64, I64];
    DurationSign "duration_sign" &[I64, I64, I64, I64];
    DurationAbs "duration_abs" &[I64, I64, I64, I64];
    DurationNegated "duration_negated" &[I64, I64, I64, I64];
    DurationAdjust "duration_adjust" &[I64, I64, I64, I64, I64, Given, I64, Given, I64];
    DateSum "date_sum" &[I32, U8, U8, I64, I64, I64, I64, Overflow];
    DateDifference "date_difference" &[I32, U8, U8, I32, U8, U8, Unit];
    DateTimeLimits "datetime_limits" &[I32, U8, U8, U8, U8, U8, U16, U16, U16];
    BalanceDateTime "balance_datetime" &[I32, I32, I64, I64, I64, I64, I64, I64, I64];
    RoundDateTime "round_datetime" &[I32, U8, U8, U8, U8, U8, U16, U16, U16, Unit, U64, Mode];
    DateTimeDifference "datetime_difference"
        &[I32, U8, U8, U8, U8, U8, U16, U16, U16, I32, U8, U8, U8, U8, U8, U16, U16, U16, Unit];
    DateTimeFromInstant "datetime_from_instant" &[I64, I64, I64];
    ReadDate "read_date" &[Text];
    ReadTime "read_time" &[Text];
    ReadDateTime "read_datetime" &[Text];
    WriteDate "write_date" &[I32, U8, U8, Room];
    WriteTime "write_time" &[U8, U8, U8, U16, U16, U16, Room];
    WriteDateTime "write_datetime" &[I32, U8, U8, U8, U8, U8, U16, U16, U16, Room];
}

/// As many numbers as the longest request has.
const MOST: usize = 19;

/// As many bytes as a line may have that is a request.
pub const LONGEST_LINE: usize = 1000;

/// A line that is a request: its call, its numbers, each within its kind, and its text, which is empty if it takes none.
pub struct Request<'a> {
    pub call: Call,
    numbers: [i128; MOST],
    pub text: &'a [u8],
}

impl Request<'_> {
    pub fn numbers(&self) -> &[i128] {
        let taken = self.call.kinds().iter().filter(|kind| **kind != Kind::Text).count();
        &self.numbers[..taken]
    }

    /// The request that a line is, if it is one.
    pub fn read(line: &[u8]) -> Option<Request<'_>> {
        if line.len() > LONGEST_LINE {
            return None;
        }
        let (name, mut left) = first_word(line);
        let call = *CALLS.iter().find(|call| call.name().as_bytes() == name)?;
        let mut request = Request { call, numbers: [0; MOST], text: b"" };
        for (at, kind) in call.kinds().iter().enumerate() {
            let rest = left?;
            let Some((low, high)) = kind.range() else {
                request.text = rest;
                left = None;
                continue;
            };
            let (word, after) = first_word(rest);
            let number = read_number(word)?;
            if number < low || high < number {
                return None;
            }
            request.numbers[at] = number;
            left = after;
        }
        left.is_none().then_some(request)
    }
}

/// What stands before the first space, and what follows it; nothing follows where there is no space.
fn first_word(bytes: &[u8]) -> (&[u8], Option<&[u8]>) {
    match bytes.iter().position(|&b| b == b' ') {
        Some(at) => (&bytes[..at], Some(&bytes[at + 1..])),
        None => (bytes, None),
    }
}

/// A number in its one shortest decimal form; none has more than the twenty digits of the 64-bit ends.
pub fn read_number(word: &[u8]) -> Option<i128> {
    let (negative, digits) = match word {
        [b'-', rest @ ..] => (true, rest),
        _ => (false, word),
    };
    let shortest = match digits {
        [] => false,
        [b'0', rest @ ..] => rest.is_empty() && !negative,
        _ => true,
    };
    if !shortest || digits.len() > 20 || !digits.iter().all(u8::is_ascii_digit) {
        return None;
    }
    let size = digits.iter().fold(0, |n, &b| n * 10 + i128::from(b - b'0'));
    Some(if negative { -size } else { size })
}

/// The lines of a text: a last line without a newline counts, and nothing follows a last newline.
pub fn lines(text: &[u8]) -> impl Iterator<Item = &[u8]> {
    let body = text.strip_suffix(b"\n").unwrap_or(text);
    let pieces = if text.is_empty() { 0 } else { usize::MAX };
    body.split(|&b| b == b'\n').take(pieces)
}
