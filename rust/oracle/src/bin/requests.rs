//! Makes the requests of a comparison: `requests SEED N CALL..` writes N lines for each call, the same for a seed.
//!
//! The fixed lines of a call come first: the readings of the rules, the smallest inputs of the listed differences, and
//! for differences of dates every count of the trial. Then, for date text, the swept ones. The rest is drawn at random,
//! most of it from around the places where an answer turns: limits, ends of types, month ends, leap days, ties, bounds,
//! good texts with one byte damaged. About one line in 200 is spoiled so that it is no request.

use lines::days::{balance_year_month, date_of, day_number, month_length};
use lines::text::{written_date, written_date_time, written_time, written_year, LONGEST};
use lines::{sweep, Call, Kind, CALLS, LONGEST_LINE};
use std::io::Write;

const FIXED: &str = include_str!("../fixed.txt");

const I32: (i128, i128) = (i32::MIN as i128, i32::MAX as i128);
const I64: (i128, i128) = (i64::MIN as i128, i64::MAX as i128);

/// The largest day count of a balanced date, which is one more than that of the last date.
const LAST_BALANCED: i128 = 100_000_001;
/// The largest size of a field of a time to be balanced.
const LAST_TIME_FIELD: i128 = (1 << 53) - 1;
/// The largest size of a duration's days.
const LAST_DURATION_DAYS: i128 = 104_249_991_374;
const DAY_NANOSECONDS: i128 = 86_400_000_000_000;
/// How many nanoseconds a unit has, by the console's number of it; no time is rounded to a unit above day.
const UNIT_NANOSECONDS: [i128; 10] =
    [0, 0, 0, DAY_NANOSECONDS, 3_600_000_000_000, 60_000_000_000, 1_000_000_000, 1_000_000, 1_000, 1];
/// How many of a unit make the next larger one; for day, the one increment that is allowed.
const UNITS_IN_NEXT: [i128; 10] = [0, 0, 0, 1, 24, 60, 60, 1000, 1000, 1000];

fn main() {
    let arguments: Vec<String> = std::env::args().skip(1).collect();
    let Some((seed, count, calls)) = read_arguments(&arguments) else {
        eprintln!("usage: requests SEED N all | CALL..");
        std::process::exit(2);
    };
    let mut out = std::io::BufWriter::new(std::io::stdout().lock());
    let mut lines = 0;
    for &call in &calls {
        let mut source = Source::new(seed, call);
        let fixed = FIXED.lines().filter(|line| line.split(' ').next() == Some(call.name()));
        let fixed: Vec<Vec<u8>> = fixed.map(|line| line.as_bytes().to_vec()).chain(sweep::swept(call)).collect();
        for at in 0..count {
            lines += 1;
            let last = lines == calls.len() * count;
            let drawn: Vec<u8> = match fixed.get(at) {
                Some(line) => line.to_vec(),
                None => {
                    let line = source.line(call);
                    if source.once_in(200) && !last {
                        source.spoil(call, line)
                    } else {
                        line
                    }
                }
            };
            out.write_all(&drawn).expect("a request is written");
            // Under odd seeds the last line goes without its newline.
            if !last || seed % 2 == 0 {
                out.write_all(b"\n").expect("a request is written");
            }
        }
    }
    out.flush().expect("the requests are written");
}

fn read_arguments(arguments: &[String]) -> Option<(u64, usize, Vec<Call>)> {
    let [seed, count, names @ ..] = arguments else { return None };
    let calls = match names {
        [] => return None,
        [all] if all == "all" => CALLS.to_vec(),
        _ => names.iter().map(|name| CALLS.iter().copied().find(|call| call.name() == name)).collect::<Option<_>>()?,
    };
    Some((seed.parse().ok()?, count.parse().ok()?, calls))
}

fn line_of(call: Call, numbers: &[i128]) -> Vec<u8> {
    let mut line = call.name().to_string();
    for number in numbers {
        line.push(' ');
        line.push_str(&number.to_string());
    }
    line.into_bytes()
}

/// A stream of draws (splitmix64), one for each seed and call.
struct Source {
    state: u64,
}

impl Source {
    fn new(seed: u64, call: Call) -> Source {
        let mut source = Source { state: seed.wrapping_mul(64).wrapping_add(call as u64) };
        source.state = source.draw();
        source
    }

    fn draw(&mut self) -> u64 {
        self.state = self.state.wrapping_add(0x9E37_79B9_7F4A_7C15);
        let mut z = self.state;
        z = (z ^ (z >> 30)).wrapping_mul(0xBF58_476D_1CE4_E5B9);
        z = (z ^ (z >> 27)).wrapping_mul(0x94D0_49BB_1331_11EB);
        z ^ (z >> 31)
    }

    /// A draw below a count.
    fn below(&mut self, count: u64) -> u64 {
        self.draw() % count
    }

    fn once_in(&mut self, count: u64) -> bool {
        self.below(count) == 0
    }

    /// A whole number from one end to the other, both within reach.
    fn between(&mut self, low: i128, high: i128) -> i128 {
        low + (self.draw() as i128).rem_euclid(high - low + 1)
    }

    fn within(&mut self, (low, high): (i128, i128)) -> i128 {
        self.between(low, high)
    }

    fn one_of(&mut self, pool: &[i128]) -> i128 {
        pool[self.below(pool.len() as u64) as usize]
    }

    /// A number a little beside a place.
    fn beside(&mut self, place: i128) -> i128 {
        place + self.between(-2, 2)
    }

    fn sign(&mut self) -> i128 {
        self.one_of(&[-1, 1])
    }

    /// A number of any size up to a bound, sizes being as likely as their count of bits.
    fn sized(&mut self, bound: i128) -> i128 {
        let bits = 128 - bound.leading_zeros();
        let kept = self.below(u64::from(bits) + 1) as u32;
        let size = if kept == 0 { 0 } else { i128::from(self.draw() >> (64 - kept.min(64))) };
        size.min(bound)
    }

    fn signed(&mut self, bound: i128) -> i128 {
        self.sign() * self.sized(bound)
    }

    // Single fields.

    fn any64(&mut self) -> i128 {
        match self.below(4) {
            0 => self.beside(I64.0 + 2).max(I64.0),
            1 => self.beside(I64.1 - 2).min(I64.1),
            2 => self.within(I64),
            _ => self.signed(I64.1),
        }
    }

    fn year(&mut self) -> i128 {
        match self.below(8) {
            0 => self.one_of(&[1900, 1970, 2000, 2020, 2023, 2024, 2100, 2400]),
            1 => self.one_of(&[-400, -100, -4, -1, 0, 1, 4, 100, 400]),
            2 => self.one_of(&[-271_822, -271_821, -271_820, 275_759, 275_760, 275_761]),
            3 => self.one_of(&[I32.0, I32.0 + 1, I32.0 + 2, I32.1 - 2, I32.1 - 1, I32.1]),
            4 => self.within(I32),
            5 => self.signed(I32.1),
            6 => self.between(1890, 2110),
            _ => self.between(-271_830, 275_770),
        }
    }

    fn month(&mut self) -> i128 {
        match self.below(8) {
            0 => self.one_of(&[0, 13, 14, 24, 255]),
            1 => self.between(0, 255),
            _ => self.between(1, 12),
        }
    }

    fn day(&mut self) -> i128 {
        match self.below(8) {
            0 => self.one_of(&[0, 32, 33, 255]),
            1 => self.between(0, 255),
            2..=3 => self.between(28, 31),
            _ => self.between(1, 31),
        }
    }

    /// A month to be balanced, in 32 bits.
    fn far_month(&mut self) -> i128 {
        match self.below(6) {
            0 => self.one_of(&[-13, -12, -11, -1, 0, 1, 2, 11, 12, 13, 14, 24, 25]),
            1 => self.one_of(&[I32.0, I32.0 + 1, I32.0 + 8, I32.0 + 9, I32.1 - 8, I32.1 - 7, I32.1 - 1, I32.1]),
            2 => self.within(I32),
            3 => self.signed(I32.1),
            _ => self.between(-50, 50),
        }
    }

    fn overflow(&mut self) -> i128 {
        self.between(0, 1)
    }

    /// Half-even over its share: it alone looks at more than the nearest multiple.
    fn mode(&mut self) -> i128 {
        if self.once_in(4) {
            8
        } else {
            self.between(0, 8)
        }
    }

    // Dates.

    /// A day number within the date limits, now and then close to one of them.
    fn day_within_limits(&mut self) -> i128 {
        match self.below(6) {
            0 => self.between(-LAST_BALANCED, -LAST_BALANCED + 40),
            1 => self.between(LAST_BALANCED - 41, LAST_BALANCED - 1),
            2..=3 => self.between(-40_000, 60_000),
            _ => self.between(-LAST_BALANCED, LAST_BALANCED - 1),
        }
    }

    /// A date with valid fields within the limits.
    fn good_date(&mut self) -> [i128; 3] {
        if self.once_in(4) {
            return self.month_end();
        }
        date_fields(self.day_within_limits())
    }

    /// One of a month's last days, with 29 February over its share.
    fn month_end(&mut self) -> [i128; 3] {
        let year = match self.below(3) {
            0 => self.one_of(&[-400, -100, -4, -1, 0, 4, 1900, 1999, 2000, 2020, 2021, 2023, 2024, 2100, 2400]),
            1 => self.between(1890, 2110),
            _ => self.between(-271_820, 275_759),
        };
        let month = if self.once_in(3) { 2 } else { self.between(1, 12) };
        [year, month, month_length(year, month) - self.sized(3)]
    }

    /// Any date record: mostly a good one, else just outside the limits or the balanced range, or with any fields.
    fn date(&mut self) -> [i128; 3] {
        match self.below(16) {
            0 => {
                let end = self.one_of(&[-LAST_BALANCED, LAST_BALANCED]);
                date_fields(self.beside(end))
            }
            1 => [self.year(), self.month(), self.day()],
            2 => [self.within(I32), self.between(0, 255), self.between(0, 255)],
            3 => {
                let [year, month, last] = self.month_end();
                [year, month, last + self.between(1, 3)]
            }
            4 => {
                let [year, month, day] = self.good_date();
                match self.below(4) {
                    0 => [year, 0, day],
                    1 => [year, self.one_of(&[13, 255]), day],
                    2 => [year, month, 0],
                    _ => [year, month, self.one_of(&[32, 255])],
                }
            }
            5 => [self.year(), self.between(1, 12), self.between(1, 28)],
            _ => self.good_date(),
        }
    }

    /// Two date records: far apart, a few days, months or years apart, equal, or with any fields.
    fn two_dates(&mut self) -> ([i128; 3], [i128; 3]) {
        let one = self.day_within_limits();
        let two = match self.below(14) {
            0..=1 => return (self.date(), self.date()),
            2 => return (self.month_end(), self.month_end()),
            3 => {
                let [year, month, day] = self.good_date();
                let near = [year + self.between(-2, 2), self.between(1, 12), self.between(1, 28)];
                return if self.once_in(2) { ([year, month, day], near) } else { (near, [year, month, day]) };
            }
            4 => one,
            5 => self.day_within_limits(),
            6..=7 => one + self.between(-70, 70),
            8..=9 => one + self.between(-1_500, 1_500),
            10 => one + self.signed(200_000),
            11..=12 => return self.whole_months_apart(),
            _ => self.between(-LAST_BALANCED, LAST_BALANCED - 1),
        };
        [one, two].map(date_in_limits).into()
    }

    /// Two dates whole months apart, or a day beside that: one month more is found there, or one less. The first is often
    /// an end of its year: many months lie within that year then, and one day more or less leads into another.
    fn whole_months_apart(&mut self) -> ([i128; 3], [i128; 3]) {
        let [year, month, day] = self.good_date();
        let (month, day) = match self.below(4) {
            0 => (1, 1),
            1 => (12, 31),
            _ => (month, day),
        };
        let years = match self.below(4) {
            0 => 0,
            1 => self.sign(),
            2 => self.between(-5, 5),
            _ => self.signed(540_000),
        };
        let months = if self.once_in(2) { self.one_of(&[-12, -11, 11, 12]) } else { self.between(-12, 12) };
        let (y, m) = balance_year_month(year, month + 12 * years + months);
        let one = day_number(year, month, day);
        let two = day_number(y, m, day.min(month_length(y, m))) + self.between(-1, 1);
        [one, two].map(date_in_limits).into()
    }

    /// Year, month and day to be balanced, often so that the exact count comes out at a chosen place.
    fn balance_inputs(&mut self) -> [i128; 3] {
        let year = self.year();
        let month = self.far_month();
        let first = day_number(year, month, 1);
        let day = match self.below(8) {
            0 => self.any64(),
            1 => self.between(-400, 400),
            // Here count and day together come to the ends of 64 bits.
            2 => {
                let end = self.one_of(&[I64.0, I64.1]);
                self.beside(end) - first
            }
            3 => {
                let end = self.one_of(&[-LAST_BALANCED, LAST_BALANCED]);
                self.beside(end) - first + 1
            }
            4 => self.signed(1 << 40),
            _ => self.between(-LAST_BALANCED - 5, LAST_BALANCED + 5) - first + 1,
        };
        [year, month, day.clamp(I64.0, I64.1)]
    }

    // Times.

    fn good_time(&mut self) -> [i128; 6] {
        if self.once_in(3) {
            let nanosecond = self.between(0, DAY_NANOSECONDS - 1);
            return time_fields(nanosecond);
        }
        self.time_of(|source, last| match source.below(4) {
            0 => 0,
            1 => last,
            2 => source.one_of(&[1, last - 1, last / 2, last / 2 + 1]),
            _ => source.between(0, last),
        })
    }

    /// Any time record: mostly a good one, else with any fields, ends of types and one past the last value included.
    fn time(&mut self) -> [i128; 6] {
        if !self.once_in(8) {
            return self.good_time();
        }
        let mut time = self.good_time();
        let raw = self.time_of(|source, last| {
            let most = if last == 999 { 65_535 } else { 255 };
            match source.below(3) {
                0 => last + 1,
                1 => most,
                _ => source.between(0, most),
            }
        });
        if self.once_in(4) {
            return raw;
        }
        let at = self.below(6) as usize;
        time[at] = raw[at];
        time
    }

    fn time_of(&mut self, mut field: impl FnMut(&mut Source, i128) -> i128) -> [i128; 6] {
        [23, 59, 59, 999, 999, 999].map(|last| field(self, last))
    }

    /// Six fields to be balanced, one or all of them large now and then.
    fn far_time(&mut self) -> [i128; 6] {
        let small = self.below(3);
        let mut time = [0; 6].map(|_: i128| match small {
            0 => self.between(-2_000, 2_000),
            1 => self.signed(LAST_TIME_FIELD),
            _ => self.one_of(&[-1, 0, 1, 23, 24, 59, 60, 999, 1000, -24, -60, -1000]),
        });
        if self.once_in(2) {
            let at = self.below(6) as usize;
            time[at] = match self.below(6) {
                0 => self.any64(),
                1..=2 => self.sign() * self.beside(LAST_TIME_FIELD),
                3 => self.sign() * LAST_TIME_FIELD,
                _ => self.signed(I64.1),
            };
        }
        if self.once_in(40) {
            time = time.map(|_| self.sign() * LAST_TIME_FIELD);
        }
        time
    }

    /// A time with unit, increment and mode: mostly close to a tie of an increment that is allowed.
    fn time_to_round(&mut self) -> ([i128; 6], [i128; 3]) {
        let unit = if self.once_in(12) { self.between(0, 2) } else { self.between(3, 9) };
        let whole = UNITS_IN_NEXT[unit as usize];
        let increment = match self.below(10) {
            0 => self.one_of(&[0, 2, 7, 11, 23, 24, 25, 59, 60, 61, 500, 999, 1000, 1001]),
            1 => self.one_of(&[999_999_999, 1_000_000_000, 1_000_000_001, (1 << 32) - 1, 1 << 32, (1 << 64) - 1]),
            2 => self.sized((1 << 64) - 1),
            _ if whole == 0 => 1,
            _ => {
                let divisors: Vec<i128> =
                    (1..=whole).filter(|n| whole % n == 0 && (*n < whole || whole == 1)).collect();
                self.one_of(&divisors)
            }
        };
        let options = [unit, increment, self.mode()];
        let step = UNIT_NANOSECONDS[unit as usize].saturating_mul(increment);
        // The field and all below it: for day and hour the whole time.
        let field = if unit <= 4 { DAY_NANOSECONDS } else { whole * UNIT_NANOSECONDS[unit as usize] };
        if step == 0 || step > field || self.once_in(4) {
            return (self.time(), options);
        }
        let tie =
            self.between(0, field / step) * step + self.one_of(&[0, step / 2, step / 2]) + self.one_of(&[-1, 0, 0, 1]);
        let larger = time_fields(self.between(0, DAY_NANOSECONDS - 1) / field * field);
        let within = time_fields(tie.clamp(0, field - 1));
        let mut time = larger;
        for at in 0..6 {
            time[at] += within[at];
        }
        (time, options)
    }

    // Numbers to round.

    fn number_to_round(&mut self) -> [i128; 3] {
        let top = u64::MAX as i128;
        let step = match self.below(5) {
            0 => self.one_of(&[0, 1, 2, 3, 4, 5, 7, 10, 11, 60, 1000, 1001]),
            1 => {
                self.one_of(&[1 << 31, 1 << 32, 1 << 53, 1 << 62, (1 << 63) - 1, 1 << 63, (1 << 63) + 1, top - 1, top])
            }
            2 => self.between(1, 20),
            _ => self.sized(top),
        };
        let quantity = match self.below(8) {
            0 => self.any64(),
            1 => self.signed(I64.1),
            // The last multiples of the step within 64 bits, where the next one is beyond.
            2 => {
                let last = I64.1 / step.max(1) * step + self.one_of(&[0, step / 2]);
                self.sign() * self.beside(last)
            }
            _ => {
                let reach = I64.1 / step.max(1) + 1;
                let multiple = if self.once_in(2) { self.signed(reach.min(6)) } else { self.signed(reach) };
                multiple * step + self.one_of(&[0, step / 2, step - step / 2]) + self.between(-1, 1)
            }
        };
        [quantity.clamp(I64.0, I64.1), step, self.mode()]
    }

    // Durations.

    /// Four parts: small, at the bounds, or of any size; with one sign for all of them, or with signs at random.
    fn duration(&mut self) -> [i128; 4] {
        let one_sign = self.sign();
        let mixed = self.once_in(6);
        let manner = self.below(5);
        let mut at = 0;
        [0; 4].map(|_: i128| {
            at += 1;
            let bound = if at == 4 { LAST_DURATION_DAYS } else { u32::MAX.into() };
            let size = match manner {
                0 => self.sized(40),
                1 => self.sized(bound),
                2 => self.one_of(&[0, 0, 0, 1, bound - 1, bound, bound + 1]),
                3 => self.one_of(&[0, 0, 1, 11, 12, 13, 31, 400]),
                _ => match self.below(12) {
                    0 => self.sized(I64.1),
                    1 => self.one_of(&[bound, bound + 1, I64.1 - 1, I64.1, I64.1 + 1]),
                    _ => self.one_of(&[0, 0, 1]),
                },
            };
            let sign = if mixed { self.sign() } else { one_sign };
            (sign * size).clamp(I64.0, I64.1)
        })
    }

    /// A date and a duration: small steps, month ends by months, sums that come out at the limits, or anything.
    fn date_and_duration(&mut self) -> ([i128; 3], [i128; 4]) {
        match self.below(6) {
            0 => (self.date(), self.duration()),
            1 => (self.good_date(), self.duration()),
            2 => {
                let sign = self.sign();
                let date = self.month_end();
                let days = if self.once_in(2) { 0 } else { sign * self.sized(400) };
                (date, [sign * self.sized(8), sign * self.sized(30), 0, days])
            }
            3 => {
                let sign = self.sign();
                (self.good_date(), [15, 200, 500, 4_000].map(|bound| sign * self.sized(bound)))
            }
            4 => self.months_to_a_limit(),
            _ => self.sum_to_a_limit(),
        }
    }

    /// Years and months alone that lead beside one end of the date limits, which are tested before days are added.
    fn months_to_a_limit(&mut self) -> ([i128; 3], [i128; 4]) {
        let sign = self.sign();
        let end = if sign > 0 { LAST_BALANCED - 1 } else { -LAST_BALANCED };
        let (year, month, day) = date_of(self.beside(end));
        let (years, months) = (sign * self.between(0, 5_000), sign * self.between(0, 30));
        let (y, m) = balance_year_month(year - years, month - months);
        ([y, m, day], [years, months, 0, 0])
    }

    /// A valid duration that leads from a good date to one end of the balanced range, or a little past it.
    fn sum_to_a_limit(&mut self) -> ([i128; 3], [i128; 4]) {
        let [year, month, day] = self.good_date();
        let sign = self.sign();
        let end = if sign > 0 { LAST_BALANCED - 1 } else { -LAST_BALANCED };
        let target = self.beside(end);
        let (last_year, _, _) = date_of(end);
        let years = sign * self.between(0, (last_year - year).abs());
        let months = if self.once_in(2) { 0 } else { sign * self.between(0, 30) };
        let (y, m) = balance_year_month(year + years, month + months);
        let left = target - day_number(y, m, day.min(month_length(y, m)));
        // Past the end already: go by days alone, so that no part is opposed to another.
        let (years, months, left) =
            if left * sign < 0 { (0, 0, target - day_number(year, month, day)) } else { (years, months, left) };
        let weeks = if self.once_in(2) { 0 } else { sign * self.between(0, left.abs() / 7) };
        ([year, month, day], [years, months, weeks, left - 7 * weeks])
    }

    // Date and time.

    fn date_time(&mut self) -> Vec<i128> {
        if self.once_in(8) {
            return self.date_time_at_limits();
        }
        let (date, time) = (self.date(), self.time());
        [&date[..], &time[..]].concat()
    }

    /// At the limits: midnight of the first day is outside, the nanosecond after it inside.
    fn date_time_at_limits(&mut self) -> Vec<i128> {
        let day = self.one_of(&[-LAST_BALANCED - 1, -LAST_BALANCED, LAST_BALANCED - 1, LAST_BALANCED]);
        let nanosecond = self.one_of(&[0, 1, DAY_NANOSECONDS / 2, DAY_NANOSECONDS - 1]);
        [&date_fields(day)[..], &time_fields(nanosecond)[..]].concat()
    }

    fn two_date_times(&mut self) -> Vec<i128> {
        let (one, two) = self.two_dates();
        if self.once_in(12) {
            return [self.date_time(), self.date_time()].concat();
        }
        let times = match self.below(4) {
            0 => [self.time(), self.time()],
            1 => [self.good_time(); 2],
            _ => [self.good_time(), self.good_time()],
        };
        [&one[..], &times[0][..], &two[..], &times[1][..]].concat()
    }

    /// Date and time fields to be balanced: often the day makes up for the carry, so that the sum comes out in range.
    fn date_time_balance_inputs(&mut self) -> Vec<i128> {
        let [year, month, mut day] = self.balance_inputs();
        let mut time = self.far_time();
        match self.below(4) {
            0 => {}
            1 => day = day.clamp(I32.0, I32.1),
            // The hours make up for a far year, with a carry beyond 32 bits where the year is far enough.
            2 => {
                day = self.one_of(&[-1, 0, 1, 31, I32.0, I32.1]);
                let count = self.between(-LAST_BALANCED - 2, LAST_BALANCED + 2);
                time[0] = (count - day_number(year, month, day)) * 24 + self.between(-24, 24);
            }
            _ => {
                let count = self.between(-LAST_BALANCED - 2, LAST_BALANCED + 2);
                day = count - day_number(year, month, 1) + 1 - carry_of(&time);
            }
        }
        [&[year, month, day.clamp(I64.0, I64.1)][..], &time[..]].concat()
    }

    fn instant(&mut self) -> [i128; 3] {
        let last = LAST_BALANCED - 1;
        let day = match self.below(8) {
            0 => self.beside(-last),
            1 => self.beside(last),
            2 => self.one_of(&[-last, last]),
            3 => self.any64(),
            4 => self.between(-40_000, 60_000),
            _ => self.between(-last, last),
        };
        let nanosecond = match self.below(8) {
            0 => self.one_of(&[-1, 0, 1, DAY_NANOSECONDS - 1, DAY_NANOSECONDS, DAY_NANOSECONDS + 1]),
            1 => self.any64(),
            2..=3 => 0,
            _ => self.between(0, DAY_NANOSECONDS - 1),
        };
        let offset = match self.below(8) {
            0..=1 => self.sign() * (DAY_NANOSECONDS - 1),
            2 => self.sign() * self.beside(DAY_NANOSECONDS),
            3 => self.any64(),
            4 => 0,
            _ => self.between(1 - DAY_NANOSECONDS, DAY_NANOSECONDS - 1),
        };
        [day, nanosecond, offset]
    }

    // Texts, and records to be written.

    /// A text for a reader: mostly of its own kind and of good form, often with one byte damaged.
    fn text(&mut self, call: Call) -> Vec<u8> {
        let readers = [Call::ReadDate, Call::ReadTime, Call::ReadDateTime];
        let kind = if self.once_in(12) { readers[self.below(3) as usize] } else { call };
        let text = match kind {
            Call::ReadDate => self.date_text(),
            Call::ReadTime => self.time_text(),
            _ if self.once_in(16) => written_date_time(&self.date_time_at_limits()),
            _ => {
                let between = if self.once_in(16) { self.piece(&["t", " ", "_", "", "TT", "T "]) } else { "T" };
                format!("{}{between}{}", self.date_text(), self.time_text())
            }
        };
        let mut text = text.into_bytes();
        match self.below(12) {
            0..=3 => self.damage(&mut text),
            4 => self.resize(&mut text, call),
            _ => {}
        }
        text
    }

    fn date_text(&mut self) -> String {
        let [year, month, day] = match self.below(8) {
            0 => [self.year_to_write(), self.between(0, 13), self.one_of(&[0, 1, 9, 28, 29, 30, 31, 32, 99])],
            1 => [self.between(-999_999, 999_999), self.between(0, 99), self.between(0, 99)],
            2 => {
                let end = self.one_of(&[-LAST_BALANCED, LAST_BALANCED]);
                date_fields(self.beside(end))
            }
            3 => {
                let [year, month, last] = self.month_end();
                [year, month, last + self.between(0, 3)]
            }
            4 => [self.year_to_write(), self.between(1, 12), self.between(1, 28)],
            _ => self.good_date(),
        };
        let year = match self.below(24) {
            // A sign and six digits, where four would do too.
            0..=3 => format!("{year:+07}"),
            4 => "-000000".to_string(),
            // A sign before four digits, six digits without one, and other lengths.
            5 => format!("{:+05}", year % 10_000),
            6 => format!("{:06}", year.abs()),
            7 => format!("{:0width$}", year.abs(), width = self.below(8) as usize),
            8 => format!("{year:+0width$}", width = self.below(9) as usize),
            _ => written_year(year),
        };
        format!("{year}-{month:02}-{day:02}")
    }

    fn time_text(&mut self) -> String {
        let [hour, minute, mut second, ..] = self.good_time();
        let (hour, minute) = match self.below(12) {
            0 => (self.one_of(&[23, 24, 25, 99]), minute),
            1 => (hour, self.one_of(&[59, 60, 61, 99])),
            _ => (hour, minute),
        };
        if self.once_in(3) {
            second = self.one_of(&[0, 9, 59, 60, 60, 60, 61, 62, 99]);
        }
        let mut text = format!("{hour:02}:{minute:02}");
        if self.once_in(6) {
            return text;
        }
        text.push_str(&format!(":{second:02}"));
        if self.once_in(4) {
            return text;
        }
        text.push_str(if self.once_in(24) { self.piece(&[",", "", "..", ":"]) } else { "." });
        let length = if self.once_in(6) { self.one_of(&[0, 1, 9, 10]) } else { self.between(1, 9) };
        let zeros = self.between(0, length * 2) - length;
        for place in 0..length {
            let digit = if place + zeros >= length { 0 } else { self.between(0, 9) };
            text.push_str(&digit.to_string());
        }
        text
    }

    fn piece(&mut self, pool: &[&'static str]) -> &'static str {
        pool[self.below(pool.len() as u64) as usize]
    }

    /// One byte of a text replaced, dropped, doubled, added, moved to its neighbour or exchanged with another.
    fn damage(&mut self, text: &mut Vec<u8>) {
        let at = self.below(text.len() as u64) as usize;
        match self.below(6) {
            0 => text[at] = self.byte(),
            1 => drop(text.remove(at)),
            2 => text.insert(at, text[at]),
            3 => text.insert(at + self.below(2) as usize, self.byte()),
            4 => text[at] = if self.once_in(2) { text[at] - 1 } else { text[at] + 1 },
            _ => {
                let other = self.below(text.len() as u64) as usize;
                text.swap(at, other);
            }
        }
    }

    /// Any byte but a newline, which would end the line; those that have a meaning in some text over their share.
    fn byte(&mut self) -> u8 {
        let known = b"0123456789+-:.,TtZzWP /;[]\r\t\0";
        if self.once_in(2) {
            return known[self.below(known.len() as u64) as usize];
        }
        match self.below(256) as u8 {
            // Instead, the digit 2 with its high bit set.
            b'\n' => b'2' | 0x80,
            byte => byte,
        }
    }

    /// A text cut or drawn out: to a length close to the longest that is looked at, or as far as a line goes.
    fn resize(&mut self, text: &mut Vec<u8>, call: Call) {
        let length = match self.below(6) {
            0..=2 => self.beside(LONGEST as i128),
            3 => self.between(0, 70),
            4 => self.between(70, 1_100),
            _ => self.beside((LONGEST_LINE - call.name().len() - 1) as i128),
        };
        let put = self.byte();
        text.resize(length as usize, put);
    }

    /// Years about which the form or the limits turn.
    fn year_to_write(&mut self) -> i128 {
        match self.below(3) {
            0 => self.one_of(&[0, 1, 9_999, 10_000, -1, 99_999, 100_000, -9_999, -10_000, 999_999, -999_999]),
            1 => self.one_of(&[-271_822, -271_821, -271_820, 275_759, 275_760, 275_761]),
            _ => self.signed(275_760),
        }
    }

    fn date_to_write(&mut self) -> [i128; 3] {
        if self.once_in(3) {
            return [self.year_to_write(), self.between(1, 12), self.between(1, 28)];
        }
        self.date()
    }

    /// A time: half of them with a fraction of any length.
    fn time_to_write(&mut self) -> [i128; 6] {
        if self.once_in(2) {
            return self.time();
        }
        let length = self.below(10) as u32;
        let clock = self.between(0, 86_399) * 1_000_000_000;
        time_fields(clock + self.between(0, 10_i128.pow(length) - 1) * 10_i128.pow(9 - length))
    }

    /// How much room is lent for a text; 65 is no room.
    fn room(&mut self, text: &str) -> i128 {
        let length = text.len() as i128;
        let last = LONGEST as i128;
        match self.below(8) {
            0 => self.one_of(&[0, 1, last - 1, last]),
            1..=2 => length - 1,
            3..=4 => length,
            5 => length + 1,
            6 => self.between(0, last),
            _ if self.once_in(16) => last + 1,
            _ => last,
        }
    }

    /// The numbers of a request for a call.
    fn numbers(&mut self, call: Call) -> Vec<i128> {
        match call {
            Call::MonthLength => vec![self.year(), self.month()],
            Call::DateToDay | Call::DateLimits => self.date().to_vec(),
            Call::DayToDate => vec![match self.below(8) {
                0 => self.any64(),
                1 => self.beside(-LAST_BALANCED),
                2 => self.beside(LAST_BALANCED),
                // Where the milliseconds of a day leave 64 bits.
                3 => self.sign() * self.beside(I64.1 / 86_400_000),
                4 => self.signed(1 << 40),
                5 => self.between(-800_000, 800_000),
                _ => self.between(-LAST_BALANCED - 5, LAST_BALANCED + 5),
            }],
            Call::BalanceYearMonth => vec![self.year(), self.far_month()],
            Call::RegulateDate | Call::MakeDate => [&self.date()[..], &[self.overflow()]].concat(),
            Call::BalanceDate => self.balance_inputs().to_vec(),
            Call::RegulateTime => [&self.time()[..], &[self.overflow()]].concat(),
            Call::BalanceTime => self.far_time().to_vec(),
            Call::TimeDifference => [self.time(), self.time()].concat(),
            Call::RoundNumber | Call::RoundNumberAsIfPositive => self.number_to_round().to_vec(),
            Call::RoundTime => {
                let (time, options) = self.time_to_round();
                [&time[..], &options[..]].concat()
            }
            Call::DurationNew | Call::DurationSign | Call::DurationAbs | Call::DurationNegated => {
                self.duration().to_vec()
            }
            Call::DurationAdjust => {
                let (one, two) = (self.duration(), self.duration());
                let given = [self.between(0, 1), self.between(0, 1)];
                [&one[..], &[two[3], given[0], two[2], given[1], two[1]]].concat()
            }
            Call::DateSum => {
                let (date, duration) = self.date_and_duration();
                [&date[..], &duration[..], &[self.overflow()]].concat()
            }
            Call::DateDifference => {
                let (one, two) = self.two_dates();
                let unit = if self.once_in(6) { self.between(4, 9) } else { self.between(0, 3) };
                [&one[..], &two[..], &[unit]].concat()
            }
            Call::DateTimeLimits => self.date_time(),
            Call::BalanceDateTime => self.date_time_balance_inputs(),
            Call::RoundDateTime => {
                let (time, options) = self.time_to_round();
                let mut date_time = self.date_time();
                if !self.once_in(8) {
                    date_time[3..].copy_from_slice(&time);
                }
                [&date_time[..], &options[..]].concat()
            }
            Call::DateTimeDifference => {
                let both = self.two_date_times();
                // Year and month over their share: only they have a trial.
                let unit = if self.once_in(3) { self.between(0, 1) } else { self.between(0, 9) };
                [&both[..], &[unit]].concat()
            }
            Call::DateTimeFromInstant => self.instant().to_vec(),
            // They take a text and nothing before it.
            Call::ReadDate | Call::ReadTime | Call::ReadDateTime => Vec::new(),
            Call::WriteDate => {
                let date = self.date_to_write();
                let room = self.room(&written_date(&date));
                [&date[..], &[room]].concat()
            }
            Call::WriteTime => {
                let time = self.time_to_write();
                let room = self.room(&written_time(&time));
                [&time[..], &[room]].concat()
            }
            Call::WriteDateTime => {
                let both = if self.once_in(2) {
                    self.date_time()
                } else {
                    [&self.date_to_write()[..], &self.time_to_write()[..]].concat()
                };
                let room = self.room(&written_date_time(&both));
                [&both[..], &[room]].concat()
            }
        }
    }

    /// A request for a call.
    fn line(&mut self, call: Call) -> Vec<u8> {
        let mut line = line_of(call, &self.numbers(call));
        if call.kinds().contains(&Kind::Text) {
            line.push(b' ');
            line.extend(self.text(call));
        }
        line
    }

    /// A request made into a line that is none (or, seldom, into another request).
    fn spoil(&mut self, call: Call, line: Vec<u8>) -> Vec<u8> {
        let at = self.below(call.kinds().len() as u64) as usize;
        let mut words: Vec<Vec<u8>> = line.split(|&b| b == b' ').map(<[u8]>::to_vec).collect();
        match self.below(20) {
            0 => return Vec::new(),
            1 => words.push(Vec::new()),
            2 => words.insert(0, Vec::new()),
            3 => words.insert(at + 1, Vec::new()),
            4 => words.push(b"0".to_vec()),
            5 => drop(words.pop()),
            6 => words[at + 1].insert(0, b'+'),
            7 => words[at + 1].insert(0, b'0'),
            8 => words[at + 1] = b"-0".to_vec(),
            9 => words[at + 1] = b"-".to_vec(),
            10 => words[at + 1].push(b'.'),
            11 => words[0].push(b's'),
            12 => words[0].make_ascii_uppercase(),
            13 => words.last_mut().expect("a line has words").push(b'\r'),
            14 => words[at + 1].push(0),
            15 => words[at + 1].extend("é".bytes()),
            16 => words[at + 1] = vec![b'9'; 19 + self.below(40) as usize],
            17 => words[0].push(b'\t'),
            18 => drop(words.drain(1..)),
            _ => match call.kinds()[at].range() {
                // A number next to its type's range, on one side or the other.
                Some((low, high)) => words[at + 1] = self.one_of(&[low - 1, high + 1]).to_string().into_bytes(),
                // A line of one byte too many.
                None => words = vec![call.name().into(), vec![b'0'; LONGEST_LINE - call.name().len()]],
            },
        }
        words.join(&b' ')
    }
}

fn date_fields(day: i128) -> [i128; 3] {
    let (year, month, day) = date_of(day);
    [year, month, day]
}

/// The date of a day number, or of the limit that it lies beyond.
fn date_in_limits(day: i128) -> [i128; 3] {
    date_fields(day.clamp(-LAST_BALANCED, LAST_BALANCED - 1))
}

fn time_fields(nanosecond: i128) -> [i128; 6] {
    [
        nanosecond / 3_600_000_000_000,
        nanosecond / 60_000_000_000 % 60,
        nanosecond / 1_000_000_000 % 60,
        nanosecond / 1_000_000 % 1000,
        nanosecond / 1000 % 1000,
        nanosecond % 1000,
    ]
}

/// The days that six fields of a time come to, rounded down.
fn carry_of(time: &[i128; 6]) -> i128 {
    let nanoseconds: i128 = time.iter().zip(&UNIT_NANOSECONDS[4..]).map(|(n, length)| n * length).sum();
    nanoseconds.div_euclid(DAY_NANOSECONDS)
}
