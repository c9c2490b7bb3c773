//! The requests for date text that go through every place, length, room and digit in turn, where a draw would leave some
//! out. They follow a call's fixed lines. rust/answers stores 400 lines of a call; these are to be among them.

use crate::text::{written_date, written_date_time, written_time, LONGEST};
use crate::Call;

/// The swept requests of a call; only the readers and the writers of text have any.
pub fn swept(call: Call) -> Vec<Vec<u8>> {
    match call {
        Call::ReadDate => read(call, &["2024-02-29", "-271821-04-19"]),
        Call::ReadTime => read(call, &["12:34:56.123456789", "23:59:60", "23:59"]),
        Call::ReadDateTime => read(call, &["-012345-06-17T08:29:38.123456789", "2024-02-29T12:34"]),
        Call::WriteDate => write(call, &dates(), written_date),
        Call::WriteTime => write(call, &times(), written_time),
        Call::WriteDateTime => write(call, &date_times(), written_date_time),
        _ => Vec::new(),
    }
}

// ---- Reading ----

/// The first text is damaged in every way, and its lengths are gone through.
fn read(call: Call, good: &[&str]) -> Vec<Vec<u8>> {
    let mut texts = of_each_length(good[0].as_bytes());
    for (at, text) in good.iter().enumerate() {
        texts.extend(damaged(text.as_bytes(), at == 0));
    }
    texts.iter().map(|text| [call.name().as_bytes(), b" ", text].concat()).collect()
}

/// A good text with each of its bytes replaced by the next one of its kind, and dropped; in every way, also replaced by
/// bytes that are just no digits or no such separator, and doubled.
fn damaged(good: &[u8], in_every_way: bool) -> Vec<Vec<u8>> {
    let mut texts = Vec::new();
    for (at, &byte) in good.iter().enumerate() {
        let (next, others) = if byte.is_ascii_digit() {
            (b'0' + (byte - b'0' + 1) % 10, [b'0' - 1, b'9' + 1])
        } else {
            // The last is the small letter for the capital one, and a control character for the others.
            (byte + 1, [byte - 1, byte ^ 0x20])
        };
        let puts: [&[u8]; 5] = [&[next], &[], &others[..1], &others[1..], &[byte, byte]];
        let ways = if in_every_way { puts.len() } else { 2 };
        texts.extend(puts[..ways].iter().map(|put| [&good[..at], put, &good[at + 1..]].concat()));
    }
    texts
}

/// For each length, up to past the longest that is looked at: digits alone, and a good text cut short or drawn out.
fn of_each_length(good: &[u8]) -> Vec<Vec<u8>> {
    let mut texts = Vec::new();
    for length in 0..=LONGEST + 2 {
        texts.push(b"0123456789".iter().copied().cycle().take(length).collect());
        texts.push(good.iter().copied().chain(std::iter::repeat(b'0')).take(length).collect());
    }
    texts
}

// ---- Writing ----

/// The first record with every room there is, the others with a room that is one too small, just right, and none.
fn write(call: Call, records: &[Vec<i128>], written: fn(&[i128]) -> String) -> Vec<Vec<u8>> {
    let mut lines = Vec::new();
    let mut ask = |record: &[i128], room: usize| {
        let mut line = call.name().to_string();
        for number in record {
            line.push_str(&format!(" {number}"));
        }
        lines.push(format!("{line} {room}").into_bytes());
    };
    for room in 0..=LONGEST {
        ask(&records[0], room);
    }
    for record in &records[1..] {
        let length = written(record).len();
        for room in [length - 1, length, 0] {
            ask(record, room);
        }
    }
    lines
}

/// Dates whose texts have years of every length, the ends of the limits, and each field at its ends and beyond.
fn dates() -> Vec<Vec<i128>> {
    let years = [0, 7, 42, 365, 9_999, 10_000, 99_999, 100_000, 275_759, -1, -42, -9_999, -10_000, -99_999, -271_820];
    let edges = [
        [-271_821, 4, 18],
        [-271_821, 4, 19],
        [-271_821, 4, 20],
        [275_760, 9, 12],
        [275_760, 9, 13],
        [275_760, 9, 14],
        [999_999, 12, 31],
        [-999_999, 1, 1],
        [1_000_000, 1, 1],
        [i32::MAX.into(), 12, 31],
        [i32::MIN.into(), 1, 1],
        [2024, 0, 1],
        [2024, 13, 1],
        [2024, 255, 1],
        [2024, 1, 0],
        [2024, 1, 32],
        [2024, 1, 255],
        [2023, 2, 29],
        [2024, 2, 30],
        [1900, 2, 29],
        [2000, 2, 29],
        [2024, 4, 31],
        // Both wrong: the fields are looked at before the limits.
        [999_999, 13, 1],
    ];
    let months = (1..=12).map(|month| [1970, month, 9 + month]);
    let first = [2024, 2, 29];
    let all = [first].into_iter().chain(years.map(|year| [year, 11, 30])).chain(edges).chain(months);
    all.map(|date| date.to_vec()).collect()
}

/// Valid times whose fractions have every length.
fn fractions() -> Vec<Vec<i128>> {
    let mut times = vec![vec![12, 34, 56, 123, 456, 789]];
    // A digit at each place of the fraction, first alone and then with nines before it.
    for place in 1..=9 {
        let unit = 10_i128.pow(9 - place);
        for nanoseconds in [unit, 1_000_000_000 - unit] {
            times.push(vec![0, 0, 0, nanoseconds / 1_000_000, nanoseconds / 1_000 % 1_000, nanoseconds % 1_000]);
        }
    }
    times.extend([
        vec![0; 6],
        vec![23, 59, 59, 999, 999, 999],
        vec![9, 8, 7, 60, 50, 40],
        vec![10, 20, 30, 400, 0, 500],
    ]);
    times
}

/// Times with one field at its ends, one past its last value, and at the end of its type.
fn edges_of_times() -> Vec<Vec<i128>> {
    let widths: [(i128, i128); 6] = [(23, 255), (59, 255), (59, 255), (999, 65_535), (999, 65_535), (999, 65_535)];
    let mut times = Vec::new();
    for (at, (last, most)) in widths.into_iter().enumerate() {
        for field in [1, last, last + 1, most] {
            let mut time = vec![0; 6];
            time[at] = field;
            times.push(time);
        }
    }
    times
}

fn times() -> Vec<Vec<i128>> {
    [fractions(), edges_of_times()].concat()
}

/// The ends of the limits, every date with a valid time, and every edge of a time with a valid date.
fn date_times() -> Vec<Vec<i128>> {
    let mut all = vec![
        vec![275_760, 9, 13, 23, 59, 59, 999, 999, 999],
        vec![275_760, 9, 14, 0, 0, 0, 0, 0, 0],
        vec![-271_821, 4, 18, 23, 59, 59, 999, 999, 999],
        vec![-271_821, 4, 19, 0, 0, 0, 0, 0, 0],
        vec![-271_821, 4, 19, 0, 0, 0, 0, 0, 1],
        // Both wrong: the fields are looked at before the limits.
        vec![-271_821, 4, 18, 24, 0, 0, 0, 0, 0],
    ];
    let turn = fractions().into_iter().cycle();
    all.extend(dates().into_iter().zip(turn).map(|(date, time)| [date, time].concat()));
    all.extend(edges_of_times().into_iter().map(|time| [vec![-1, 12, 31], time].concat()));
    all
}
