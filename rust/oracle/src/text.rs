//! Date text by the rules (docs/RULES.md): what a well-formed text says, and the form that a record is written in.
//!
//! The parser that the Rust leans on is not at hand, so this stands in for it; the maker of requests and the judge use it
//! too. A text is taken apart at its separators and by the lengths of its parts. Nothing here looks at what a field says.

/// As many bytes as a text may have, and as the console lends.
pub const LONGEST: usize = 64;

/// Year, month and day of a date's text.
pub fn said_date(text: &[u8]) -> Option<[i128; 3]> {
    // What follows the year has six bytes; a year has four digits, or a sign and six.
    let (year, [b'-', m1, m2, b'-', d1, d2]) = text.split_last_chunk::<6>()? else {
        return None;
    };
    let year = match year {
        b"-000000" => return None,
        [_, _, _, _] => digits(year)?,
        [b'+', size @ ..] if size.len() == 6 => digits(size)?,
        [b'-', size @ ..] if size.len() == 6 => -digits(size)?,
        _ => return None,
    };
    Some([year, digits(&[*m1, *m2])?, digits(&[*d1, *d2])?])
}

/// Hour, minute, second and nanoseconds of a time's text; what it leaves out is 0.
pub fn said_time(text: &[u8]) -> Option<[i128; 4]> {
    let (clock, nanoseconds) = match text.iter().position(|&b| b == b'.') {
        None => (text, 0),
        // A point follows seconds only, and one to nine digits follow it.
        Some(8) if (10..=18).contains(&text.len()) => {
            let fraction = &text[9..];
            (&text[..8], digits(fraction)? * 10_i128.pow(9 - fraction.len() as u32))
        }
        Some(_) => return None,
    };
    match clock {
        [h1, h2, b':', m1, m2] => Some([digits(&[*h1, *h2])?, digits(&[*m1, *m2])?, 0, nanoseconds]),
        [h1, h2, b':', m1, m2, b':', s1, s2] => {
            Some([digits(&[*h1, *h2])?, digits(&[*m1, *m2])?, digits(&[*s1, *s2])?, nanoseconds])
        }
        _ => None,
    }
}

/// Both parts of the text of a date with a time.
pub fn said_date_time(text: &[u8]) -> Option<([i128; 3], [i128; 4])> {
    let at = text.iter().position(|&b| b == b'T')?;
    Some((said_date(&text[..at])?, said_time(&text[at + 1..])?))
}

fn digits(text: &[u8]) -> Option<i128> {
    text.iter().try_fold(0, |n, b| b.is_ascii_digit().then(|| n * 10 + i128::from(b - b'0')))
}

/// The one shortest text of a year: four digits where they do, else a sign and six.
pub fn written_year(year: i128) -> String {
    if (0..=9999).contains(&year) {
        format!("{year:04}")
    } else {
        format!("{year:+07}")
    }
}

pub fn written_date(n: &[i128]) -> String {
    format!("{}-{:02}-{:02}", written_year(n[0]), n[1], n[2])
}

/// Seconds are always written, a fraction without its trailing zeros.
pub fn written_time(n: &[i128]) -> String {
    let clock = format!("{:02}:{:02}:{:02}", n[0], n[1], n[2]);
    let fraction = format!("{:03}{:03}{:03}", n[3], n[4], n[5]);
    match fraction.trim_end_matches('0') {
        "" => clock,
        left => format!("{clock}.{left}"),
    }
}

pub fn written_date_time(n: &[i128]) -> String {
    format!("{}T{}", written_date(n), written_time(&n[3..]))
}
