//! Month lengths and day numbers by the calendar equations of ECMA-262, over whole numbers too wide to overflow here.
//! They stand in for the Rust's own, whose text is missing, and serve the maker of requests and the judge.

pub fn is_leap_year(year: i128) -> bool {
    year.rem_euclid(4) == 0 && (year.rem_euclid(100) != 0 || year.rem_euclid(400) == 0)
}

/// The length of a month from 1 to 12.
pub fn month_length(year: i128, month: i128) -> i128 {
    match month {
        4 | 6 | 9 | 11 => 30,
        2 => 28 + i128::from(is_leap_year(year)),
        1..=12 => 31,
        _ => panic!("a month has to be one of the twelve"),
    }
}

/// The number of the year's first day; day 0 is 1970-01-01.
pub fn first_of_year(year: i128) -> i128 {
    365 * (year - 1970) + (year - 1969).div_euclid(4) - (year - 1901).div_euclid(100) + (year - 1601).div_euclid(400)
}

/// Any month as a year and one of its twelve months: month 0 is the December before.
pub fn balance_year_month(year: i128, month: i128) -> (i128, i128) {
    (year + (month - 1).div_euclid(12), (month - 1).rem_euclid(12) + 1)
}

/// The day number of a year, any month and any day counted on from that month's first.
pub fn day_number(year: i128, month: i128, day: i128) -> i128 {
    let (year, month) = balance_year_month(year, month);
    let before: i128 = (1..month).map(|m| month_length(year, m)).sum();
    first_of_year(year) + before + day - 1
}

/// The date of a day number: the year whose span holds it, the month whose span holds the rest, the day that is left.
pub fn date_of(day: i128) -> (i128, i128, i128) {
    // 146,097 days are 400 years, so the guess is off by a year at most.
    let mut year = 1970 + (day * 400).div_euclid(146_097);
    while first_of_year(year) > day {
        year -= 1;
    }
    while first_of_year(year + 1) <= day {
        year += 1;
    }
    let mut left = day - first_of_year(year);
    let mut month = 1;
    while month_length(year, month) <= left {
        left -= month_length(year, month);
        month += 1;
    }
    (year, month, left + 1)
}
