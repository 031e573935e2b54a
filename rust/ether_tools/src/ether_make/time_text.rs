//! Times as texts.

use crate::ether_make::refusal::Reason;
use crate::ether_make::json::Value;

/// A time since the beginning of 1970.
#[derive(Clone, Copy, PartialEq, Eq, Debug)]
pub struct Time {
    /// The whole seconds.
    pub seconds: u32,
    /// The nanoseconds after them.
    pub nanoseconds: u32,
}

/// The number of seconds from 1 January of the year 1 to 1 January 1970.
const SECONDS_BEFORE_1970: u64 = 62_135_596_800;

/// The time that a value is: a date and a time of day in UTC, as `2026-11-01T00:00:00.5Z`, with up to nine decimals of
/// the second. Without a value it is the beginning of 1970.
///
/// <details><summary>Contract</summary>
///
/// ```text
/// ensures { result ≡ time_of_value (option_map (λ v. view v.now) value.entry) }
/// ```
///
/// </details>
pub fn given_time(value: Option<&Value>) -> Result<Time, Reason> {
    let Some(value) = value else {
        return Ok(Time {
            seconds: 0,
            nanoseconds: 0,
        });
    };
    match value.as_str() {
        Some(text) => time_of(text.as_bytes()),
        None => Err(Reason::NotAText),
    }
}

/// The time that a text is.
fn time_of(text: &[u8]) -> Result<Time, Reason> {
    if text.len() < 20 {
        return Err(Reason::NotATime);
    }
    time_at(&text[..19], decimals_of(&text[19..]))
}

/// The time of a date and a time of day with decimals, if these are decimals.
fn time_at(text: &[u8], decimals: Option<u32>) -> Result<Time, Reason> {
    if !is_moment(text) {
        return Err(Reason::NotATime);
    }
    match decimals {
        Some(nanoseconds) => in_capture(seconds_of(text), nanoseconds),
        None => Err(Reason::NotATime),
    }
}

/// The time of so many seconds since the year 1, if a capture can have it.
fn in_capture(seconds: u64, nanoseconds: u32) -> Result<Time, Reason> {
    if seconds < SECONDS_BEFORE_1970 || seconds - SECONDS_BEFORE_1970 >= 1 << 32 {
        return Err(Reason::OtherTime);
    }
    Ok(Time {
        seconds: (seconds - SECONDS_BEFORE_1970) as u32,
        nanoseconds,
    })
}

/// Whether a text is a date and a time of day.
fn is_moment(text: &[u8]) -> bool {
    are_digits(text) && are_signs(text) && is_date(text) && is_time_of_day(text)
}

/// Whether there is such a date.
fn is_date(text: &[u8]) -> bool {
    let month = two_at(text, 5);
    if month < 1 || month > 12 {
        return false;
    }
    let day = two_at(text, 8);
    day >= 1 && day <= month_len(is_leap_year(year_of(text)), month)
}

/// Whether there is such a time of day.
fn is_time_of_day(text: &[u8]) -> bool {
    two_at(text, 11) < 24 && two_at(text, 14) < 60 && two_at(text, 17) < 60
}

/// The number of seconds from the beginning of the year 1 to a date and a time of day.
fn seconds_of(text: &[u8]) -> u64 {
    let year = year_of(text);
    let months = days_before_month(is_leap_year(year), two_at(text, 5));
    let days = days_before_year(year) + months + (two_at(text, 8) - 1);
    days * 86_400 + two_at(text, 11) * 3_600 + two_at(text, 14) * 60 + two_at(text, 17)
}

/// The year of a date.
fn year_of(text: &[u8]) -> u64 {
    two_at(text, 0) * 100 + two_at(text, 2)
}

/// Whether the digits of a date and a time of day are in their places.
fn are_digits(text: &[u8]) -> bool {
    is_digit(text[0])
        && is_digit(text[1])
        && is_digit(text[2])
        && is_digit(text[3])
        && is_digit(text[5])
        && is_digit(text[6])
        && is_digit(text[8])
        && is_digit(text[9])
        && is_digit(text[11])
        && is_digit(text[12])
        && is_digit(text[14])
        && is_digit(text[15])
        && is_digit(text[17])
        && is_digit(text[18])
}

/// Whether the signs between them are in their places.
fn are_signs(text: &[u8]) -> bool {
    text[4] == b'-' && text[7] == b'-' && text[10] == b'T' && text[13] == b':' && text[16] == b':'
}

/// Whether a character is a decimal digit.
fn is_digit(byte: u8) -> bool {
    byte >= b'0' && byte.saturating_sub(b'0') < 10
}

/// The number of the two digits from a place on.
fn two_at(text: &[u8], at: usize) -> u64 {
    u64::from(text[at].saturating_sub(b'0')) * 10 + u64::from(text[at + 1].saturating_sub(b'0'))
}

/// Whether a year is a leap year.
fn is_leap_year(year: u64) -> bool {
    year % 4 == 0 && (year % 100 != 0 || year % 400 == 0)
}

/// The number of days of a month.
fn month_len(is_leap: bool, month: u64) -> u64 {
    let february = if is_leap { 29 } else { 28 };
    let lens = [31, february, 31, 30, 31, 30, 31, 31, 30, 31, 30, 31];
    lens[month as usize - 1]
}

/// The number of days of a year before a month.
fn days_before_month(is_leap: bool, month: u64) -> u64 {
    let days = if is_leap {
        [0, 31, 60, 91, 121, 152, 182, 213, 244, 274, 305, 335]
    } else {
        [0, 31, 59, 90, 120, 151, 181, 212, 243, 273, 304, 334]
    };
    days[month as usize - 1]
}

/// The number of days from 1 January of the year 1 to 1 January of a year.
fn days_before_year(year: u64) -> u64 {
    let years = year.saturating_sub(1);
    365 * years + (years / 4 - years / 100 + years / 400)
}

/// The nanoseconds after the second: up to nine decimals after a point, if there are any, and `Z`.
fn decimals_of(text: &[u8]) -> Option<u32> {
    let len = text.len();
    if len == 1 && text[0] == b'Z' {
        return Some(0);
    }
    if len < 3 || text[0] != b'.' || len > 11 || text[len - 1] != b'Z' {
        return None;
    }
    fraction_of(&text[1..len - 1])
}

/// The nanoseconds of decimals.
fn fraction_of(decimals: &[u8]) -> Option<u32> {
    let mut nanoseconds = 0;
    let mut unit = 100_000_000;
    for c in decimals {
        if !is_digit(*c) {
            return None;
        }
        nanoseconds += u32::from(c.saturating_sub(b'0')) * unit;
        unit /= 10;
    }
    Some(nanoseconds)
}
