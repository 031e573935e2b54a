//! Times as words.

use crate::ether_filter::numeral::decimal_of;

/// The number of days from 1 January of the year 1 to 1 January 1970.
const DAYS_BEFORE_1970: u64 = 719_162;

/// The time that a word is, as the nanoseconds since the beginning of 1970: a date and a time of day in UTC, as
/// `2026-11-01T00:00:00Z`, with up to nine decimals of the second, between quotation marks or without.
#[inline]
pub(in crate::ether_filter) fn time_of(word: &[u8]) -> Option<u64> {
    nanoseconds_of(unquoted(word))
}

/// What is between two quotation marks, or the whole word.
#[inline]
fn unquoted(word: &[u8]) -> &[u8] {
    let len = word.len();
    if len >= 2 && word[0] == b'"' && word[len - 1] == b'"' {
        return &word[1..len - 1];
    }
    word
}

/// The time that a text without quotation marks is.
#[inline]
fn nanoseconds_of(text: &[u8]) -> Option<u64> {
    if text.len() < 20 {
        return None;
    }
    nanoseconds_with(seconds_of(&text[..19]), decimals_of(&text[19..]))
}

/// The nanoseconds of whole seconds and of what is after them, if both are there.
#[inline]
fn nanoseconds_with(seconds: Option<u64>, decimals: Option<u64>) -> Option<u64> {
    match (seconds, decimals) {
        (Some(seconds), Some(decimals)) => Some(seconds * 1_000_000_000 + decimals),
        _ => None,
    }
}

/// The seconds since the beginning of 1970, of a date and a time of day.
#[inline]
fn seconds_of(text: &[u8]) -> Option<u64> {
    if !(are_digits(text) && are_signs(text) && is_time(text)) {
        return None;
    }
    match days_at(text) {
        Some(days) => Some(days * 86_400 + second_of_day(text)),
        None => None,
    }
}

/// Whether there is such a time of day.
#[inline]
fn is_time(text: &[u8]) -> bool {
    two_at(text, 11) < 24 && two_at(text, 14) < 60 && two_at(text, 17) < 60
}

/// The number of seconds from midnight to a time of day.
#[inline]
fn second_of_day(text: &[u8]) -> u64 {
    two_at(text, 11) * 3_600 + two_at(text, 14) * 60 + two_at(text, 17)
}

/// The number of days from the beginning of 1970 to the date of a text.
#[inline]
fn days_at(text: &[u8]) -> Option<u64> {
    let year = two_at(text, 0) * 100 + two_at(text, 2);
    days_of(year, two_at(text, 5), two_at(text, 8))
}

/// Whether the digits of a date and a time of day are in their places.
#[inline]
fn are_digits(text: &[u8]) -> bool {
    is_digit(text[0])
        && is_digit(text[1])
        && is_digit(text[2])
        && is_digit(text[3])
        && is_digit(text[5])
        && is_digit(text[6])
        && is_digit(text[8])
        && is_digit(text[9])
        && is_digit(text[11])
        && is_digit(text[12])
        && is_digit(text[14])
        && is_digit(text[15])
        && is_digit(text[17])
        && is_digit(text[18])
}

/// Whether the signs between them are in their places.
#[inline]
fn are_signs(text: &[u8]) -> bool {
    text[4] == b'-' && text[7] == b'-' && text[10] == b'T' && text[13] == b':' && text[16] == b':'
}

/// Whether a character is a decimal digit.
#[inline]
fn is_digit(byte: u8) -> bool {
    byte >= b'0' && byte.saturating_sub(b'0') < 10
}

/// The number of the two digits from a place on.
#[inline]
fn two_at(text: &[u8], at: usize) -> u64 {
    u64::from(text[at].saturating_sub(b'0')) * 10 + u64::from(text[at + 1].saturating_sub(b'0'))
}

/// The number of days from the beginning of 1970 to a date, if there is one, and it is before 2554.
#[inline]
fn days_of(year: u64, month: u64, day: u64) -> Option<u64> {
    if year < 1970 || month < 1 || year >= 2554 || month > 12 {
        return None;
    }
    let is_leap = is_leap_year(year);
    if day < 1 || day > month_len(is_leap, month) {
        return None;
    }
    let days = days_before_year(year) + days_before_month(is_leap, month) + (day - 1);
    Some(days - DAYS_BEFORE_1970)
}

/// Whether a year is a leap year.
#[inline]
fn is_leap_year(year: u64) -> bool {
    year % 4 == 0 && (year % 100 != 0 || year % 400 == 0)
}

/// The number of days of a month.
#[inline]
fn month_len(is_leap: bool, month: u64) -> u64 {
    let february = if is_leap { 29 } else { 28 };
    let lens = [31, february, 31, 30, 31, 30, 31, 31, 30, 31, 30, 31];
    lens[month as usize - 1]
}

/// The number of days of a year before a month.
#[inline]
fn days_before_month(is_leap: bool, month: u64) -> u64 {
    let days = if is_leap {
        [0, 31, 60, 91, 121, 152, 182, 213, 244, 274, 305, 335]
    } else {
        [0, 31, 59, 90, 120, 151, 181, 212, 243, 273, 304, 334]
    };
    days[month as usize - 1]
}

/// The number of days from 1 January of the year 1 to 1 January of a year.
#[inline]
fn days_before_year(year: u64) -> u64 {
    let years = year - 1;
    365 * years + (years / 4 - years / 100 + years / 400)
}

/// The nanoseconds after the second: up to nine decimals after a point, if there are any, and `Z`.
#[inline]
fn decimals_of(text: &[u8]) -> Option<u64> {
    let len = text.len();
    if len == 1 && text[0] == b'Z' {
        return Some(0);
    }
    if len < 3 || text[0] != b'.' || len > 11 || text[len - 1] != b'Z' {
        return None;
    }
    decimal_of(&nine_digits(&text[1..len - 1]))
}

/// Decimals of the second, with zeros after them.
#[inline]
fn nine_digits(decimals: &[u8]) -> [u8; 9] {
    let mut digits = *b"000000000";
    digits[..decimals.len()].copy_from_slice(decimals);
    digits
}
