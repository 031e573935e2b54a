//! Times as dates and times of day.

use crate::ether_format::Moment;
use crate::ether_pcap::Timestamp;

/// The number of days from 1 January of the year 1 to 1 January 1970.
const DAYS_BEFORE_1970: u64 = 719_162;

/// The number of days of 400 years, of a century whose last year is not a leap year, and of four years with one leap
/// year.
const DAYS_OF_400_YEARS: u64 = 146_097;

const DAYS_OF_100_YEARS: u64 = 36_524;

const DAYS_OF_4_YEARS: u64 = 1_461;

/// The date and the time of day of a time since 1970.
#[inline]
pub(in crate::ether_format) fn moment_of(time: Timestamp) -> Moment {
    let (year, month, day) = date_of(DAYS_BEFORE_1970 + time.seconds / 86_400);
    let seconds = time.seconds % 86_400;
    Moment {
        seconds: time.seconds,
        year,
        month,
        day,
        hour: (seconds / 3_600) as u8,
        minute: (seconds / 60 % 60) as u8,
        second: (seconds % 60) as u8,
        nanoseconds: time.nanoseconds,
    }
}

/// The year, month and day of the day that is `days` days after 1 January of the year 1.
#[inline]
fn date_of(days: u64) -> (u64, u8, u8) {
    let (year, day_of_year) = year_of(days);
    let (month, day) = month_of(is_leap_year(year), day_of_year);
    (year, month, day)
}

/// The year of the day that is `days` days after 1 January of the year 1, and the number of days of that year before
/// it.
#[inline(always)]
fn year_of(days: u64) -> (u64, u64) {
    let in_400_years = days % DAYS_OF_400_YEARS;
    let centuries = (in_400_years / DAYS_OF_100_YEARS).min(3);
    let in_century = in_400_years - centuries * DAYS_OF_100_YEARS;
    let fours = in_century / DAYS_OF_4_YEARS;
    let in_4_years = in_century % DAYS_OF_4_YEARS;
    let years = (in_4_years / 365).min(3);
    let before = days / DAYS_OF_400_YEARS * 400 + centuries * 100 + fours * 4 + years;
    (before + 1, in_4_years - years * 365)
}

/// Whether a year is a leap year.
#[inline]
fn is_leap_year(year: u64) -> bool {
    year % 4 == 0 && (year % 100 != 0 || year % 400 == 0)
}

/// The month and the day of the month, both counted from 1, of a day of a year, which is counted from 0.
#[inline]
fn month_of(is_leap: bool, day_of_year: u64) -> (u8, u8) {
    let lens = month_lens(is_leap);
    let mut left = day_of_year;
    let mut month = 0;
    while left >= u64::from(lens[month]) {
        left -= u64::from(lens[month]);
        month += 1;
    }
    (month as u8 + 1, left as u8 + 1)
}

/// The number of days of each month.
#[inline(always)]
fn month_lens(is_leap: bool) -> [u8; 12] {
    let february = if is_leap { 29 } else { 28 };
    [31, february, 31, 30, 31, 30, 31, 31, 30, 31, 30, 31]
}
