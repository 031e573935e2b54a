//! The times of frames at a rate.

use crate::ether_make::time_text::Time;

/// A time and so many parts of a second, if a capture can have it.
///
/// <details><summary>Contract</summary>
///
/// ```text
/// ensures { result ≡ (if in_capture (later_in time count rate) then Some (later_in time count rate) else None) }
/// ```
///
/// </details>
pub fn later(time: Time, count: u64, rate: u64) -> Option<Time> {
    let (whole, part) = parts(count, rate);
    let nanoseconds = u64::from(time.nanoseconds) + part;
    let more = u64::from(time.seconds) + nanoseconds / 1_000_000_000;
    match u32::try_from(whole.saturating_add(more)) {
        Ok(seconds) => Some(Time {
            seconds,
            nanoseconds: (nanoseconds % 1_000_000_000) as u32,
        }),
        Err(_) => None,
    }
}

/// The seconds and nanoseconds of so many parts of a second.
fn parts(count: u64, rate: u64) -> (u64, u64) {
    if rate == 0 {
        return (0, 0);
    }
    (count / rate, part(count % rate, rate))
}

/// The nanoseconds of so many parts of a second.
fn part(count: u64, rate: u64) -> u64 {
    match count.checked_mul(1_000_000_000) {
        Some(total) => total / rate,
        None => (u128::from(count) * 1_000_000_000 / u128::from(rate)) as u64,
    }
}
