//! What lines leave to the lines after them.

use crate::ether_make::pace::later;
use crate::ether_make::time_text::Time;
use crate::ether_make::random::SeedableRng;
use crate::ether_make::random::SplitMix64;

/// What the times of frames at a rate depend on.
#[derive(Clone, Copy, PartialEq, Eq, Debug)]
pub struct Pace {
    /// The time of the first frame of all.
    pub start: Time,
    /// How many frames precede.
    pub sent: u64,
}

/// What lines leave to the lines after them.
#[derive(Debug)]
pub struct Progress {
    /// The link type of all frames, if there is one.
    pub link: Option<u16>,
    /// What times depend on, if there is a rate and a frame.
    pub pace: Option<Pace>,
    /// What random numbers are drawn from.
    pub generator: SplitMix64,
}

impl Progress {
    /// Nothing precedes.
    ///
    /// <details><summary>Contract</summary>
    ///
    /// ```text
    /// ensures { progress_view result ≡ beginning seed }
    /// ```
    ///
    /// </details>
    pub fn new(seed: u64) -> Progress {
        Progress {
            link: None,
            pace: None,
            generator: SplitMix64::seed_from_u64(seed),
        }
    }
}

/// Whether a capture can have the times of so many frames of a line.
///
/// <details><summary>Contract</summary>
///
/// ```text
/// ensures { result ≡ is_timely_at rate pace time count }
/// ```
///
/// </details>
pub fn is_timely(rate: Option<u64>, pace: Option<Pace>, time: Time, count: u64) -> bool {
    let Some(rate) = rate else {
        return true;
    };
    if sent_before(pace).checked_add(count).is_none() {
        return false;
    }
    rated_time(rate, pace, time, count.saturating_sub(1)).is_some()
}

/// The time of a frame of a line.
///
/// # Panics
///
/// The call may panic, or return something else, if a `requires` of its contract is not met.
///
/// <details><summary>Contract</summary>
///
/// ```text
/// requires { is_timely_at rate pace time (index + 1) ≡ true }
/// ensures { result ≡ time_at_in rate pace time index }
/// ```
///
/// </details>
pub fn time_at(rate: Option<u64>, pace: Option<Pace>, time: Time, index: u64) -> Time {
    match rate {
        Some(rate) => rated_time(rate, pace, time, index).unwrap_or(time),
        None => time,
    }
}

/// The time of a frame of a line at a rate, if a capture can have it.
fn rated_time(rate: u64, pace: Option<Pace>, time: Time, index: u64) -> Option<Time> {
    match pace {
        Some(pace) => later(pace.start, pace.sent + index, rate),
        None => later(time, index, rate),
    }
}

/// How many frames precede a line.
fn sent_before(pace: Option<Pace>) -> u64 {
    match pace {
        Some(pace) => pace.sent,
        None => 0,
    }
}

/// What times depend on after so many frames of a line.
///
/// # Panics
///
/// The call may panic, or return something else, if a `requires` of its contract is not met.
///
/// <details><summary>Contract</summary>
///
/// ```text
/// requires { is_timely_at rate pace time count ≡ true }
/// ensures { result ≡ paced_in rate count time pace }
/// ```
///
/// </details>
pub fn paced(rate: Option<u64>, count: u64, time: Time, pace: Option<Pace>) -> Option<Pace> {
    if rate.is_none() {
        return pace;
    }
    match pace {
        Some(pace) => Some(Pace {
            start: pace.start,
            sent: pace.sent + count,
        }),
        None => Some(Pace {
            start: time,
            sent: count,
        }),
    }
}
