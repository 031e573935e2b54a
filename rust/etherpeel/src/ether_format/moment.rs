//! A time as a date and a time of day.

/// A time as a date of the Gregorian calendar and a time of day (ISO 8601), in Coordinated Universal Time.
#[derive(Clone, Copy, PartialEq, Eq, Hash, Debug)]
pub struct Moment {
    /// The seconds since the beginning of 1970.
    pub seconds: u64,
    /// The year, 1970 at least.
    pub year: u64,
    /// The month, 1 to 12.
    pub month: u8,
    /// The day of the month, from 1 on.
    pub day: u8,
    /// The hour, 0 to 23.
    pub hour: u8,
    /// The minute, 0 to 59.
    pub minute: u8,
    /// The second, 0 to 59.
    pub second: u8,
    /// The nanoseconds after it, as the capture has them.
    pub nanoseconds: u32,
}
