//! The intervals in which packets are counted.

/// An interval of a time: its minute, its hour or its day.
#[derive(Clone, Copy)]
pub(in crate::ether_format) enum Interval {
    Minute,
    Hour,
    Day,
}
