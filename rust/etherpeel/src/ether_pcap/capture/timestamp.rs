//! The time of a capture.

/// The time of a capture, counted from the beginning of 1970, UTC.
///
/// ```
/// use etherpeel::ether_pcap::Timestamp;
///
/// let early = Timestamp {
///     seconds: 1_700_000_000,
///     nanoseconds: 5_000,
/// };
/// assert_eq!(early.nanoseconds, 5_000);
/// ```
#[cfg_attr(feature = "serde", derive(serde::Serialize, serde::Deserialize))]
#[derive(Clone, Copy, PartialEq, Eq, Hash, Debug)]
pub struct Timestamp {
    /// The whole seconds.
    pub seconds: u64,
    /// The nanoseconds after them. Less than 1,000,000,000 in each time that a reader returns.
    pub nanoseconds: u32,
}

impl Timestamp {
    /// The time of a number of nanoseconds since the beginning of 1970, UTC.
    #[inline]
    pub(in crate::ether_pcap) fn from_nanoseconds(nanoseconds: u64) -> Timestamp {
        Timestamp {
            seconds: nanoseconds / 1_000_000_000,
            nanoseconds: (nanoseconds % 1_000_000_000) as u32,
        }
    }
}
