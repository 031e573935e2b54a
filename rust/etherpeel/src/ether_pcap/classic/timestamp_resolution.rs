//! The resolution of the timestamps of a file.

/// The resolution of a file's timestamps: the unit of the second number of each. The file's magic number gives it.
///
/// ```
/// use etherpeel::ether_pcap::TimestampResolution;
///
/// assert_eq!(TimestampResolution::of_magic(0xA1B2_3C4D), Some(TimestampResolution::Nanoseconds));
/// ```
#[cfg_attr(feature = "serde", derive(serde::Serialize, serde::Deserialize))]
#[derive(Clone, Copy, PartialEq, Eq, Hash, Debug)]
pub enum TimestampResolution {
    /// Microseconds, with the magic number 0xA1B2C3D4.
    Microseconds,
    /// Nanoseconds, with the magic number 0xA1B23C4D.
    Nanoseconds,
}

impl TimestampResolution {
    /// The resolution of a file with this magic number. `None` if the format does not have that magic number.
    ///
    /// <details><summary>Contract</summary>
    ///
    /// ```text
    /// ensures { MatchOption result ((r : Resolution) → magic ≢ magic_of r) (λ resolution. magic
    ///     ≡ magic_of (resolution_of resolution)) }
    /// ```
    ///
    /// Words: [`Resolution`](crate::definitions::ether_pcap#def.Resolution),
    /// [`magic_of`](crate::definitions::ether_pcap#def.magic_of),
    /// [`resolution_of`](crate::definitions::ether_pcap#def.resolution_of). [Notation](crate::definitions::notation)
    ///
    /// </details>
    #[must_use]
    #[inline]
    pub fn of_magic(magic: u32) -> Option<TimestampResolution> {
        match magic {
            0xA1B2_C3D4 => Some(TimestampResolution::Microseconds),
            0xA1B2_3C4D => Some(TimestampResolution::Nanoseconds),
            _ => None,
        }
    }

    /// The magic number of a file with this resolution.
    ///
    /// <details><summary>Contract</summary>
    ///
    /// ```text
    /// ensures { result ≡ magic_of (resolution_of self) }
    /// ```
    ///
    /// Words: [`magic_of`](crate::definitions::ether_pcap#def.magic_of),
    /// [`resolution_of`](crate::definitions::ether_pcap#def.resolution_of). [Notation](crate::definitions::notation)
    ///
    /// </details>
    #[must_use]
    #[inline]
    pub fn magic(self) -> u32 {
        match self {
            TimestampResolution::Microseconds => 0xA1B2_C3D4,
            TimestampResolution::Nanoseconds => 0xA1B2_3C4D,
        }
    }
}
