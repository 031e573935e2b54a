//! Whether a packet matches, as far as its captured bytes tell.

/// Whether a packet matches, as far as its captured bytes tell.
#[cfg_attr(feature = "serde", derive(serde::Serialize, serde::Deserialize))]
#[derive(Clone, Copy, PartialEq, Eq, Hash, Debug)]
pub enum Decision {
    /// It matches, whatever the missing bytes are.
    Matches,
    /// It does not match, whatever the missing bytes are.
    Fails,
    /// It is unknown whether it matches, and remains unknown while fewer bytes of the frame than these are captured.
    Needs(usize),
}

impl Default for Decision {
    #[inline]
    fn default() -> Decision {
        Decision::Fails
    }
}
