//! How a capture is copied.

/// How the units of a capture are copied.
#[cfg_attr(feature = "serde", derive(serde::Serialize, serde::Deserialize))]
#[derive(Clone, Copy, PartialEq, Eq, Hash, Debug)]
pub enum CopyMode {
    /// Byte for byte.
    Exact,
    /// As another capture: some packets are left out or edited.
    Changed {
        /// By how many bytes snap lengths are raised: the most bytes that an edit adds to a packet.
        raise: u32,
    },
}
