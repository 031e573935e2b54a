//! How many packets there are, and how many bytes they had.

/// How many packets there are, and how many bytes they had.
#[derive(Clone, Copy, PartialEq, Eq, Debug)]
pub struct Count {
    /// How many packets.
    pub packets: usize,
    /// How many bytes these had.
    pub bytes: usize,
}

impl Count {
    /// The count of one packet that had `bytes` bytes.
    pub(in crate::ether_capture) fn of_packet(bytes: usize) -> Count {
        Count { packets: 1, bytes }
    }

    /// This count with more packets.
    pub(in crate::ether_capture) fn with(self, more: Count) -> Count {
        Count {
            packets: self.packets.saturating_add(more.packets),
            bytes: self.bytes.saturating_add(more.bytes),
        }
    }
}
