//! Where a header is.

/// Where a header is in its packet, in bytes.
#[derive(Clone, Copy, Debug)]
pub struct Place {
    /// Where it starts.
    pub(in crate::ether_format) start: usize,
    /// Where it ends, and its payload starts.
    pub(in crate::ether_format) header_end: usize,
    /// Where its payload ends.
    pub(in crate::ether_format) payload_end: usize,
    /// Whether bytes appended to the packet would lie outside its payload.
    pub(in crate::ether_format) closed: bool,
}
