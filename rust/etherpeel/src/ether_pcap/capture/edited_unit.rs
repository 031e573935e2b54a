//! The unit of a packet after an edit.

/// The unit of a packet after an edit: the bytes of these fields, in order.
#[derive(Clone, Copy, PartialEq, Eq, Debug)]
pub enum EditedUnit<'a> {
    /// A record of a classic file.
    Record {
        /// Seconds, fraction, captured length and original length.
        header: [u8; 16],
        /// The captured bytes.
        packet: &'a [u8],
    },
    /// An enhanced packet block, or an obsolete packet block, of a pcapng file.
    Block {
        /// Block type, total length, interface, time, captured length and original length.
        header: [u8; 28],
        /// The captured bytes.
        packet: &'a [u8],
        /// The number of zeros after the captured bytes, at most 3.
        padding_len: usize,
        /// The options, unchanged.
        options: &'a [u8],
        /// The total length again.
        trailer: [u8; 4],
    },
}
