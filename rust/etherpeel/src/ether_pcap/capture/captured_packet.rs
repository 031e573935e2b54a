//! A packet of a capture file of either format.
use crate::ether_pcap::{Direction, LinkType, Timestamp};

/// A packet of a capture file of either format, and what the file says of it.
#[derive(Clone, Copy, PartialEq, Eq, Debug)]
pub struct CapturedPacket<'a> {
    /// The time of the capture, rounded down to a nanosecond. `None` for a simple packet of a pcapng file, which has
    /// no time, and if the option `if_tsoffset` of the packet's interface moves the time before 1970 or past the last
    /// 64-bit second.
    pub time: Option<Timestamp>,
    /// The number of the interface that captured the packet, counted from 0 in its section of a pcapng file. `None` in
    /// a classic file.
    pub interface: Option<u32>,
    /// Whether the interface received the packet or sent it, if the packet's flags in a pcapng file say so.
    pub direction: Option<Direction>,
    /// The first comment on the packet in a pcapng file: a text that should be UTF-8, but may hold any byte.
    pub comment: Option<&'a [u8]>,
    /// The length of the packet in bytes before it was cut.
    pub original_len: u32,
    /// What the packet begins with.
    pub link_type: LinkType,
    /// The maximum number of bytes captured of a packet, as the file header or the interface description says; 0 if
    /// there is no limit. A file may break its own limit: then `packet` is longer.
    pub snap_len: u32,
    /// The length in bytes of the frame check sequence at the end of the packet before it was cut, if the packet's
    /// flags, its interface description or the header of a classic file gives it.
    pub fcs_len: Option<u8>,
    /// The captured bytes of the packet.
    pub packet: &'a [u8],
}
