//! A packet of a capture file, as a struct of C.

use etherpeel::ether_pcap::{CapturedPacket, LinkType, Timestamp};

/// A packet of a capture file: `etherpeel_captured` in C.
#[repr(C)]
#[derive(Clone, Copy)]
pub struct EtherCaptured<'a> {
    /// The captured bytes of the packet, inside the file.
    pub packet: &'a [u8],
    /// The time of the capture in whole seconds since 1970, UTC; 0 if there is no time.
    pub seconds: u64,
    /// The nanoseconds after them.
    pub nanoseconds: u32,
    /// The length of the packet in bytes before it was cut.
    pub original_len: u32,
    /// What the packet begins with: a `LINKTYPE_` number.
    pub link_type: u16,
    /// 1 if the packet has a time, else 0.
    pub has_time: u8,
    /// 1 if the file gives the length of the frame check sequence, else 0.
    pub has_fcs_len: u8,
    /// The length in bytes of the frame check sequence at the end of the packet before it was cut; 0 if the file does
    /// not give it.
    pub fcs_len: u8,
}

// as c/etherpeel.h lays it out
const _: () = assert!(size_of::<EtherCaptured<'_>>() == 40);

impl<'a> EtherCaptured<'a> {
    /// A packet of a capture file.
    pub(crate) fn of(packet: CapturedPacket<'a>) -> EtherCaptured<'a> {
        let (has_time, seconds, nanoseconds) = match packet.time {
            Some(time) => (1, time.seconds, time.nanoseconds),
            None => (0, 0, 0),
        };
        let (has_fcs_len, fcs_len) = match packet.fcs_len {
            Some(fcs_len) => (1, fcs_len),
            None => (0, 0),
        };
        EtherCaptured {
            packet: packet.packet,
            seconds,
            nanoseconds,
            original_len: packet.original_len,
            link_type: packet.link_type.0,
            has_time,
            has_fcs_len,
            fcs_len,
        }
    }

    /// The packet that was passed. Each mark other than 0 says that something is there.
    pub(crate) fn to_packet(&self) -> CapturedPacket<'a> {
        let time = if self.has_time == 0 {
            None
        } else {
            Some(Timestamp {
                seconds: self.seconds,
                nanoseconds: self.nanoseconds,
            })
        };
        CapturedPacket {
            time,
            interface: None,
            direction: None,
            comment: None,
            original_len: self.original_len,
            link_type: LinkType(self.link_type),
            snap_len: 0,
            fcs_len: (self.has_fcs_len != 0).then_some(self.fcs_len),
            packet: self.packet,
        }
    }
}
