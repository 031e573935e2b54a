//! An interface of a capture file, as a struct of C.

use etherpeel::ether_pcap::{CaptureInterface, LinkType};

/// An interface that a section of a pcapng file describes: `etherpeel_interface` in C.
///
/// Each bit pattern is a value, so that C may pass memory that it has not written to.
#[repr(C)]
#[derive(Clone, Copy)]
pub struct EtherInterface {
    /// The seconds that are added to each time, in two's complement.
    pub time_offset: u64,
    /// The maximum number of bytes captured of a packet; 0 if there is no limit.
    pub snap_len: u32,
    /// What its packets begin with: a `LINKTYPE_` number.
    pub link_type: u16,
    /// 1 if the section gives the length of the frame check sequence, else 0.
    pub has_fcs_len: u8,
    /// The length in bytes of the frame check sequence at the end of each packet; 0 if it is not given.
    pub fcs_len: u8,
    /// 1 if the section gives the resolution of times, else 0.
    pub has_time_resolution: u8,
    /// The value of the option `if_tsresol`; 0 if it is not given.
    pub time_resolution: u8,
}

// as c/etherpeel.h lays it out
const _: () = assert!(size_of::<EtherInterface>() == 24);

impl EtherInterface {
    /// An interface that was read.
    pub(crate) fn of(interface: &CaptureInterface) -> EtherInterface {
        let (has_fcs_len, fcs_len) = parts_of(interface.fcs_len);
        let (has_time_resolution, time_resolution) = parts_of(interface.time_resolution);
        EtherInterface {
            time_offset: interface.time_offset,
            snap_len: interface.snap_len,
            link_type: interface.link_type.0,
            has_fcs_len,
            fcs_len,
            has_time_resolution,
            time_resolution,
        }
    }

    /// The interface that was passed. Each mark other than 0 says that something is there.
    pub(crate) fn to_interface(&self) -> CaptureInterface {
        CaptureInterface {
            link_type: LinkType(self.link_type),
            snap_len: self.snap_len,
            fcs_len: (self.has_fcs_len != 0).then_some(self.fcs_len),
            time_resolution: (self.has_time_resolution != 0).then_some(self.time_resolution),
            time_offset: self.time_offset,
        }
    }
}

/// A mark and a number, both 0 if there is no number.
pub(crate) fn parts_of(number: Option<u8>) -> (u8, u8) {
    match number {
        Some(number) => (1, number),
        None => (0, 0),
    }
}
