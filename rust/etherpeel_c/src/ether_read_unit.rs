//! A unit of a capture file that was read, as a struct of C.

use etherpeel::ether_pcap::{CaptureError, ReadUnit, UnitContent};

/// A unit of a capture file that was read: `etherpeel_read_unit` in C.
///
/// Each bit pattern is a value, so that C may pass memory that it has not written to.
#[repr(C)]
#[derive(Clone, Copy)]
pub struct EtherReadUnit {
    /// The length of the unit in bytes, after which the next one begins; 0 if it was not read.
    pub len: usize,
    /// The minimum number of bytes that the unit needs, if the bytes end within it; else 0.
    pub needed: usize,
    /// The number of the packet's interface in its section; 0 if it has none.
    pub interface: u32,
    /// 1 if the unit has a packet, else 0.
    pub has_packet: u8,
    /// 1 if the packet has an interface, else 0.
    pub has_interface: u8,
}

// as c/etherpeel.h lays it out
const _: () = assert!(size_of::<EtherReadUnit>() == 24);

impl EtherReadUnit {
    const NONE: EtherReadUnit = EtherReadUnit {
        len: 0,
        needed: 0,
        interface: 0,
        has_packet: 0,
        has_interface: 0,
    };

    /// A unit that was read.
    pub(crate) fn of(unit: &ReadUnit<'_>) -> EtherReadUnit {
        let mut read = EtherReadUnit {
            len: unit.len,
            ..EtherReadUnit::NONE
        };
        if let UnitContent::Packet(packet) = &unit.content {
            read.has_packet = 1;
            if let Some(number) = packet.interface {
                read.has_interface = 1;
                read.interface = number;
            }
        }
        read
    }

    /// A unit that was not read.
    pub(crate) fn of_refusal(error: &CaptureError) -> EtherReadUnit {
        EtherReadUnit {
            needed: error.required_len().unwrap_or(0),
            ..EtherReadUnit::NONE
        }
    }
}
