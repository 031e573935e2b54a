//! The link's header at the front of a frame, and the ether type of what follows it.

use crate::ether_packet::TagError;
use crate::ether_peel::Start;
use crate::ether_sll::linux_sll_fields::{arp_hardware_type, packet_type_number, protocol_number};
use crate::{
    ArpHardwareId, EtherType, Ethernet2Header, Ethernet2Slice, LinuxSllHeader, LinuxSllPacketType,
    LinuxSllSlice,
};

/// A link's header whose payload has an ether type.
#[derive(Clone, Copy)]
pub(in crate::ether_packet) struct TypedLink {
    /// The length of the payload in bytes, without a frame check sequence.
    pub payload_len: usize,
    /// The ether type of the payload.
    pub ether_type: EtherType,
}

/// Reads the link's header at the front of a frame.
#[inline(always)]
pub(in crate::ether_packet) fn typed_link(start: Start, frame: &[u8]) -> Result<TypedLink, TagError> {
    match start {
        Start::Ethernet2 => match Ethernet2Slice::from_slice_without_fcs(frame) {
            Ok(slice) => Ok(TypedLink {
                payload_len: frame.len() - Ethernet2Header::LEN,
                ether_type: slice.ether_type(),
            }),
            Err(_) => Err(TagError::NoLink),
        },
        Start::Ethernet2Fcs => match Ethernet2Slice::from_slice_with_crc32_fcs(frame) {
            Ok(slice) => Ok(TypedLink {
                payload_len: frame.len() - Ethernet2Header::LEN - 4,
                ether_type: slice.ether_type(),
            }),
            Err(_) => Err(TagError::NoLink),
        },
        Start::LinuxSll if is_ethernet_capture(frame) => Ok(TypedLink {
            payload_len: frame.len() - LinuxSllHeader::LEN,
            ether_type: EtherType(protocol_number(frame)),
        }),
        Start::LinuxSll => match other_hardware(frame) {
            Some(hardware_type) => Err(TagError::HardwareType(hardware_type)),
            None => Err(TagError::NoLink),
        },
        Start::EtherType(_) => Err(TagError::NoLink),
    }
}

/// Whether a frame begins with a cooked capture header whose protocol type is an ether type.
#[inline(always)]
fn is_ethernet_capture(frame: &[u8]) -> bool {
    frame.len() >= LinuxSllHeader::LEN
        && packet_type_number(frame) <= LinuxSllPacketType::MAX_VAL
        && arp_hardware_type(frame) == ArpHardwareId::ETHERNET
}

/// The hardware type of any other cooked capture header, if it is not refused.
#[inline(always)]
fn other_hardware(frame: &[u8]) -> Option<ArpHardwareId> {
    match LinuxSllSlice::from_slice(frame) {
        Ok(slice) => Some(slice.arp_hardware_type()),
        Err(_) => None,
    }
}

/// The `N` bytes of a slice from the offset `at` on.
#[inline(always)]
pub(in crate::ether_packet) fn chunk_at<const N: usize>(bytes: &[u8], at: usize) -> [u8; N] {
    *bytes[at..at + N].first_chunk().unwrap()
}
