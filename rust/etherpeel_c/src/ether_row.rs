//! A row of a table of packets, as a struct of C.

use crate::{EtherCaptured, EtherFault, numbers};
use etherpeel::ether_content::Content;
use etherpeel::ether_packet::PacketSlice;
use etherpeel::{LinkSlice, VlanId};

/// The time of a packet without one: the least number of 64 bits in two's complement.
const NO_TIME: u64 = 1 << 63;

/// A row of a table of packets: `etherpeel_row` in C.
///
/// Each bit pattern is a value, so that C may pass memory that it has not written to.
#[repr(C)]
#[derive(Clone, Copy)]
pub struct EtherRow {
    /// The time of the capture in nanoseconds since 1970, UTC; 2^63 if there is none, or if it is not before 2262.
    pub time: u64,
    /// The destination of an Ethernet II header as one number; 0 without that header.
    pub destination: u64,
    /// Its source.
    pub source: u64,
    /// The number of captured bytes.
    pub captured_len: usize,
    /// The offset of the refused header in the frame, 0 if none is refused.
    pub fault_offset: usize,
    /// The length of the packet in bytes before it was cut.
    pub original_len: u32,
    /// Why a header is refused, 0 if none is: as in [`EtherFault`].
    pub fault: u32,
    /// What the packet begins with: a `LINKTYPE_` number.
    pub link_type: u16,
    /// The ether type that announces what is left after the headers, 0 if none does.
    pub ether_type: u16,
    /// The identifiers of the VLAN tags, outermost first, followed by zeros.
    pub vlan_ids: [u16; 3],
    /// The number of VLAN tags.
    pub vlan_count: u16,
    /// 1 if the packet begins with an Ethernet II header, else 0.
    pub has_addresses: u8,
    /// 1 if it has a SecTag, else 0.
    pub has_macsec: u8,
    /// 1 if it has an ARP packet, else 0.
    pub has_arp: u8,
}

// as c/etherpeel.h lays it out
const _: () = assert!(size_of::<EtherRow>() == 64);

impl EtherRow {
    /// The row of a packet.
    pub(crate) fn of(packet: &EtherCaptured<'_>) -> EtherRow {
        let row = EtherRow {
            time: time_of(packet),
            destination: 0,
            source: 0,
            captured_len: packet.packet.len(),
            fault_offset: 0,
            original_len: packet.original_len,
            fault: 0,
            link_type: packet.link_type,
            ether_type: 0,
            vlan_ids: [0; 3],
            vlan_count: 0,
            has_addresses: 0,
            has_macsec: 0,
            has_arp: 0,
        };
        match Content::of(&packet.to_packet()).frame() {
            Some((start, bytes)) => row.with_headers(&PacketSlice::from_slice(start, bytes)),
            None => row,
        }
    }

    /// The row with the headers of a packet.
    #[inline(always)]
    fn with_headers(self, packet: &PacketSlice<'_>) -> EtherRow {
        let ids = packet.vlan_ids();
        let fault = EtherFault::of_end(&packet.fault);
        let row = EtherRow {
            fault: fault.kind,
            fault_offset: fault.offset,
            ether_type: ether_type(
                numbers::rest_kind(packet.rest_kind),
                numbers::rest_protocol(packet.rest_kind),
            ),
            vlan_ids: [id_at(&ids, 0), id_at(&ids, 1), id_at(&ids, 2)],
            vlan_count: ids.len() as u16,
            has_macsec: u8::from(packet.macsec().is_some()),
            has_arp: u8::from(packet.arp_offset().is_some()),
            ..self
        };
        row.with_addresses(packet.link())
    }

    /// The row with the addresses of a link's header, if it is one of Ethernet II.
    #[inline(always)]
    fn with_addresses(self, link: Option<LinkSlice<'_>>) -> EtherRow {
        match link {
            Some(LinkSlice::Ethernet2(slice)) => EtherRow {
                has_addresses: 1,
                destination: address(slice.destination()),
                source: address(slice.source()),
                ..self
            },
            _ => self,
        }
    }
}

/// The time of a packet in nanoseconds since 1970.
fn time_of(packet: &EtherCaptured<'_>) -> u64 {
    if packet.has_time == 0 {
        return NO_TIME;
    }
    let time = u128::from(packet.seconds) * 1_000_000_000 + u128::from(packet.nanoseconds);
    if time < u128::from(NO_TIME) {
        time as u64
    } else {
        NO_TIME
    }
}

/// The protocol that announces the rest, if its kind is that of ether types; else 0.
#[inline(always)]
fn ether_type(kind: u32, protocol: u16) -> u16 {
    if kind == 1 { protocol } else { 0 }
}

/// The identifier at an index, 0 if there is none.
#[inline(always)]
fn id_at(ids: &[VlanId], index: usize) -> u16 {
    match ids.get(index) {
        Some(id) => id.value(),
        None => 0,
    }
}

/// An address as one number, its first byte the most significant one.
#[inline(always)]
fn address(bytes: [u8; 6]) -> u64 {
    let [a, b, c, d, e, f] = bytes;
    u64::from_be_bytes([0, 0, a, b, c, d, e, f])
}
