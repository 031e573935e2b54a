//! The headers that are certain in a packet that was cut short, and what follows them.

use crate::ether_filter::behind::{find_behind, is_whole};
use crate::ether_filter::fields::Fields;
use crate::ether_filter::prospect::OpenKind;
use crate::ether_filter::seen::{Seen, take};
use crate::ether_peel::Start;
use crate::{EtherType, Ethernet2HeaderSlice, SingleVlanHeaderSlice};

/// A unit of a packet that was cut short.
#[derive(Clone, Copy)]
pub(in crate::ether_filter) struct CutUnit<'a> {
    pub kind: OpenKind,
    /// Its bytes that are there.
    pub known: &'a [u8],
    /// How many bytes there are up to the end of its window.
    pub room: usize,
}

/// How the headers end that are certain.
#[derive(Clone, Copy)]
pub(in crate::ether_filter) enum CutEnd<'a> {
    /// At a unit that is not all there, or an ARP packet.
    Open(CutUnit<'a>),
    /// At a unit that is refused, whatever the missing bytes are.
    Refused,
    /// Where nothing is announced.
    Accepted,
}

/// The kind of the unit that an ether type announces.
#[inline]
fn kind_of_type(ether_type: u16) -> Option<OpenKind> {
    match EtherType(ether_type) {
        EtherType::VLAN_TAGGED_FRAME
        | EtherType::PROVIDER_BRIDGING
        | EtherType::VLAN_DOUBLE_TAGGED_FRAME => Some(OpenKind::Vlan),
        EtherType::MACSEC => Some(OpenKind::Macsec),
        EtherType::ARP => Some(OpenKind::Arp),
        _ => None,
    }
}

/// .. if there is an ether type.
#[inline]
fn kind_announced(ether_type: Option<u16>) -> Option<OpenKind> {
    match ether_type {
        Some(number) => kind_of_type(number),
        None => None,
    }
}

/// The kind of the unit that a start announces, unless its frame has a check sequence.
#[inline]
fn kind_of_start(start: Start) -> Option<OpenKind> {
    match start {
        Start::Ethernet2 => Some(OpenKind::Ethernet2),
        Start::Ethernet2Fcs => None,
        Start::LinuxSll => Some(OpenKind::LinuxSll),
        Start::EtherType(EtherType(number)) => kind_of_type(number),
    }
}

/// The ether type that announces the first unit, if one does.
#[inline]
fn type_of_start(start: Start) -> Option<u16> {
    match start {
        Start::EtherType(EtherType(number)) => Some(number),
        _ => None,
    }
}

/// The fields of an Ethernet II header.
#[inline]
fn link_fields(known: &[u8]) -> Fields {
    match Ethernet2HeaderSlice::from_slice(known) {
        Ok(link) => Fields::Link {
            destination: link.destination(),
            source: link.source(),
        },
        Err(_) => Fields::Other, // not reached: its bytes are there
    }
}

/// The fields of a VLAN tag.
#[inline]
fn tag_fields(known: &[u8]) -> Fields {
    match SingleVlanHeaderSlice::from_slice(known) {
        Ok(tag) => Fields::Tag(tag.vlan_identifier().value()),
        Err(_) => Fields::Other, // not reached: its bytes are there
    }
}

/// The fields of a header that is all there.
#[inline]
fn fields_at(kind: OpenKind, known: &[u8]) -> Fields {
    match kind {
        OpenKind::Ethernet2 => link_fields(known),
        OpenKind::Vlan => tag_fields(known),
        OpenKind::Macsec => Fields::SecTag,
        _ => Fields::Other,
    }
}

/// The first bytes, as many as these or all.
#[inline]
pub(in crate::ether_filter) fn first_bytes(bytes: &[u8], len: usize) -> &[u8] {
    &bytes[..len.min(bytes.len())]
}

/// Walks through a frame that had `total` bytes on the wire, as far as the headers are certain. Keeps what they show
/// as `look` does.
#[inline]
pub(in crate::ether_filter) fn cut_walk<'a>(
    start: Start,
    frame: &'a [u8],
    total: usize,
    seen: &mut Seen,
    ids: &mut [u64],
) -> CutEnd<'a> {
    let mut announced = type_of_start(start);
    let mut next = kind_of_start(start);
    let mut known = frame;
    let mut room = total;
    while let Some(kind) = next {
        if !is_whole(kind, known) {
            seen.last = announced;
            return CutEnd::Open(CutUnit { kind, known, room });
        }
        let Some(behind) = find_behind(kind, known, room) else {
            seen.last = announced;
            seen.is_refused = true;
            return CutEnd::Refused;
        };
        take(seen, ids, fields_at(kind, known), announced);
        announced = behind.ether_type;
        next = kind_announced(announced);
        known = first_bytes(&known[behind.header_len..], behind.room);
        room = behind.room;
    }
    seen.last = announced;
    CutEnd::Accepted
}
