//! What comes after a unit whose header is all there, in a packet that was cut short.

use crate::ether_filter::prospect::{OpenKind, is_modified, is_supported, room_after, tag_len};
use crate::ether_base::big_endian::u16_in;

/// The payload of a unit.
#[derive(Clone, Copy)]
pub(in crate::ether_filter) struct Behind {
    /// The length of the header before it.
    pub header_len: usize,
    /// Its own length. Not all of its bytes need be there.
    pub room: usize,
    /// The ether type that announces it, if one does.
    pub ether_type: Option<u16>,
}

/// The two bytes at a place.
#[inline]
fn number_at(known: &[u8], at: usize) -> u16 {
    u16_in(&known[at..at + 2])
}

/// The payload of a unit of this many bytes, which end in an ether type.
#[inline]
fn behind_fixed(known: &[u8], room: usize, len: usize) -> Behind {
    Behind {
        header_len: len,
        room: room - len,
        ether_type: Some(number_at(known, len - 2)),
    }
}

/// The payload of a header of a cooked capture, if it is accepted.
#[inline]
fn behind_sll(known: &[u8], room: usize) -> Option<Behind> {
    if number_at(known, 0) > 7 {
        return None;
    }
    let hardware = usize::from(number_at(known, 2));
    if !is_supported(hardware) {
        return None;
    }
    if hardware == 1 {
        return Some(behind_fixed(known, room, 16));
    }
    Some(Behind {
        header_len: 16,
        room: room - 16,
        ether_type: None,
    })
}

/// The ether type after a SecTag with this first byte, if it can be read.
#[inline]
fn type_behind_tag(known: &[u8], first: u8) -> Option<u16> {
    if is_modified(first) {
        None
    } else {
        Some(number_at(known, tag_len(first) - 2))
    }
}

/// The payload of a SecTag that begins with these two bytes, if it is accepted.
#[inline]
fn behind_front(known: &[u8], first: u8, second: u8, room: usize) -> Option<Behind> {
    match room_after(first, second, room) {
        Some(payload) => Some(Behind {
            header_len: tag_len(first),
            room: payload,
            ether_type: type_behind_tag(known, first),
        }),
        None => None,
    }
}

/// The payload of a SecTag whose header is all there, if it is accepted.
#[inline]
fn behind_sec_tag(known: &[u8], room: usize) -> Option<Behind> {
    match known {
        [first, second, ..] => behind_front(known, *first, *second, room),
        _ => None,
    }
}

/// The payload of a unit whose header is all there, if it is accepted.
#[inline]
pub(in crate::ether_filter) fn find_behind(kind: OpenKind, known: &[u8], room: usize) -> Option<Behind> {
    match kind {
        OpenKind::Ethernet2 => Some(behind_fixed(known, room, 14)),
        OpenKind::LinuxSll => behind_sll(known, room),
        OpenKind::Vlan => Some(behind_fixed(known, room, 4)),
        OpenKind::Macsec => behind_sec_tag(known, room),
        OpenKind::Arp => None, // not reached: nothing follows it
    }
}

/// Whether the first two bytes and the length that they name are there.
#[inline]
fn is_whole_tag(known: &[u8]) -> bool {
    match known {
        [first, _, ..] => known.len() >= tag_len(*first),
        _ => false,
    }
}

/// Whether the header of a unit is all there, and something may follow it.
#[inline]
pub(in crate::ether_filter) fn is_whole(kind: OpenKind, known: &[u8]) -> bool {
    match kind {
        OpenKind::Ethernet2 => known.len() >= 14,
        OpenKind::LinuxSll => known.len() >= 16,
        OpenKind::Vlan => known.len() >= 4,
        OpenKind::Macsec => is_whole_tag(known),
        OpenKind::Arp => false,
    }
}
