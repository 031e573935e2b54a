//! Which values the fields of an open unit can have.

use crate::ether_filter::can::Can;
use crate::ether_filter::primitive::Primitive;
use crate::ether_filter::prospect::OpenKind;

/// A byte of a unit, or the last one of a wanted number if it is not there.
#[inline]
fn digit(known: &[u8], at: usize, wanted: u64) -> u64 {
    match known.get(at) {
        Some(byte) => u64::from(*byte),
        None => wanted % 256,
    }
}

/// Whether a VLAN tag can have this identifier.
#[inline]
fn can_be_id(known: &[u8], id: u16) -> Can {
    let wanted = u64::from(id);
    let nearest = digit(known, 0, wanted / 256) % 16 * 256 + digit(known, 1, wanted);
    let matches = nearest == wanted;
    let is_short = known.len() < 2;
    Can {
        matches,
        fails: is_short || !matches,
    }
}

/// The address at a place, with the bytes of the wanted one where they are not there.
#[inline]
fn nearest_address(known: &[u8], place: usize, address: u64) -> u64 {
    digit(known, place, address / 0x100_0000_0000) * 0x100_0000_0000
        + digit(known, place + 1, address / 0x1_0000_0000) * 0x1_0000_0000
        + digit(known, place + 2, address / 0x100_0000) * 0x100_0000
        + digit(known, place + 3, address / 0x1_0000) * 0x1_0000
        + digit(known, place + 4, address / 0x100) * 0x100
        + digit(known, place + 5, address)
}

/// Whether an Ethernet II header can have this address at this place.
#[inline]
pub(in crate::ether_filter) fn can_be_address(known: &[u8], place: usize, address: u64) -> Can {
    let matches = nearest_address(known, place, address) == address;
    let is_short = known.len() < place + 6;
    Can {
        matches,
        fails: is_short || !matches,
    }
}

/// Whether one of the two addresses can be this one.
#[inline]
fn can_be_host(known: &[u8], address: u64) -> Can {
    can_be_address(known, 0, address).any(can_be_address(known, 6, address))
}

/// Whether the destination can be a group address.
#[inline]
fn can_be_group(known: &[u8]) -> Can {
    Can {
        matches: digit(known, 0, 1) % 2 == 1,
        fails: digit(known, 0, 0) % 2 == 0,
    }
}

/// Whether an Ethernet II header can match a primitive.
#[inline]
fn of_link(primitive: Primitive, known: &[u8]) -> Can {
    match primitive {
        Primitive::Source(address) => can_be_address(known, 6, address),
        Primitive::Destination(address) => can_be_address(known, 0, address),
        Primitive::Host(address) => can_be_host(known, address),
        Primitive::Broadcast => can_be_address(known, 0, 0xFFFF_FFFF_FFFF),
        _ => can_be_group(known),
    }
}

/// What the identifier of a VLAN tag can make of a primitive about it.
#[inline]
fn of_tag(primitive: Primitive, known: &[u8]) -> Can {
    match primitive {
        Primitive::VlanId(id) | Primitive::OuterVlan(id) | Primitive::InnerVlan(id) => {
            can_be_id(known, id)
        }
        _ => Can::decided(false),
    }
}

/// What the fields of a unit can make of a primitive about them.
#[inline]
pub(in crate::ether_filter) fn own_of(primitive: Primitive, kind: OpenKind, known: &[u8]) -> Can {
    match kind {
        OpenKind::Ethernet2 => of_link(primitive, known),
        OpenKind::Vlan => of_tag(primitive, known),
        OpenKind::LinuxSll | OpenKind::Macsec | OpenKind::Arp => Can::decided(false),
    }
}
