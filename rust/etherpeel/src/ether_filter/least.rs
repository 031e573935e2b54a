//! The fewest bytes of a unit with which a primitive can be decided.

use crate::ether_filter::can::Can;
use crate::ether_filter::deciding::is_of_link;
use crate::ether_filter::own_fields::{can_be_address, own_of};
use crate::ether_filter::possible::{Told, possible_after};
use crate::ether_filter::primitive::Primitive;
use crate::ether_filter::prospect::{
    OpenKind, Prospect, arp_prospect, is_modified, room_after, sll_prospect, tag_len, tag_prospect,
    type_at,
};

/// The prospect of a unit of this many bytes, which end in an ether type. It stays the same until the type begins.
#[inline]
fn of_typed(known: &[u8], room: usize, len: usize) -> Prospect {
    Prospect {
        can_be_accepted: true,
        can_be_refused: false,
        next: type_at(known, len - 2),
        room: room - len,
    }
}

/// The number of bytes up to the first one of the ether type, or up to the second one if the first is there.
#[inline]
fn with_type(have: usize, len: usize) -> usize {
    if have + 1 < len { len - 1 } else { len }
}

/// Whether a primitive stays undecided, if this is known of the fields of the unit.
#[inline]
fn stays_open(primitive: Primitive, told: Told, kind: OpenKind, own: Can, after: Prospect) -> bool {
    possible_after(primitive, told, kind, own, after).is_open()
}

/// The fewest bytes of an Ethernet II header, for a primitive that does not ask about its addresses.
#[inline]
fn of_ethernet2_type(primitive: Primitive, told: Told, known: &[u8], room: usize) -> usize {
    let own = Can::decided(false); // not asked for
    let after = of_typed(known, room, 14);
    if stays_open(primitive, told, OpenKind::Ethernet2, own, after) {
        with_type(known.len(), 14)
    } else {
        known.len()
    }
}

/// The fewest bytes of a VLAN tag, if further bytes change nothing of what its identifier makes of a primitive.
#[inline]
fn of_vlan_settled(primitive: Primitive, told: Told, own: Can, known: &[u8], room: usize) -> usize {
    let after = of_typed(known, room, 4);
    if stays_open(primitive, told, OpenKind::Vlan, own, after) {
        with_type(known.len(), 4)
    } else {
        known.len()
    }
}

/// The fewest bytes of a VLAN tag whose identifier can still be a wanted one, since it is not all there.
#[inline]
fn of_vlan_open(primitive: Primitive, told: Told, known: &[u8], room: usize) -> usize {
    let after = of_typed(known, room, 4);
    let kind = OpenKind::Vlan;
    if !stays_open(primitive, told, kind, Can::EITHER, after) {
        return known.len();
    }
    if !stays_open(primitive, told, kind, Can::MISSED, after) {
        return known.len() + 1;
    }
    if stays_open(primitive, told, kind, Can::MET, after) {
        with_type(known.len(), 4)
    } else {
        2
    }
}

/// The fewest bytes of a VLAN tag.
#[inline]
fn of_vlan(primitive: Primitive, told: Told, known: &[u8], room: usize) -> usize {
    if room < 4 {
        return known.len();
    }
    let own = own_of(primitive, OpenKind::Vlan, known);
    if own.matches && known.len() < 2 {
        of_vlan_open(primitive, told, known, room)
    } else {
        of_vlan_settled(primitive, told, own, known, room)
    }
}

/// The fewest bytes of an Ethernet II header, for a primitive about its addresses that the known bytes do not decide.
#[inline]
fn of_addresses(primitive: Primitive, known: &[u8]) -> usize {
    if known.len() >= 6 {
        return known.len() + 1;
    }
    match primitive {
        Primitive::Source(_) => 7,
        Primitive::Host(address) => {
            if can_be_address(known, 0, address).matches {
                6
            } else {
                7
            }
        }
        _ => known.len() + 1,
    }
}

/// The fewest bytes of an Ethernet II header.
#[inline]
fn of_ethernet2(primitive: Primitive, told: Told, known: &[u8], room: usize) -> usize {
    if room < 14 {
        return known.len();
    }
    if !is_of_link(primitive) {
        return of_ethernet2_type(primitive, told, known, room);
    }
    let own = own_of(primitive, OpenKind::Ethernet2, known);
    if own.is_open() {
        of_addresses(primitive, known)
    } else {
        known.len()
    }
}

/// The fewest bytes of an ARP packet. Its two sizes are the fifth and the sixth byte.
#[inline]
fn of_arp(primitive: Primitive, told: Told, known: &[u8], room: usize) -> usize {
    if known.len() >= 6 {
        return known.len();
    }
    let after = arp_prospect(known, room);
    if stays_open(primitive, told, OpenKind::Arp, Can::EITHER, after) {
        with_type(known.len(), 6)
    } else {
        known.len()
    }
}

/// The fewest bytes of the header of a cooked capture with less than four bytes: each of these can have a value that is
/// refused.
#[inline]
fn of_sll_begun(primitive: Primitive, told: Told, known: &[u8], room: usize) -> usize {
    let after = sll_prospect(known, room);
    if stays_open(primitive, told, OpenKind::LinuxSll, Can::EITHER, after) {
        known.len() + 1
    } else {
        known.len()
    }
}

/// Whether the first four bytes of a cooked capture are accepted, and say that an ether type follows.
#[inline]
fn has_type(known: &[u8]) -> bool {
    known[0] == 0 && known[1] <= 7 && known[2] == 0 && known[3] == 1
}

/// The fewest bytes of the header of a cooked capture whose first four bytes are there.
#[inline]
fn of_sll_typed(primitive: Primitive, told: Told, known: &[u8], room: usize) -> usize {
    if room < 16 {
        return known.len();
    }
    if !has_type(known) {
        return known.len();
    }
    let after = of_typed(known, room, 16);
    if stays_open(primitive, told, OpenKind::LinuxSll, Can::EITHER, after) {
        with_type(known.len(), 16)
    } else {
        known.len()
    }
}

/// The fewest bytes of the header of a cooked capture.
#[inline]
fn of_sll(primitive: Primitive, told: Told, known: &[u8], room: usize) -> usize {
    if known.len() < 4 {
        of_sll_begun(primitive, told, known, room)
    } else {
        of_sll_typed(primitive, told, known, room)
    }
}

/// The fewest bytes of a SecTag with less than two bytes: the next one can be such that the tag is refused.
#[inline]
fn of_tag_begun(primitive: Primitive, told: Told, known: &[u8], room: usize) -> usize {
    let after = tag_prospect(known, room);
    if stays_open(primitive, told, OpenKind::Macsec, Can::EITHER, after) {
        known.len() + 1
    } else {
        known.len()
    }
}

/// The fewest bytes of a SecTag that begins with these two bytes.
#[inline]
fn of_tag_front(
    primitive: Primitive,
    told: Told,
    known: &[u8],
    first: u8,
    second: u8,
    room: usize,
) -> usize {
    let Some(payload) = room_after(first, second, room) else {
        return known.len();
    };
    if is_modified(first) {
        return known.len();
    }
    let len = tag_len(first);
    let after = Prospect {
        can_be_accepted: true,
        can_be_refused: false,
        next: type_at(known, len - 2),
        room: payload,
    };
    if stays_open(primitive, told, OpenKind::Macsec, Can::EITHER, after) {
        with_type(known.len(), len)
    } else {
        known.len()
    }
}

/// The fewest bytes of a SecTag.
#[inline]
fn of_tag(primitive: Primitive, told: Told, known: &[u8], room: usize) -> usize {
    match known {
        [first, second, ..] => of_tag_front(primitive, told, known, *first, *second, room),
        _ => of_tag_begun(primitive, told, known, room),
    }
}

/// The fewest bytes of an open unit with which a primitive that tests no field can be decided. It counts the bytes that
/// are there; the missing ones come right after them.
#[inline]
pub(in crate::ether_filter) fn least(
    primitive: Primitive,
    told: Told,
    kind: OpenKind,
    known: &[u8],
    room: usize,
) -> usize {
    match kind {
        OpenKind::Ethernet2 => of_ethernet2(primitive, told, known, room),
        OpenKind::LinuxSll => of_sll(primitive, told, known, room),
        OpenKind::Vlan => of_vlan(primitive, told, known, room),
        OpenKind::Macsec => of_tag(primitive, told, known, room),
        OpenKind::Arp => of_arp(primitive, told, known, room),
    }
}
