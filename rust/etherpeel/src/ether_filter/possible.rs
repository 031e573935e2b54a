//! What the missing bytes of a packet can make of a primitive.

use crate::ether_filter::can::Can;
use crate::ether_filter::own_fields::own_of;
use crate::ether_filter::primitive::Primitive;
use crate::ether_filter::prospect::{OpenKind, Prospect, prospect_of};

/// What the headers before an open unit say of a primitive.
#[derive(Clone, Copy)]
pub(in crate::ether_filter) struct Told {
    /// They match it.
    pub is_match: bool,
    /// One of them is a VLAN tag.
    pub has_tag: bool,
}

/// Whether the unit is a VLAN tag that is accepted.
#[inline]
fn is_vlan(kind: OpenKind, after: Prospect) -> bool {
    match kind {
        OpenKind::Vlan => after.can_be_accepted,
        _ => false,
    }
}

/// Whether it is a SecTag.
#[inline]
fn is_macsec(kind: OpenKind) -> bool {
    matches!(kind, OpenKind::Macsec)
}

/// Whether it is an Ethernet II header that is accepted.
#[inline]
fn is_ethernet2(kind: OpenKind, after: Prospect) -> bool {
    match kind {
        OpenKind::Ethernet2 => after.can_be_accepted,
        _ => false,
    }
}

/// Whether a further tag can have this identifier, which has 12 bits, if one can follow.
#[inline]
fn can_have_id(id: u16, follows: bool) -> bool {
    id < 4096 && follows
}

/// `vlan`
#[inline]
fn of_vlan(told: Told, kind: OpenKind, after: Prospect) -> Can {
    if told.is_match {
        return Can::decided(true);
    }
    if is_vlan(kind, after) {
        return Can::decided(true);
    }
    Can {
        matches: after.tag_can_follow(),
        fails: true,
    }
}

/// `vlan N`
#[inline]
fn of_vlan_id(id: u16, told: Told, kind: OpenKind, own: Can, after: Prospect) -> Can {
    if told.is_match {
        return Can::decided(true);
    }
    let later = can_have_id(id, after.tag_can_follow());
    if is_vlan(kind, after) {
        return own.or(Can {
            matches: later,
            fails: false,
        });
    }
    Can {
        matches: later,
        fails: true,
    }
}

/// `outer vlan N`
#[inline]
fn of_outer_vlan(id: u16, told: Told, kind: OpenKind, own: Can, after: Prospect) -> Can {
    if told.has_tag {
        return Can::decided(told.is_match);
    }
    if is_vlan(kind, after) {
        return own;
    }
    Can {
        matches: can_have_id(id, after.tag_can_follow()),
        fails: true,
    }
}

/// `inner vlan N`
#[inline]
fn of_inner_vlan(id: u16, told: Told, kind: OpenKind, own: Can, after: Prospect) -> Can {
    let follows = after.tag_can_follow();
    let later = Can {
        matches: can_have_id(id, follows),
        fails: follows,
    };
    if is_vlan(kind, after) {
        if told.has_tag {
            return own.or(later);
        }
        return Can {
            matches: later.matches,
            fails: true,
        };
    }
    if told.has_tag {
        return Can::decided(told.is_match).or(later);
    }
    Can::decided(told.is_match).or(Can {
        matches: can_have_id(id, after.two_tags_can_follow()),
        fails: follows,
    })
}

/// `macsec`
#[inline]
fn of_macsec(told: Told, kind: OpenKind, after: Prospect) -> Can {
    if told.is_match {
        return Can::decided(true);
    }
    if is_macsec(kind) {
        return Can {
            matches: after.can_be_accepted,
            fails: after.can_be_refused,
        };
    }
    Can {
        matches: after.sec_tag_can_follow(),
        fails: true,
    }
}

/// `ether proto N`
#[inline]
fn of_ether_type(number: u16, told: Told, after: Prospect) -> Can {
    if told.is_match {
        return Can::decided(true);
    }
    Can {
        matches: after.type_can_follow(number),
        fails: true,
    }
}

/// `refused`
#[inline]
fn of_refused(after: Prospect) -> Can {
    let later = after.refusal_can_follow();
    Can {
        matches: after.can_be_refused || later,
        fails: after.can_be_accepted,
    }
}

/// A primitive about an Ethernet II header.
#[inline]
fn of_addresses(told: Told, kind: OpenKind, own: Can, after: Prospect) -> Can {
    if is_ethernet2(kind, after) {
        own
    } else {
        Can::decided(told.is_match)
    }
}

/// What is possible for a primitive that tests no field, by what the fields of the open unit can make of it, and what
/// can follow.
#[inline]
pub(in crate::ether_filter) fn possible_after(
    primitive: Primitive,
    told: Told,
    kind: OpenKind,
    own: Can,
    after: Prospect,
) -> Can {
    match primitive {
        Primitive::Vlan => of_vlan(told, kind, after),
        Primitive::VlanId(id) => of_vlan_id(id, told, kind, own, after),
        Primitive::OuterVlan(id) => of_outer_vlan(id, told, kind, own, after),
        Primitive::InnerVlan(id) => of_inner_vlan(id, told, kind, own, after),
        Primitive::Macsec => of_macsec(told, kind, after),
        Primitive::EtherType(number) => of_ether_type(number, told, after),
        Primitive::Refused => of_refused(after),
        Primitive::Cut
        | Primitive::Less(_)
        | Primitive::Greater(_)
        | Primitive::Frame(_)
        | Primitive::Field(_) => Can::decided(told.is_match),
        _ => of_addresses(told, kind, own, after),
    }
}

/// Whether a primitive that tests no field can match a packet whose first unit that is not whole is this one, and
/// whether it can fail, if the packet has any bytes in place of those that are missing.
#[inline]
pub(in crate::ether_filter) fn possible(
    primitive: Primitive,
    told: Told,
    kind: OpenKind,
    known: &[u8],
    room: usize,
) -> Can {
    let own = own_of(primitive, kind, known);
    possible_after(primitive, told, kind, own, prospect_of(kind, known, room))
}
