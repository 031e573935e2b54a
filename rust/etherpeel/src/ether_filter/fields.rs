//! The fields of a header that primitives ask about.

use crate::ether_base::big_endian::u64_of;
use crate::ether_peel::{PeelUnit, RestKind};
use crate::EtherType;

/// The broadcast address.
pub(in crate::ether_filter) const BROADCAST: u64 = 0xFFFF_FFFF_FFFF;

/// The fields of a header that primitives ask about.
#[derive(Clone, Copy)]
pub(in crate::ether_filter) enum Fields {
    /// The two addresses of an Ethernet II header.
    Link {
        destination: [u8; 6],
        source: [u8; 6],
    },
    /// The identifier of a VLAN tag.
    Tag(u16),
    SecTag,
    Arp,
    Other,
}

/// The fields of a unit's header.
#[inline]
pub(in crate::ether_filter) fn read_fields(unit: &PeelUnit<'_>) -> Fields {
    match unit {
        PeelUnit::Ethernet2(link) => Fields::Link {
            destination: link.destination(),
            source: link.source(),
        },
        PeelUnit::Vlan(tag) => Fields::Tag(tag.vlan_identifier().value()),
        PeelUnit::Macsec(_) => Fields::SecTag,
        PeelUnit::Arp(_) => Fields::Arp,
        _ => Fields::Other,
    }
}

/// An address as one number, its first byte the most significant one.
#[inline]
pub(in crate::ether_filter) fn address(bytes: [u8; 6]) -> u64 {
    let [a, b, c, d, e, f] = bytes;
    u64_of([0, 0, a, b, c, d, e, f])
}

/// The ether type that announces the rest, if one does.
#[inline]
pub(in crate::ether_filter) fn announced_type(kind: RestKind) -> Option<u16> {
    match kind {
        RestKind::EtherType(EtherType(number)) => Some(number),
        _ => None,
    }
}

/// Whether an address is a group address.
#[inline]
pub(in crate::ether_filter) fn is_group(address: u64) -> bool {
    address / (1 << 40) % 2 == 1
}
