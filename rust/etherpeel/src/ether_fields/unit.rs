//! The fields of a unit of a walk.

use crate::ether_fields::part::Sizes;
use crate::ether_fields::section::Section;
use crate::ether_peel::PeelUnit;
use crate::MacsecPType;

/// The section of the header of a unit.
///
/// <details><summary>Contract</summary>
///
/// ```text
/// ensures { result ≡ header_section (unit_header unit.now) }
/// ```
///
/// Words: [`header_section`](crate::definitions::ether_fields#def.header_section),
/// [`unit_header`](crate::definitions::ether_peel#def.unit_header). [Notation](crate::definitions::notation)
///
/// </details>
#[must_use]
#[inline(always)]
pub fn section_of(unit: &PeelUnit<'_>) -> Section {
    match unit {
        PeelUnit::Ethernet2(_) => Section::Eth,
        PeelUnit::LinuxSll(_) => Section::Sll,
        PeelUnit::Vlan(_) => Section::Vlan,
        PeelUnit::Macsec(_) => Section::Macsec,
        PeelUnit::Arp(_) => Section::Arp,
    }
}

/// How many bits the header of a unit has in fields that have not the same number of bits in each header.
///
/// <details><summary>Contract</summary>
///
/// ```text
/// ensures { result ≡ header_sizes (unit_header unit.now) }
/// ```
///
/// Words: [`header_sizes`](crate::definitions::ether_fields#def.header_sizes),
/// [`unit_header`](crate::definitions::ether_peel#def.unit_header). [Notation](crate::definitions::notation)
///
/// </details>
#[must_use]
#[inline]
pub fn sizes_of(unit: &PeelUnit<'_>) -> Sizes {
    match unit {
        PeelUnit::Ethernet2(_) | PeelUnit::LinuxSll(_) | PeelUnit::Vlan(_) => Sizes::NONE,
        PeelUnit::Macsec(packet) => Sizes {
            has_sci: packet.header.sci().is_some(),
            has_payload_type: matches!(packet.header.ptype(), MacsecPType::Unmodified(_)),
            ..Sizes::NONE
        },
        PeelUnit::Arp(packet) => Sizes {
            hardware: 8 * u16::from(packet.hw_addr_size()),
            protocol: 8 * u16::from(packet.proto_addr_size()),
            ..Sizes::NONE
        },
    }
}
