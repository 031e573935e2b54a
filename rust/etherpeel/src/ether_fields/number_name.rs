//! What numbers are called.

use crate::ether_fields::kind::Kind;
use crate::ether_fields::names::{
    ether_type_name, hardware_type_name, link_type_name, operation_name, packet_type_name,
};

/// The name of a number of this kind. Returns `None` if it has none here.
///
/// ```
/// use etherpeel::ether_fields::{Kind, name_of};
///
/// assert_eq!(name_of(Kind::EtherType, 0x0800), Some("IPv4"));
/// assert_eq!(name_of(Kind::EtherType, 0xFFFF), None);
/// ```
///
/// <details><summary>Contract</summary>
///
/// ```text
/// ensures { option_map (λ s. s.now) result ≡ description_in (names_of kind) number }
/// ```
///
/// Words: [`description_in`](crate::definitions::ether_base#def.description_in),
/// [`names_of`](crate::definitions::ether_fields#def.names_of). [Notation](crate::definitions::notation)
///
/// </details>
#[must_use]
#[inline(always)]
pub fn name_of(kind: Kind, number: u64) -> Option<&'static str> {
    match kind {
        Kind::EtherType => ether_type_name(number),
        Kind::HardwareType => hardware_type_name(number),
        Kind::PacketType => packet_type_name(number),
        Kind::Operation => operation_name(number),
        Kind::LinkType => link_type_name(number),
        _ => None,
    }
}
