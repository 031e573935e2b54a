//! Sets of what VLAN tags have: identifiers, a bit for each, and the ether types that announce tags.

use crate::EtherType;

/// The number of words that have a bit for each identifier.
pub(in crate::ether_filter) const WORDS: usize = 64;

/// The ether types that announce VLAN tags.
#[derive(Clone, Copy)]
pub(in crate::ether_filter) struct TagTypes {
    /// 0x8100.
    pub customer: bool,
    /// 0x88A8.
    pub service: bool,
    /// 0x9100.
    pub double: bool,
}

/// Adds an identifier, if there is a word for it.
#[inline(always)]
pub(in crate::ether_filter) fn mark(words: &mut [u64], id: u16) {
    let at = usize::from(id / 64);
    if at < words.len() {
        words[at] |= 1 << (id % 64);
    }
}

/// Whether an identifier was added.
#[inline(always)]
pub(in crate::ether_filter) fn has_id(words: &[u64], id: u16) -> bool {
    match words.get(usize::from(id / 64)) {
        Some(word) => *word >> (id % 64) & 1 == 1,
        None => false,
    }
}

/// Adds an ether type, if there is one.
#[inline(always)]
pub(in crate::ether_filter) fn set_type(types: &mut TagTypes, number: Option<u16>) {
    let Some(number) = number else {
        return;
    };
    match EtherType(number) {
        EtherType::VLAN_TAGGED_FRAME => types.customer = true,
        EtherType::PROVIDER_BRIDGING => types.service = true,
        EtherType::VLAN_DOUBLE_TAGGED_FRAME => types.double = true,
        _ => {}
    }
}

/// Whether an ether type is among these.
#[inline(always)]
pub(in crate::ether_filter) fn has_type(types: TagTypes, number: u16) -> bool {
    match EtherType(number) {
        EtherType::VLAN_TAGGED_FRAME => types.customer,
        EtherType::PROVIDER_BRIDGING => types.service,
        EtherType::VLAN_DOUBLE_TAGGED_FRAME => types.double,
        _ => false,
    }
}
