//! The options that edit VLAN tags.

use etherpeel::ether_content::PacketEdit;
use etherpeel::ether_filter::number_of;
use etherpeel::ether_format::split_at;
use etherpeel::{EtherType, VlanId};

/// An edit whose value is two numbers with a colon between them.
#[derive(Clone, Copy)]
pub(in crate::ether_stream) enum TagEdit {
    /// A VLAN tag is pushed: its TPID and its identifier.
    Push,
    /// The identifier of a VLAN tag is changed: from the first number to the second.
    Set,
}

/// The edit that a text means. Returns `None` if it means none.
pub(in crate::ether_stream) fn tag_edit_of(kind: TagEdit, text: &[u8]) -> Option<PacketEdit> {
    let (first, second) = pair_of(text)?;
    match kind {
        TagEdit::Push => push_of(first, second),
        TagEdit::Set => set_of(first, second),
    }
}

/// The edit that pushes a VLAN tag, if the TPID announces one and the identifier has at most 12 bits.
fn push_of(tpid: u32, id: u32) -> Option<PacketEdit> {
    let tpid = EtherType(u16::try_from(tpid).ok()?);
    if !tpid.announces_vlan() {
        return None;
    }
    let vlan_id = vlan_id_of(id)?;
    Some(PacketEdit::PushVlan { tpid, vlan_id })
}

/// The edit that changes the identifier of a VLAN tag, if both have at most 12 bits.
fn set_of(old: u32, new: u32) -> Option<PacketEdit> {
    let from = vlan_id_of(old)?;
    let to = vlan_id_of(new)?;
    Some(PacketEdit::SetVlan { from, to })
}

/// The VLAN identifier of a number, if it has at most 12 bits.
fn vlan_id_of(number: u32) -> Option<VlanId> {
    if number > 4095 {
        return None;
    }
    match VlanId::try_new(number as u16) {
        Ok(id) => Some(id),
        Err(_) => None,
    }
}

/// The two numbers of a text, with a colon between them.
fn pair_of(text: &[u8]) -> Option<(u32, u32)> {
    let (before, after) = split_at(b':', text)?;
    let first = small_number(before)?;
    let second = small_number(after)?;
    Some((first, second))
}

/// The number of a text, if it has at most 32 bits.
pub(in crate::ether_stream) fn small_number(text: &[u8]) -> Option<u32> {
    match number_of(text) {
        Some(number) => number,
        None => None,
    }
}
