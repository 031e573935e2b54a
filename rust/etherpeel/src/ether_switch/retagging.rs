//! Puts tags into frames, changes them, and takes them off.

use crate::ether_switch::{Received, Vlan};
use crate::ether_packet::{TagError, pop_vlan, push_vlan, set_vlan_id};
use crate::ether_peel::Start;
use crate::{EtherType, SingleVlanHeader};

/// Puts the tag of its VLAN into a frame without a tag, after four free bytes of a buffer. The frame then begins at
/// index 0.
#[inline]
pub(in crate::ether_switch) fn tag(frame: &Received, buffer: &mut [u8]) -> Result<(), TagError> {
    let tag = SingleVlanHeader {
        pcp: frame.priority,
        drop_eligible_indicator: frame.drop_eligible,
        vlan_id: frame.vlan.id(),
        ether_type: EtherType(0),
    };
    push_vlan(Start::Ethernet2, buffer, tag, frame.kind.tpid())
}

/// Sets the identifier in the tag of a frame, after four bytes of a buffer.
#[inline]
pub(in crate::ether_switch) fn rename(vlan: Vlan, buffer: &mut [u8]) -> Result<(), TagError> {
    let (_, frame) = buffer.split_at_mut(4);
    set_vlan_id(Start::Ethernet2, frame, 0, vlan.id())
}

/// Takes the tag off a frame, after four bytes of a buffer. The frame then begins at index 8.
#[inline]
pub(in crate::ether_switch) fn untag(buffer: &mut [u8]) -> Result<SingleVlanHeader, TagError> {
    let (_, frame) = buffer.split_at_mut(4);
    pop_vlan(Start::Ethernet2, frame)
}
