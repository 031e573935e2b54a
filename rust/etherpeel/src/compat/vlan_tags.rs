//! The VLAN tags among the headers of a packet.

use crate::{DoubleVlanHeader, DoubleVlanSlice, SingleVlanHeader, SingleVlanSlice, VlanHeader, VlanSlice};

/// The most VLAN tags and SecTags of a packet that are read, as in etherparse.
pub(super) const MOST_LINK_EXTS: usize = 3;

/// A view of the first VLAN tag, or of the first two.
pub(super) fn first_slices<'a>(mut tags: impl Iterator<Item = SingleVlanSlice<'a>>) -> Option<VlanSlice<'a>> {
    let outer = tags.next()?;
    Some(match tags.next() {
        Some(inner) => VlanSlice::DoubleVlan(DoubleVlanSlice { outer, inner }),
        None => VlanSlice::SingleVlan(outer),
    })
}

/// The first VLAN tag, or the first two, as a value.
pub(super) fn first_headers(mut tags: impl Iterator<Item = SingleVlanHeader>) -> Option<VlanHeader> {
    let outer = tags.next()?;
    Some(match tags.next() {
        Some(inner) => VlanHeader::Double(DoubleVlanHeader { outer, inner }),
        None => VlanHeader::Single(outer),
    })
}
