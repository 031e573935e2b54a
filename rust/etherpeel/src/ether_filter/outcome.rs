//! What a primitive decides, by what is certain of a packet that was cut short.

use crate::ether_filter::cut_walk::{CutEnd, CutUnit};
use crate::ether_filter::deciding::{decided, lost};
use crate::ether_filter::decision::Decision;
use crate::ether_filter::instruction::of_primitive;
use crate::ether_filter::least::least;
use crate::ether_filter::matching::matches_capture;
use crate::ether_filter::packet::Packet;
use crate::ether_filter::possible::{Told, possible};
use crate::ether_filter::primitive::Primitive;
use crate::ether_filter::seen::{Seen, is_seen};

/// Whether a primitive that tests no field matches a packet in which this was seen.
#[inline]
pub(in crate::ether_filter) fn matches_seen(
    primitive: Primitive,
    packet: &Packet<'_>,
    seen: &Seen,
    ids: &[u64],
) -> bool {
    let instruction = of_primitive(primitive);
    if let Some(matches) = is_seen(&instruction, seen, ids) {
        return matches;
    }
    let Some(matches) = matches_capture(&instruction, packet) else {
        return false; // not reached: it tests a field
    };
    matches
}

/// Whether there is a VLAN tag.
#[inline]
fn has_tag(seen: &Seen) -> bool {
    seen.outer.is_some()
}

/// Decides a primitive that tests no field, where a frame of `len` bytes ends in this unit, and `lost` bytes are missing.
#[inline]
fn decide_open(
    primitive: Primitive,
    told: Told,
    unit: CutUnit<'_>,
    len: usize,
    lost: usize,
) -> Decision {
    let can = possible(primitive, told, unit.kind, unit.known, unit.room);
    if !can.fails {
        return Decision::Matches;
    }
    if !can.matches {
        return Decision::Fails;
    }
    let needed = least(primitive, told, unit.kind, unit.known, unit.room);
    let further = needed.saturating_sub(unit.known.len());
    Decision::Needs(len + further.min(lost))
}

/// Decides a primitive that tests no field. The certain headers of the packet end so, and this was seen in them.
#[inline]
pub(in crate::ether_filter) fn decide_seen(
    primitive: Primitive,
    packet: &Packet<'_>,
    seen: &Seen,
    ids: &[u64],
    end: CutEnd<'_>,
) -> Decision {
    let is_match = matches_seen(primitive, packet, seen, ids);
    match end {
        CutEnd::Open(unit) => {
            let told = Told {
                is_match,
                has_tag: has_tag(seen),
            };
            decide_open(primitive, told, unit, packet.frame.len(), lost(packet))
        }
        CutEnd::Refused | CutEnd::Accepted => decided(is_match),
    }
}
