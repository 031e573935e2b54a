//! Decisions on tests of fields and on joined expressions, if not all bytes of a packet were captured.

use crate::ether_filter::decision::Decision;
use crate::ether_filter::field_match::matches_field;
use crate::ether_filter::field_test::{FieldTest, Relation};
use crate::ether_filter::node::Operator;
use crate::ether_filter::packet::Packet;
use crate::ether_filter::primitive::Primitive;
use crate::ether_peel::{PeelError, Start, summary};
use crate::err::Layer;

/// A length of the frame with which a packet might have further headers.
#[derive(Clone, Copy)]
pub(in crate::ether_filter) struct Opening {
    pub needed: usize,
    /// The layer of the unit that is refused for want of bytes. `None` if the frame ends in a frame check sequence,
    /// whose place is known only in the whole frame.
    pub layer: Option<Layer>,
}

/// The length with which a packet might have further headers; `None` if its headers are known.
#[inline]
pub(in crate::ether_filter) fn find_opening(packet: &Packet<'_>) -> Option<Opening> {
    let len = frame_len(packet.frame);
    let lost = lost(packet);
    if lost == 0 {
        return None;
    }
    if has_fcs(packet.start) {
        return Some(Opening {
            needed: len.saturating_add(lost),
            layer: None,
        });
    }
    let (missing, layer) = refused_unit(packet.start, packet.frame)?;
    if missing > lost {
        return None;
    }
    Some(Opening {
        needed: len.saturating_add(missing),
        layer: Some(layer),
    })
}

/// The number of bytes of a frame.
#[inline]
fn frame_len(frame: &[u8]) -> usize {
    frame.len()
}

/// The number of bytes that are missing at the end of a frame, and the layer of the unit that needs them. `None` if
/// more bytes would not help.
#[inline]
fn refused_unit(start: Start, frame: &[u8]) -> Option<(usize, Layer)> {
    let fault = summary(start, frame).fault?;
    let missing = fault.missing()?;
    match &fault.error {
        PeelError::Len(error) => Some((missing, error.layer)),
        _ => None,
    }
}

/// Whether a frame ends in a frame check sequence.
#[inline]
pub(in crate::ether_filter) fn has_fcs(start: Start) -> bool {
    matches!(start, Start::Ethernet2Fcs)
}

/// The number of bytes of a packet that were not captured.
#[inline]
pub(in crate::ether_filter) fn lost(packet: &Packet<'_>) -> usize {
    (packet.original_len as usize).saturating_sub(packet.captured_len)
}

/// The decision of a truth that no missing bytes change.
#[inline]
pub(in crate::ether_filter) fn decided(truth: bool) -> Decision {
    if truth {
        Decision::Matches
    } else {
        Decision::Fails
    }
}

/// Decides a test of a field by the headers so far.
#[inline]
pub(in crate::ether_filter) fn decide_field(
    test: FieldTest,
    packet: &Packet<'_>,
    opening: Option<Opening>,
) -> Decision {
    let holds = matches_field(test, packet.start, packet.frame);
    if let Some(opening) = opening {
        if !is_known(test, holds, opening) {
            return Decision::Needs(opening.needed);
        }
    }
    decided(holds)
}

/// Whether it is known if a test of a field holds for an open packet. `holds` says whether it does for the headers so
/// far.
#[inline]
fn is_known(test: FieldTest, holds: bool, opening: Opening) -> bool {
    match opening.layer {
        Some(layer) => !can_tell(layer, test) || asks_any(test.relation) && holds,
        None => false,
    }
}

/// Whether a test of a field can depend on a unit of this layer, or on one after it. Fields with the numbers up to 3 are
/// of an Ethernet II header.
#[inline]
fn can_tell(layer: Layer, test: FieldTest) -> bool {
    match layer {
        Layer::Ethernet2Header => true,
        _ => test.field > 3,
    }
}

/// Whether a primitive asks about an Ethernet II header, whose fields have the numbers up to 3.
#[inline]
pub(in crate::ether_filter) fn is_of_link(primitive: Primitive) -> bool {
    match primitive {
        Primitive::Source(_)
        | Primitive::Destination(_)
        | Primitive::Host(_)
        | Primitive::Broadcast
        | Primitive::Multicast => true,
        Primitive::Field(test) => test.field <= 3,
        _ => false,
    }
}

/// Whether a test with this relation asks whether any value has it.
#[inline]
fn asks_any(relation: Relation) -> bool {
    !matches!(relation, Relation::NotEqual)
}

/// The decision on two joined operands, in Kleene's logic.
#[inline]
pub(in crate::ether_filter) fn joined_decision(operator: Operator, left: Decision, right: Decision) -> Decision {
    match operator {
        Operator::And => both(left, right),
        Operator::Or => either(left, right),
    }
}

/// .. by `and`.
#[inline]
fn both(left: Decision, right: Decision) -> Decision {
    match (left, right) {
        (Decision::Needs(left), Decision::Needs(right)) => Decision::Needs(left.min(right)),
        (Decision::Needs(len), Decision::Matches) | (Decision::Matches, Decision::Needs(len)) => {
            Decision::Needs(len)
        }
        (Decision::Matches, Decision::Matches) => Decision::Matches,
        _ => Decision::Fails,
    }
}

/// .. by `or`.
#[inline]
fn either(left: Decision, right: Decision) -> Decision {
    match (left, right) {
        (Decision::Needs(left), Decision::Needs(right)) => Decision::Needs(left.min(right)),
        (Decision::Needs(len), Decision::Fails) | (Decision::Fails, Decision::Needs(len)) => {
            Decision::Needs(len)
        }
        (Decision::Fails, Decision::Fails) => Decision::Fails,
        _ => Decision::Matches,
    }
}

/// The decision on an expression after `not`.
#[inline]
pub(in crate::ether_filter) fn negated_decision(decision: Decision) -> Decision {
    match decision {
        Decision::Matches => Decision::Fails,
        Decision::Fails => Decision::Matches,
        Decision::Needs(len) => Decision::Needs(len),
    }
}
