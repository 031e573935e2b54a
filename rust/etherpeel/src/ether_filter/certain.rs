//! Decisions on primitives, by what is certain of a packet that was cut short.

use crate::ether_filter::cut_walk::{CutEnd, cut_walk};
use crate::ether_filter::deciding::{Opening, decide_field, decided, has_fcs};
use crate::ether_filter::decision::Decision;
use crate::ether_filter::instruction::of_primitive;
use crate::ether_filter::matching::matches_capture;
use crate::ether_filter::outcome::decide_seen;
use crate::ether_filter::packet::Packet;
use crate::ether_filter::primitive::Primitive;
use crate::ether_filter::seen::Seen;
use crate::ether_filter::without_fcs::{frame_total, without_fcs};

/// What is certain of a packet that was cut short.
#[derive(Clone, Copy)]
pub(in crate::ether_filter) struct Certain<'a> {
    /// The packet without a frame check sequence.
    pub packet: Packet<'a>,
    /// How its certain headers end.
    pub end: CutEnd<'a>,
}

/// Walks through a packet as far as its headers are certain. Keeps what they show as `look` does.
#[inline]
pub(in crate::ether_filter) fn find_certain<'a>(packet: &Packet<'a>, seen: &mut Seen, ids: &mut [u64]) -> Certain<'a> {
    if !has_fcs(packet.start) {
        return certain_of(*packet, seen, ids);
    }
    match without_fcs(packet) {
        Some(plain) => certain_of(plain, seen, ids),
        None => {
            seen.is_refused = true;
            Certain {
                packet: *packet,
                end: CutEnd::Refused,
            }
        }
    }
}

/// .. through a packet without a frame check sequence.
#[inline]
fn certain_of<'a>(plain: Packet<'a>, seen: &mut Seen, ids: &mut [u64]) -> Certain<'a> {
    let total = frame_total(&plain);
    let end = cut_walk(plain.start, plain.frame, total, seen, ids);
    Certain { packet: plain, end }
}

/// Decides a primitive.
#[inline]
pub(in crate::ether_filter) fn decide_test(
    primitive: Primitive,
    packet: &Packet<'_>,
    certain: Certain<'_>,
    seen: &Seen,
    ids: &[u64],
    opening: Option<Opening>,
) -> Decision {
    if let Primitive::Field(test) = primitive {
        return decide_field(test, packet, opening);
    }
    if let Some(matches) = matches_capture(&of_primitive(primitive), packet) {
        return decided(matches);
    }
    decide_seen(primitive, &certain.packet, seen, ids, certain.end)
}
