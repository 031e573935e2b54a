//! Whether a primitive matches a packet.

use crate::ether_filter::field_match::{matches_field, matches_frame};
use crate::ether_filter::instruction::{FRAME_KINDS, Instruction, LENGTH_KINDS};
use crate::ether_filter::packet::Packet;
use crate::ether_filter::seen::{Seen, is_seen};

/// Whether the primitive of an instruction matches a packet in which this was seen; `None` for an operator.
#[inline(always)]
pub(in crate::ether_filter) fn matches_instruction(
    instruction: &Instruction,
    packet: &Packet<'_>,
    seen: &Seen,
    ids: &[u64],
) -> Option<bool> {
    if let Some(matches) = is_seen(instruction, seen, ids) {
        return Some(matches);
    }
    if let Some(matches) = matches_capture(instruction, packet) {
        return Some(matches);
    }
    match instruction.field_test() {
        Some(test) => Some(matches_field(test, packet.start, packet.frame)),
        None => None,
    }
}

/// Whether the primitive of an instruction matches a packet, if it asks what the capture says of the packet; else
/// `None`.
#[inline(always)]
pub(in crate::ether_filter) fn matches_capture(instruction: &Instruction, packet: &Packet<'_>) -> Option<bool> {
    if instruction.kind < LENGTH_KINDS {
        return None;
    }
    if instruction.kind >= FRAME_KINDS {
        return matches_frame_test(instruction, *packet);
    }
    matches_lengths(instruction, packet)
}

/// .. if it tests a field of the capture's.
#[inline(never)]
fn matches_frame_test(instruction: &Instruction, packet: Packet<'_>) -> Option<bool> {
    match instruction.frame_test() {
        Some(test) => Some(matches_frame(test, &packet)),
        None => None,
    }
}

/// .. if it has a word of its own, as `cut`.
#[inline(always)]
fn matches_lengths(instruction: &Instruction, packet: &Packet<'_>) -> Option<bool> {
    let len = (instruction.operand % (1 << 32)) as u32;
    match instruction.kind {
        12 => Some(packet.captured_len < packet.original_len as usize),
        13 => Some(packet.original_len <= len),
        14 => Some(packet.original_len >= len),
        _ => None,
    }
}
