//! Selects packets by a filter.

use crate::statuses::{BAD_FILTER, DONE, NO_ROOM};
use crate::{EtherCaptured, EtherFilterError};
use etherpeel::ether_content::program::selects;
use etherpeel::ether_filter::{Filter, Instruction};

/// Writes for each packet 1 if a filter's expression holds for it, else 0.
///
/// For a packet of Linux cooked capture v2 the expression is about its payload. A packet whose link type the walk does
/// not know is never selected.
///
/// <details><summary>Contract</summary>
///
/// ```text
/// ensures { GivesSelection expression.now packets.now matches.old matches.new error.old error.new result }
/// ```
///
/// </details>
#[unsafe(no_mangle)]
pub unsafe extern "C" fn etherpeel_select(
    expression: *const u8,
    expression_len: usize,
    packets: *const EtherCaptured<'_>,
    packets_len: usize,
    matches: *mut u8,
    matches_len: usize,
    error: &mut EtherFilterError,
) -> u32 {
    let expression = unsafe { crate::by_hand::shared(expression, expression_len) };
    let packets = unsafe { crate::by_hand::shared(packets, packets_len) };
    let matches = unsafe { crate::by_hand::mutable(matches, matches_len) };
    match Filter::parse(expression) {
        Ok(filter) => put_marks(filter.instructions(), packets, matches),
        Err(refusal) => {
            *error = EtherFilterError::of(&refusal);
            BAD_FILTER
        }
    }
}

/// Writes the mark of each packet to the front of an array, if it has room for all of them.
pub(crate) fn put_marks(
    instructions: &[Instruction],
    packets: &[EtherCaptured<'_>],
    matches: &mut [u8],
) -> u32 {
    if matches.len() < packets.len() {
        return NO_ROOM;
    }
    for (at, packet) in packets.iter().enumerate() {
        matches[at] = mark(instructions, packet);
    }
    DONE
}

/// 1 if a filter selects a packet, else 0.
#[inline(always)]
pub(crate) fn mark(instructions: &[Instruction], packet: &EtherCaptured<'_>) -> u8 {
    if selects(instructions, &packet.to_packet()) {
        1
    } else {
        0
    }
}
