//! Filters that are read once and then applied to many packets.

use crate::selecting::{mark, put_marks};
use crate::statuses::{BAD_FILTER, DONE};
use crate::{EtherCaptured, EtherFilter, EtherFilterError};
use etherpeel::ether_content::program::decide;
use etherpeel::ether_filter::Filter;

/// What is returned or written if the captured bytes of a packet do not decide whether a filter selects it.
pub(crate) const UNDECIDED: u32 = 2;

/// Reads the text of a filter into memory of the caller.
///
/// <details><summary>Contract</summary>
///
/// ```text
/// ensures { GivesFilter expression.now filter.old filter.new error.old error.new result }
/// ```
///
/// </details>
#[unsafe(no_mangle)]
pub unsafe extern "C" fn etherpeel_filter_parse(
    expression: *const u8,
    expression_len: usize,
    filter: &mut EtherFilter,
    error: &mut EtherFilterError,
) -> u32 {
    let expression = unsafe { crate::by_hand::shared(expression, expression_len) };
    match Filter::parse(expression) {
        Ok(parsed) => {
            filter.put(&parsed);
            DONE
        }
        Err(refusal) => {
            *error = EtherFilterError::of(&refusal);
            BAD_FILTER
        }
    }
}

/// 1 if a filter selects a packet, else 0.
///
/// <details><summary>Contract</summary>
///
/// ```text
/// ensures { (x : Expression) → IsFilterOf filter.now x → IsMark x packet.now result }
/// ```
///
/// </details>
#[unsafe(no_mangle)]
pub extern "C" fn etherpeel_filter_matches(filter: &EtherFilter, packet: &EtherCaptured<'_>) -> u32 {
    u32::from(mark(filter.program(), packet))
}

/// 1 if a filter selects a packet, and 0 if it does not, whatever its missing bytes are; else 2.
///
/// <details><summary>Contract</summary>
///
/// ```text
/// ensures { (x : Expression) → IsFilterOf filter.now x → IsDecision x packet.now result }
/// ```
///
/// </details>
#[unsafe(no_mangle)]
pub extern "C" fn etherpeel_filter_decide(filter: &EtherFilter, packet: &EtherCaptured<'_>) -> u32 {
    match decide(filter.program(), &packet.to_packet()) {
        Some(is_selected) => u32::from(is_selected),
        None => UNDECIDED,
    }
}

/// Writes for each packet 1 if a filter selects it, else 0.
///
/// <details><summary>Contract</summary>
///
/// ```text
/// ensures { (x : Expression) → IsFilterOf filter.now x → PutsMarks x packets.now matches.old matches.new result }
/// ```
///
/// </details>
#[unsafe(no_mangle)]
pub unsafe extern "C" fn etherpeel_filter_select(
    filter: &EtherFilter,
    packets: *const EtherCaptured<'_>,
    packets_len: usize,
    matches: *mut u8,
    matches_len: usize,
) -> u32 {
    let packets = unsafe { crate::by_hand::shared(packets, packets_len) };
    let matches = unsafe { crate::by_hand::mutable(matches, matches_len) };
    put_marks(filter.program(), packets, matches)
}
