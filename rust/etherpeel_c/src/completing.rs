//! Completes the unit in which a frame ends.

use crate::numbers::start_of;
use crate::putting::put_bytes;
use crate::statuses::{DONE, UNKNOWN_START};
use arrayvec::ArrayVec;
use etherpeel::ether_peel::{completion, completion_limited};

/// Writes the fewest bytes that, appended to a frame cut short, make it accepted.
///
/// <details><summary>Contract</summary>
///
/// ```text
/// ensures unknown { IsUnknown start ether_type
///     → IsUnknownStart result ((fill.new ≡ fill.old) × (len.new ≡ len.old)) }
/// ensures given { OfStart start ether_type
///     (λ s. GivesCompletion (start_meant s) bytes.now fill.old fill.new result len.new) }
/// ```
///
/// </details>
#[unsafe(no_mangle)]
pub unsafe extern "C" fn etherpeel_completion(
    start: u32,
    ether_type: u16,
    bytes: *const u8,
    bytes_len: usize,
    fill: *mut u8,
    fill_len: usize,
    len: &mut usize,
) -> u32 {
    let bytes = unsafe { crate::by_hand::shared(bytes, bytes_len) };
    let fill = unsafe { crate::by_hand::mutable(fill, fill_len) };
    let Some(start) = start_of(start, ether_type) else {
        return UNKNOWN_START;
    };
    let found = completion(start, bytes);
    let (status, needed) = put_fill(&found, fill);
    *len = needed;
    status
}

/// Does as [`etherpeel_completion`] for the walk that reads at most `limit` VLAN tags and MACsec SecTags.
///
/// <details><summary>Contract</summary>
///
/// ```text
/// ensures unknown { IsUnknown start ether_type
///     → IsUnknownStart result ((fill.new ≡ fill.old) × (len.new ≡ len.old)) }
/// ensures given { OfStart start ether_type
///     (λ s. GivesCompletion (limited_start s limit) bytes.now fill.old fill.new result len.new) }
/// ```
///
/// </details>
#[unsafe(no_mangle)]
pub unsafe extern "C" fn etherpeel_completion_limited(
    start: u32,
    ether_type: u16,
    bytes: *const u8,
    bytes_len: usize,
    limit: usize,
    fill: *mut u8,
    fill_len: usize,
    len: &mut usize,
) -> u32 {
    let bytes = unsafe { crate::by_hand::shared(bytes, bytes_len) };
    let fill = unsafe { crate::by_hand::mutable(fill, fill_len) };
    let Some(start) = start_of(start, ether_type) else {
        return UNKNOWN_START;
    };
    let found = completion_limited(start, bytes, limit);
    let (status, needed) = put_fill(&found, fill);
    *len = needed;
    status
}

/// Writes the bytes of a completion to the front of a target, if there is a completion.
fn put_fill(found: &Option<ArrayVec<u8, 1028>>, target: &mut [u8]) -> (u32, usize) {
    match found {
        Some(fill) => put_bytes(fill.as_slice(), target),
        None => (DONE, 0),
    }
}
