//! Writes headers back, and what follows them.

use crate::numbers::start_of;
use crate::statuses::{DONE, NO_ROOM, UNKNOWN_START};
use etherpeel::ether_peel::{write_back, write_back_limited};
use etherpeel::err::SliceWriteSpaceError;

/// Writes the headers of a frame, and the window after them, to the front of a target.
///
/// <details><summary>Contract</summary>
///
/// ```text
/// ensures unknown { IsUnknown start ether_type
///     → IsUnknownStart result ((target.new ≡ target.old) × (len.new ≡ len.old)) }
/// ensures given { OfStart start ether_type
///     (λ s. GivesWriteBack (start_meant s) bytes.now target.old target.new result len.new) }
/// ```
///
/// </details>
#[unsafe(no_mangle)]
pub unsafe extern "C" fn etherpeel_write_back(
    start: u32,
    ether_type: u16,
    bytes: *const u8,
    bytes_len: usize,
    target: *mut u8,
    target_len: usize,
    len: &mut usize,
) -> u32 {
    let bytes = unsafe { crate::by_hand::shared(bytes, bytes_len) };
    let target = unsafe { crate::by_hand::mutable(target, target_len) };
    let Some(start) = start_of(start, ether_type) else {
        return UNKNOWN_START;
    };
    let (status, end) = answer(write_back(start, bytes, target));
    *len = end;
    status
}

/// Does as [`etherpeel_write_back`] for the walk that reads at most `limit` VLAN tags and MACsec SecTags.
///
/// <details><summary>Contract</summary>
///
/// ```text
/// ensures unknown { IsUnknown start ether_type
///     → IsUnknownStart result ((target.new ≡ target.old) × (len.new ≡ len.old)) }
/// ensures given { OfStart start ether_type
///     (λ s. GivesWriteBack (limited_start s limit) bytes.now target.old target.new
///     result len.new) }
/// ```
///
/// </details>
#[unsafe(no_mangle)]
pub unsafe extern "C" fn etherpeel_write_back_limited(
    start: u32,
    ether_type: u16,
    bytes: *const u8,
    bytes_len: usize,
    limit: usize,
    target: *mut u8,
    target_len: usize,
    len: &mut usize,
) -> u32 {
    let bytes = unsafe { crate::by_hand::shared(bytes, bytes_len) };
    let target = unsafe { crate::by_hand::mutable(target, target_len) };
    let Some(start) = start_of(start, ether_type) else {
        return UNKNOWN_START;
    };
    let (status, end) = answer(write_back_limited(start, bytes, target, limit));
    *len = end;
    status
}

/// Returns the status of the call, and a length: the number of bytes that were written, or that the target needs.
fn answer(written: Result<usize, SliceWriteSpaceError>) -> (u32, usize) {
    match written {
        Ok(end) => (DONE, end),
        Err(error) => (NO_ROOM, error.required_len),
    }
}
