//! Replaces headers in place.

use crate::numbers::start_of;
use crate::statuses::{DONE, UNKNOWN_START};
use crate::{EtherReplaceError, EtherUnit, ether_replace_error};
use etherpeel::ether_packet::{ReplaceError, replace_arp, replace_link, replace_link_ext};

/// Replaces the link's header at the front of a frame, in place, by one of the same kind that says the same about what
/// follows it.
///
/// <details><summary>Contract</summary>
///
/// ```text
/// ensures unknown { IsUnknown start ether_type
///     → IsUnknownStart result ((frame.new ≡ frame.old) × (error.new ≡ error.old)) }
/// ensures given { OfStart start ether_type
///     (λ s. GivesReplaceLink s header.now frame.old frame.new error.old error.new result) }
/// ```
///
/// </details>
#[unsafe(no_mangle)]
pub unsafe extern "C" fn etherpeel_replace_link(
    start: u32,
    ether_type: u16,
    frame: *mut u8,
    frame_len: usize,
    header: &EtherUnit,
    error: &mut EtherReplaceError,
) -> u32 {
    let frame = unsafe { crate::by_hand::mutable(frame, frame_len) };
    let Some(start) = start_of(start, ether_type) else {
        return UNKNOWN_START;
    };
    match header.to_link() {
        Ok(link) => answer(replace_link(start, frame, &link), error),
        Err(status) => status,
    }
}

/// Replaces the VLAN tag or SecTag at an index, in place, by one of the same length that says the same about what
/// follows it.
///
/// <details><summary>Contract</summary>
///
/// ```text
/// ensures unknown { IsUnknown start ether_type
///     → IsUnknownStart result ((frame.new ≡ frame.old) × (error.new ≡ error.old)) }
/// ensures given { OfStart start ether_type
///     (λ s. GivesReplaceExt (start_of s) index header.now frame.old frame.new
///     error.old error.new result) }
/// ```
///
/// </details>
#[unsafe(no_mangle)]
pub unsafe extern "C" fn etherpeel_replace_link_ext(
    start: u32,
    ether_type: u16,
    frame: *mut u8,
    frame_len: usize,
    index: usize,
    header: &EtherUnit,
    error: &mut EtherReplaceError,
) -> u32 {
    let frame = unsafe { crate::by_hand::mutable(frame, frame_len) };
    let Some(start) = start_of(start, ether_type) else {
        return UNKNOWN_START;
    };
    match header.to_link_ext() {
        Ok(ext) => answer(replace_link_ext(start, frame, index, &ext), error),
        Err(status) => status,
    }
}

/// Replaces the ARP packet of a frame, in place, by one whose addresses have the same lengths, and are read from
/// `bytes`.
///
/// <details><summary>Contract</summary>
///
/// ```text
/// ensures unknown { IsUnknown start ether_type
///     → IsUnknownStart result ((frame.new ≡ frame.old) × (error.new ≡ error.old)) }
/// ensures given { OfStart start ether_type
///     (λ s. GivesReplaceArp (packet_start s) header.now bytes.now frame.old frame.new
///     error.old error.new result) }
/// ```
///
/// </details>
#[unsafe(no_mangle)]
pub unsafe extern "C" fn etherpeel_replace_arp(
    start: u32,
    ether_type: u16,
    frame: *mut u8,
    frame_len: usize,
    header: &EtherUnit,
    bytes: *const u8,
    bytes_len: usize,
    error: &mut EtherReplaceError,
) -> u32 {
    let frame = unsafe { crate::by_hand::mutable(frame, frame_len) };
    let bytes = unsafe { crate::by_hand::shared(bytes, bytes_len) };
    let Some(start) = start_of(start, ether_type) else {
        return UNKNOWN_START;
    };
    match header.to_arp(bytes) {
        Ok(packet) => answer(replace_arp(start, frame, &packet), error),
        Err(status) => status,
    }
}

/// Returns the status of a call, and writes its error if there is one.
fn answer(replaced: Result<(), ReplaceError>, error: &mut EtherReplaceError) -> u32 {
    match replaced {
        Ok(()) => DONE,
        Err(refusal) => {
            *error = EtherReplaceError::of(&refusal);
            ether_replace_error::status(&refusal)
        }
    }
}
