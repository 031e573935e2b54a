//! The text of the fault of a frame.

use crate::numbers::start_of;
use crate::putting::put_bytes;
use crate::statuses::{DONE, NO_TEXT, UNKNOWN_START};
use arrayvec::ArrayString;
use etherpeel::ether_peel::{PeelFault, summary, summary_limited};
use core::fmt::Write;

/// The text of every fault is shorter than this.
const LONGEST: usize = 512;

/// Writes the text of the fault that ends the walk through a frame, without a 0 byte at its end. It is empty if there
/// is no fault.
///
/// <details><summary>Contract</summary>
///
/// ```text
/// ensures unknown { IsUnknown start ether_type
///     → IsUnknownStart result ((text.new ≡ text.old) × (len.new ≡ len.old)) }
/// ensures given { OfStart start ether_type
///     (λ s. GivesText (start_meant s) bytes.now text.old text.new result len.new) }
/// ```
///
/// </details>
#[unsafe(no_mangle)]
pub unsafe extern "C" fn etherpeel_fault_text(
    start: u32,
    ether_type: u16,
    bytes: *const u8,
    bytes_len: usize,
    text: *mut u8,
    text_len: usize,
    len: &mut usize,
) -> u32 {
    let bytes = unsafe { crate::by_hand::shared(bytes, bytes_len) };
    let text = unsafe { crate::by_hand::mutable(text, text_len) };
    let Some(start) = start_of(start, ether_type) else {
        return UNKNOWN_START;
    };
    let found = summary(start, bytes);
    let (status, needed) = put_end_text(&found.fault, text);
    *len = needed;
    status
}

/// Does as [`etherpeel_fault_text`] for the walk that reads at most `limit` VLAN tags and MACsec SecTags.
///
/// <details><summary>Contract</summary>
///
/// ```text
/// ensures unknown { IsUnknown start ether_type
///     → IsUnknownStart result ((text.new ≡ text.old) × (len.new ≡ len.old)) }
/// ensures given { OfStart start ether_type
///     (λ s. GivesText (limited_start s limit) bytes.now text.old text.new result len.new) }
/// ```
///
/// </details>
#[unsafe(no_mangle)]
pub unsafe extern "C" fn etherpeel_fault_text_limited(
    start: u32,
    ether_type: u16,
    bytes: *const u8,
    bytes_len: usize,
    limit: usize,
    text: *mut u8,
    text_len: usize,
    len: &mut usize,
) -> u32 {
    let bytes = unsafe { crate::by_hand::shared(bytes, bytes_len) };
    let text = unsafe { crate::by_hand::mutable(text, text_len) };
    let Some(start) = start_of(start, ether_type) else {
        return UNKNOWN_START;
    };
    let found = summary_limited(start, bytes, limit);
    let (status, needed) = put_end_text(&found.fault, text);
    *len = needed;
    status
}

/// Writes the text of a fault to the front of a target, if there is a fault.
fn put_end_text(fault: &Option<PeelFault>, target: &mut [u8]) -> (u32, usize) {
    match fault {
        Some(fault) => put_text(fault, target),
        None => (DONE, 0),
    }
}

/// Writes the text of a fault to the front of a target.
fn put_text(fault: &PeelFault, target: &mut [u8]) -> (u32, usize) {
    match text_of(fault) {
        Some(text) => put_bytes(text.as_str().as_bytes(), target),
        None => (NO_TEXT, 0),
    }
}

/// The text of a fault. `None` is not ruled out, since no contract says that `write!` succeeds.
fn text_of(fault: &PeelFault) -> Option<ArrayString<LONGEST>> {
    let mut text: ArrayString<LONGEST> = ArrayString::new();
    match write!(text, "{fault}") {
        Ok(()) => Some(text),
        Err(_) => None,
    }
}
