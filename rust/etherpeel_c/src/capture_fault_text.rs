//! The text of the fault that ends a capture file.

use crate::capturing::captured;
use crate::putting::put_bytes;
use crate::statuses::{DONE, NO_TEXT};
use arrayvec::ArrayString;
use etherpeel::ether_pcap::CaptureFault;
use core::fmt::Write;

/// The text of every fault is shorter than this.
const LONGEST: usize = 512;

/// Writes the text of the fault that ends a capture file, without a 0 byte at its end. It is empty if there is no
/// fault.
///
/// <details><summary>Contract</summary>
///
/// ```text
/// ensures { GivesCaptureText file.now text.old text.new result len.new }
/// ```
///
/// </details>
#[unsafe(no_mangle)]
pub unsafe extern "C" fn etherpeel_capture_fault_text(file: *const u8, file_len: usize, text: *mut u8, text_len: usize, len: &mut usize) -> u32 {
    let file = unsafe { crate::by_hand::shared(file, file_len) };
    let text = unsafe { crate::by_hand::mutable(text, text_len) };
    let (_count, fault) = captured(file, &mut []);
    let (status, needed) = match &fault {
        Some(fault) => put_text(fault, text),
        None => (DONE, 0),
    };
    *len = needed;
    status
}

/// Writes the text of a fault to the front of a target.
fn put_text(fault: &CaptureFault, target: &mut [u8]) -> (u32, usize) {
    match text_of(fault) {
        Some(text) => put_bytes(text.as_str().as_bytes(), target),
        None => (NO_TEXT, 0),
    }
}

/// The text of a fault. `None` is not ruled out, since no contract says that `write!` succeeds.
fn text_of(fault: &CaptureFault) -> Option<ArrayString<LONGEST>> {
    let mut text: ArrayString<LONGEST> = ArrayString::new();
    match write!(text, "{fault}") {
        Ok(()) => Some(text),
        Err(_) => None,
    }
}
