//! The text of the reason why a unit of a capture file can't be read.

use crate::putting::put_bytes;
use crate::reading_captures::read_unit;
use crate::statuses::{BAD_FIELD, DONE, NO_TEXT};
use crate::{EtherInterface, EtherReader};
use arrayvec::ArrayString;
use etherpeel::ether_pcap::CaptureError;
use core::fmt::Write;

/// The text of every error is shorter than this.
const LONGEST: usize = 512;

/// Writes the text of the reason why the unit at the front of bytes can't be read, without a 0 byte at its end. It is
/// empty if the unit can be read.
///
/// <details><summary>Contract</summary>
///
/// ```text
/// ensures unfit { expected_by reader.now interfaces.now ≡ None
///     → (result ≡ bad_field) × (text.new ≡ text.old) × (len.new ≡ len.old) }
/// ensures given { IfSome (expected_by reader.now interfaces.now)
///     (λ x. GivesUnitText bytes.now x text.old text.new result len.new) }
/// ```
///
/// </details>
#[unsafe(no_mangle)]
pub unsafe extern "C" fn etherpeel_reader_fault_text(
    reader: &EtherReader,
    interfaces: *const EtherInterface,
    interfaces_len: usize,
    bytes: *const u8,
    bytes_len: usize,
    text: *mut u8,
    text_len: usize,
    len: &mut usize,
) -> u32 {
    let interfaces = unsafe { crate::by_hand::shared(interfaces, interfaces_len) };
    let bytes = unsafe { crate::by_hand::shared(bytes, bytes_len) };
    let text = unsafe { crate::by_hand::mutable(text, text_len) };
    let (status, needed) = match read_unit(reader, interfaces, bytes) {
        Some(Ok(_)) => (DONE, 0),
        Some(Err(error)) => put_text(&error, text),
        None => return BAD_FIELD,
    };
    *len = needed;
    status
}

/// Writes the text of an error to the front of a target.
fn put_text(error: &CaptureError, target: &mut [u8]) -> (u32, usize) {
    match text_of(error) {
        Some(text) => put_bytes(text.as_str().as_bytes(), target),
        None => (NO_TEXT, 0),
    }
}

/// The text of an error. `None` is not ruled out, since no contract says that `write!` succeeds.
fn text_of(error: &CaptureError) -> Option<ArrayString<LONGEST>> {
    let mut text: ArrayString<LONGEST> = ArrayString::new();
    match write!(text, "{error}") {
        Ok(()) => Some(text),
        Err(_) => None,
    }
}
