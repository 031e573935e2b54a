//! The text of the error in an expression of a filter.

use crate::putting::put_bytes;
use crate::statuses::{DONE, NO_TEXT};
use arrayvec::ArrayString;
use etherpeel::ether_filter::{Filter, FilterError};
use core::fmt::Write;

/// The text of every error is shorter than this.
const LONGEST: usize = 512;

/// Writes why a text is not an expression, without a 0 byte at its end. What is written is empty if the text is an
/// expression.
///
/// <details><summary>Contract</summary>
///
/// ```text
/// ensures { GivesFilterText expression.now text.old text.new result len.new }
/// ```
///
/// </details>
#[unsafe(no_mangle)]
pub unsafe extern "C" fn etherpeel_filter_error_text(
    expression: *const u8,
    expression_len: usize,
    text: *mut u8,
    text_len: usize,
    len: &mut usize,
) -> u32 {
    let expression = unsafe { crate::by_hand::shared(expression, expression_len) };
    let text = unsafe { crate::by_hand::mutable(text, text_len) };
    let (status, needed) = match Filter::parse(expression) {
        Ok(_) => (DONE, 0),
        Err(error) => put_text(&error, text),
    };
    *len = needed;
    status
}

/// Writes the text of an error to the front of a target.
fn put_text(error: &FilterError, target: &mut [u8]) -> (u32, usize) {
    match text_of(error) {
        Some(text) => put_bytes(text.as_str().as_bytes(), target),
        None => (NO_TEXT, 0),
    }
}

/// The text of an error. `None` is not ruled out, since no contract says that `write!` succeeds.
fn text_of(error: &FilterError) -> Option<ArrayString<LONGEST>> {
    let mut text: ArrayString<LONGEST> = ArrayString::new();
    match write!(text, "{error}") {
        Ok(()) => Some(text),
        Err(_) => None,
    }
}
