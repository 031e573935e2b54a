//! Lines of counts.

use crate::ether_capture::count::Count;
use crate::ether_capture::rows::decimal_value;

/// The key and the count of a line, which has the key, its packets and its bytes with a tab between two. Returns `None`
/// if the line is not that of a count.
pub(in crate::ether_capture) fn count_in(line: &[u8]) -> Option<(&[u8], Count)> {
    let (front, bytes) = last_number(line)?;
    let (key, packets) = last_number(front)?;
    Some((key, Count { packets, bytes }))
}

/// The number after the last tab, and the text before that. Returns `None` if no number is there.
fn last_number(text: &[u8]) -> Option<(&[u8], usize)> {
    let (front, digits) = split_at_last(b'\t', text)?;
    if digits.is_empty() || !are_digits(digits) {
        return None;
    }
    let number = exact_value(digits)?;
    Some((front, number))
}

/// The number that decimal digits spell. Returns `None` if 64 bits don't hold it.
fn exact_value(digits: &[u8]) -> Option<usize> {
    let last = digits.len() - 1;
    let front = decimal_value(&digits[..last]).checked_mul(10)?;
    front.checked_add(usize::from(digits[last].saturating_sub(48)))
}

/// The parts of a text before and after the last `byte`. Returns `None` if it has no such byte.
fn split_at_last(byte: u8, text: &[u8]) -> Option<(&[u8], &[u8])> {
    let mut at = text.len();
    while at > 0 {
        at -= 1;
        if text[at] == byte {
            return Some((&text[..at], &text[at + 1..]));
        }
    }
    None
}

/// Tests that all bytes are decimal digits.
fn are_digits(text: &[u8]) -> bool {
    for digit in text {
        if !digit.is_ascii_digit() {
            return false;
        }
    }
    true
}
