//! Bytes as texts.

use crate::ether_make::memory::{AllocError, Global, Taking};

/// Pairs of hexadecimal digits.
///
/// <details><summary>Contract</summary>
///
/// ```text
/// ensures { IfOk result (λ o. option_map (λ v. v.items) o ≡ hex_in text.now) }
/// ```
///
/// </details>
pub fn hex_bytes(alloc: Global, text: &[u8]) -> Result<Option<Vec<u8>>, AllocError> {
    let mut bytes = crate::ether_make::memory::list(alloc);
    let mut at = 0;
    while at + 1 < text.len() {
        let Some(byte) = hex_pair(text[at], text[at + 1]) else {
            return Ok(None);
        };
        bytes.try_push(byte)?;
        at += 2;
    }
    if at < text.len() {
        return Ok(None);
    }
    Ok(Some(bytes))
}

/// Pairs of hexadecimal digits with a colon between two.
///
/// <details><summary>Contract</summary>
///
/// ```text
/// ensures { IfOk result (λ o. option_map (λ v. v.items) o ≡ colon_in text.now) }
/// ```
///
/// </details>
pub fn colon_bytes(alloc: Global, text: &[u8]) -> Result<Option<Vec<u8>>, AllocError> {
    let mut bytes = crate::ether_make::memory::list(alloc);
    if text.is_empty() {
        return Ok(Some(bytes));
    }
    let mut at = 0;
    while at + 1 < text.len() {
        if !is_after_colon(text, at) {
            return Ok(None);
        }
        let byte = match hex_pair(text[at], text[at + 1]) {
            Some(byte) => byte,
            None => return Ok(None),
        };
        bytes.try_push(byte)?;
        at += 3;
    }
    if at != text.len() + 1 {
        return Ok(None);
    }
    Ok(Some(bytes))
}

/// Whether a colon precedes a place, as if one preceded the text.
fn is_after_colon(text: &[u8], at: usize) -> bool {
    at == 0 || text[at - 1] == b':'
}

/// Numbers up to 255 with a dot between two.
///
/// <details><summary>Contract</summary>
///
/// ```text
/// ensures { IfOk result (λ o. option_map (λ v. v.items) o ≡ dotted_in text.now) }
/// ```
///
/// </details>
pub fn dotted_bytes(alloc: Global, text: &[u8]) -> Result<Option<Vec<u8>>, AllocError> {
    let mut bytes = crate::ether_make::memory::list(alloc);
    let mut number = None;
    for c in text {
        if *c == b'.' {
            let Some(byte) = number else {
                return Ok(None);
            };
            bytes.try_push(byte)?;
            number = None;
        } else {
            number = with_digit(number, *c);
            if number.is_none() {
                return Ok(None);
            }
        }
    }
    let Some(byte) = number else {
        return Ok(None);
    };
    bytes.try_push(byte)?;
    Ok(Some(bytes))
}

/// A number with one digit more: up to 255, and without a zero at its begin.
fn with_digit(number: Option<u8>, c: u8) -> Option<u8> {
    if !(b'0'..=b'9').contains(&c) {
        return None;
    }
    let digit = c - b'0';
    match number {
        None => Some(digit),
        Some(n) if n > 0 && 10 * u16::from(n) + u16::from(digit) < 256 => Some(10 * n + digit),
        Some(_) => None,
    }
}

/// Two hexadecimal digits.
fn hex_pair(a: u8, b: u8) -> Option<u8> {
    let high = hex_digit(a)?;
    let low = hex_digit(b)?;
    Some(16 * high + low)
}

/// A hexadecimal digit.
fn hex_digit(c: u8) -> Option<u8> {
    match c {
        b'0'..=b'9' => Some(c - b'0'),
        b'a'..=b'f' => Some(c - 87),
        b'A'..=b'F' => Some(c - 55),
        _ => None,
    }
}
