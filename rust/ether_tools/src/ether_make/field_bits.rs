//! The bits of a field.

use crate::ether_make::bits::{push_bits, push_bytes};
use crate::ether_make::objects::number_of;
use crate::ether_make::refusal::Reason;
use crate::ether_make::texts::{colon_bytes, dotted_bytes};
use etherpeel::ether_fields::{Extent, Kind};
use crate::ether_make::json::Value;
use crate::ether_make::memory::{AllocError, Global};

/// The bits of a field of a header, or why its value is refused. If no value is given, they are those of the rule's
/// number. A text spells the whole field, or the first `part` bits.
///
/// <details><summary>Contract</summary>
///
/// ```text
/// ensures { IfOk result (λ r. result_map (λ v. v.items) r
///     ≡ field_bits_in kind extent len part (option_map (λ v. view v.now) value.entry) rule) }
/// ```
///
/// </details>
pub fn field_bits(
    alloc: Global,
    kind: Kind,
    extent: Extent,
    len: Option<usize>,
    part: Option<usize>,
    value: Option<&Value>,
    rule: u64,
) -> Result<Result<Vec<bool>, Reason>, AllocError> {
    match (len, value) {
        (Some(len), Some(value)) => given_bits(alloc, kind, len, part.unwrap_or(len), value),
        (Some(len), None) => Ok(Ok(bits_of_number(alloc, len, rule)?)),
        (None, Some(_)) if extent != Extent::Computed => Ok(Err(Reason::Absent)),
        (None, _) => Ok(Ok(crate::ether_make::memory::list(alloc))),
    }
}

/// The bits of a value that is given.
fn given_bits(
    alloc: Global,
    kind: Kind,
    len: usize,
    spelled: usize,
    value: &Value,
) -> Result<Result<Vec<bool>, Reason>, AllocError> {
    if is_text(kind) {
        match value.as_str() {
            Some(text) => text_bits(alloc, kind, len, spelled, text.as_bytes()),
            None => Ok(Err(Reason::NotAText)),
        }
    } else {
        match number_of(value) {
            Some(number) => number_bits(alloc, len, number),
            None => Ok(Err(Reason::NotANumber)),
        }
    }
}

/// Whether bytes are given, as a text.
pub(in crate::ether_make) fn is_text(kind: Kind) -> bool {
    matches!(kind, Kind::Bytes | Kind::ProtocolAddress)
}

/// The bits of the bytes that a text spells, and zeros in the rest of the field.
fn text_bits(
    alloc: Global,
    kind: Kind,
    len: usize,
    spelled: usize,
    text: &[u8],
) -> Result<Result<Vec<bool>, Reason>, AllocError> {
    let Some(bytes) = text_bytes(alloc, kind, text)? else {
        return Ok(Err(Reason::NotBytes));
    };
    if !is_as_long(&bytes, spelled) {
        return Ok(Err(Reason::OtherLength));
    }
    let mut bits = crate::ether_make::memory::list_for(alloc, len)?;
    push_bytes(&mut bits, &bytes)?;
    push_bits(&mut bits, len.saturating_sub(spelled), 0)?;
    Ok(Ok(bits))
}

/// Whether bytes have as many bits.
pub(in crate::ether_make) fn is_as_long(bytes: &[u8], len: usize) -> bool {
    len % 8 == 0 && bytes.len() == len / 8
}

/// The bytes that a text spells.
pub(in crate::ether_make) fn text_bytes(
    alloc: Global,
    kind: Kind,
    text: &[u8],
) -> Result<Option<Vec<u8>>, AllocError> {
    if kind == Kind::ProtocolAddress && has_dot(text) {
        dotted_bytes(alloc, text)
    } else {
        colon_bytes(alloc, text)
    }
}

/// Whether a text has a dot.
///
/// <details><summary>Contract</summary>
///
/// ```text
/// ensures { result ≡ has_dot_in text.now }
/// ```
///
/// </details>
pub fn has_dot(text: &[u8]) -> bool {
    for c in text {
        if *c == b'.' {
            return true;
        }
    }
    false
}

/// The bits of a number that fits.
fn number_bits(
    alloc: Global,
    len: usize,
    number: u64,
) -> Result<Result<Vec<bool>, Reason>, AllocError> {
    if fits(number, len) {
        Ok(Ok(bits_of_number(alloc, len, number)?))
    } else {
        Ok(Err(Reason::TooBig))
    }
}

/// Whether a number has no more bits.
pub(in crate::ether_make) fn fits(number: u64, len: usize) -> bool {
    if len >= 64 {
        return true;
    }
    number < 1 << len
}

/// The last bits of a number.
fn bits_of_number(alloc: Global, len: usize, number: u64) -> Result<Vec<bool>, AllocError> {
    let mut bits = crate::ether_make::memory::list_for(alloc, len)?;
    push_bits(&mut bits, len, number)?;
    Ok(bits)
}
