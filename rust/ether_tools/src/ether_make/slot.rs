//! Where the ranges of an object are in its frame.

use crate::ether_make::header::{part, section_in};
use crate::ether_make::objects::given;
use crate::ether_make::range::{NumberRange, range_of};
use crate::ether_make::refusal::{Fault, Reason, Refusal};
use crate::ether_make::sizes::{Lengths, len_of, lengths_of};
use etherpeel::ether_fields::{Field, Kind};
use crate::ether_make::json::Value;
use crate::ether_make::memory::{AllocError, Global, Taking};

/// The place of a range.
#[derive(Clone, Copy, PartialEq, Eq, Debug)]
pub struct Slot {
    /// How many bits of the frame precede it.
    pub at: usize,
    /// How many bits it has.
    pub len: usize,
    /// Its numbers.
    pub range: NumberRange,
    /// How many combinations the ranges before it have: it has its next number after so many frames. 0 if 64 bits do
    /// not count them: then it keeps its first number.
    pub below: u64,
}

/// What was found in headers.
#[derive(Debug)]
pub struct Found {
    /// The places of ranges.
    pub slots: Vec<Slot>,
    /// How many bits the headers have.
    pub bits: usize,
    /// How many combinations of numbers there are; 0 if 64 bits do not count them.
    pub combinations: u64,
}

/// What is found in the objects of headers, whose headers are made.
///
/// <details><summary>Contract</summary>
///
/// ```text
/// ensures { Tells found_view (after_headers_in 0 (map view objects.now) nothing) result }
/// ```
///
/// </details>
pub fn slots_of<'v>(alloc: Global, objects: &'v [Value]) -> Result<Found, Fault<'v>> {
    let mut found = Found {
        slots: crate::ether_make::memory::list(alloc),
        bits: 0,
        combinations: 1,
    };
    for (header, object) in objects.iter().enumerate() {
        match after_header(found, alloc, header, object) {
            Ok(more) => found = more,
            Err(fault) => return Err(fault),
        }
    }
    Ok(found)
}

/// .. and in one header more.
fn after_header<'v>(
    found: Found,
    alloc: Global,
    header: usize,
    object: &'v Value,
) -> Result<Found, Fault<'v>> {
    match section_in(object) {
        Ok(section) => after_fields(
            found,
            alloc,
            header,
            &lengths_of(object),
            object,
            section.fields(),
        ),
        Err(_) => Ok(found),
    }
}

/// .. and in these fields.
fn after_fields<'v>(
    found: Found,
    alloc: Global,
    header: usize,
    lengths: &Lengths,
    object: &'v Value,
    fields: &'static [Field],
) -> Result<Found, Fault<'v>> {
    let mut found = found;
    for field in fields {
        match after_field(found, alloc, header, lengths, object, field) {
            Ok(more) => found = more,
            Err(fault) => return Err(fault),
        }
    }
    Ok(found)
}

/// .. and in one field more.
fn after_field<'v>(
    found: Found,
    alloc: Global,
    header: usize,
    lengths: &Lengths,
    object: &'v Value,
    field: &'static Field,
) -> Result<Found, Fault<'v>> {
    match field_found(found, alloc, lengths, object, field) {
        Ok(Ok(found)) => Ok(found),
        Ok(Err(reason)) => Err(Fault::Refused(Refusal {
            header: Some(header),
            member: field.name,
            reason,
        })),
        Err(_) => Err(Fault::Memory),
    }
}

/// .. or why it is refused.
fn field_found(
    found: Found,
    alloc: Global,
    lengths: &Lengths,
    object: &Value,
    field: &Field,
) -> Result<Result<Found, Reason>, AllocError> {
    let Some(len) = len_of(field.extent, &lengths.sizes) else {
        return Ok(Ok(found));
    };
    let spelled = part(lengths, field.number).unwrap_or(len);
    match ranged(found, alloc, field.kind, spelled, given(object, field.name))? {
        Ok(found) => Ok(Ok(longer(found, len)?)),
        Err(reason) => Ok(Err(reason)),
    }
}

/// What was found, with a field after it.
fn longer(found: Found, len: usize) -> Result<Found, AllocError> {
    match found.bits.checked_add(len) {
        Some(bits) => Ok(Found {
            slots: found.slots,
            bits,
            combinations: found.combinations,
        }),
        None => Err(AllocError),
    }
}

/// What was found, with the range of a field if its value is one.
fn ranged(
    found: Found,
    alloc: Global,
    kind: Kind,
    len: usize,
    value: Option<&Value>,
) -> Result<Result<Found, Reason>, AllocError> {
    match value {
        Some(value) if value.is_object() => {
            let range = range_of(alloc, kind, len, value)?;
            with_range(found, len, range)
        }
        _ => Ok(Ok(found)),
    }
}

/// What was found, and a range.
fn with_range(
    found: Found,
    len: usize,
    range: Option<NumberRange>,
) -> Result<Result<Found, Reason>, AllocError> {
    let Some(range) = range else {
        return Ok(Err(Reason::NotARange));
    };
    let combinations = combined(found.combinations, &range);
    let mut slots = found.slots;
    slots.try_push(Slot {
        at: found.bits,
        len,
        range,
        below: found.combinations,
    })?;
    Ok(Ok(Found {
        slots,
        bits: found.bits,
        combinations,
    }))
}

/// The number of combinations with a range more, or 0 if it has more than 64 bits.
fn combined(combinations: u64, range: &NumberRange) -> u64 {
    if range.is_random {
        return combinations;
    }
    let product = u128::from(combinations) * (u128::from(range.last) + 1);
    u64::try_from(product).unwrap_or(0)
}
