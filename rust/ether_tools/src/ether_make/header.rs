//! The bytes of a header that an object means.

use crate::ether_make::bits::pack;
use crate::ether_make::field_bits::field_bits;
use crate::ether_make::objects::{first_given, given, unknown_member};
use crate::ether_make::refusal::{Fault, Reason, Refusal};
use crate::ether_make::sizes::{Lengths, len_of, lengths_of};
use etherpeel::ether_fields::{Field, Section};
use crate::ether_make::json::Value;
use crate::ether_make::memory::{Global, Taking};

/// The headers that are made.
static MADE: [Section; 6] = [
    Section::Eth,
    Section::Sll,
    Section::Sll2,
    Section::Vlan,
    Section::Macsec,
    Section::Arp,
];

/// The header that an object names.
///
/// <details><summary>Contract</summary>
///
/// ```text
/// ensures { result ≡ section_in_object (view object.now) }
/// ```
///
/// </details>
pub fn section_in(object: &Value) -> Result<Section, Reason> {
    let Some(value) = given(object, "header") else {
        return Err(Reason::Missing);
    };
    let Some(name) = value.as_str() else {
        return Err(Reason::NotAText);
    };
    match section_named(name) {
        Some(section) => Ok(section),
        None => Err(Reason::NotAHeader),
    }
}

/// The header with this name.
fn section_named(name: &str) -> Option<Section> {
    MADE.iter().copied().find(|section| section.name() == name)
}

/// The header that the first of some objects names.
///
/// <details><summary>Contract</summary>
///
/// ```text
/// ensures { result ≡ next_in (map view objects.now) }
/// ```
///
/// </details>
pub fn next_section(objects: &[Value]) -> Option<Section> {
    section_in(objects.first()?).ok()
}

/// The ether type that announces a header.
fn announced(next: Option<Section>) -> u64 {
    match next {
        Some(Section::Vlan) => 0x8100,
        Some(Section::Macsec) => 0x88E5,
        Some(Section::Arp) => 0x0806,
        _ => 0,
    }
}

/// The value of a field that is not given.
fn rule(lengths: &Lengths, next: Option<Section>, row: u32) -> u64 {
    match row {
        3 | 8 | 12 | 24 | 35 => announced(next),
        5 | 25 | 29 | 38 => 1,
        6 | 40 => lengths.address,
        15 => u64::from(lengths.sizes.has_sci),
        26 => 0x0800,
        27 => u64::from(lengths.sizes.hardware / 8),
        28 => u64::from(lengths.sizes.protocol / 8),
        _ => 0,
    }
}

/// How many bits of a field a text spells, if these are not all.
pub(in crate::ether_make) fn part(lengths: &Lengths, row: u32) -> Option<usize> {
    match row {
        7 | 41 => Some(8 * lengths.address.min(8) as usize),
        _ => None,
    }
}

/// The bits of a field.
fn field_meaning<'v>(
    alloc: Global,
    at: usize,
    lengths: &Lengths,
    next: Option<Section>,
    object: &'v Value,
    field: &'static Field,
) -> Result<Vec<bool>, Fault<'v>> {
    let value = first_given(object, field.name);
    let len = len_of(field.extent, &lengths.sizes);
    match field_bits(
        alloc,
        field.kind,
        field.extent,
        len,
        part(lengths, field.number),
        value,
        rule(lengths, next, field.number),
    ) {
        Ok(Ok(bits)) => Ok(bits),
        Ok(Err(reason)) => Err(Fault::Refused(Refusal {
            header: Some(at),
            member: field.name,
            reason,
        })),
        Err(_) => Err(Fault::Memory),
    }
}

/// The bits of fields, one field after the other.
fn fields_meaning<'v>(
    alloc: Global,
    at: usize,
    lengths: &Lengths,
    next: Option<Section>,
    object: &'v Value,
    fields: &'static [Field],
) -> Result<Vec<bool>, Fault<'v>> {
    let mut bits = crate::ether_make::memory::list(alloc);
    for field in fields {
        match field_meaning(alloc, at, lengths, next, object, field) {
            Ok(more) => {
                if bits.try_extend_from_slice(&more).is_err() {
                    return Err(Fault::Memory);
                }
            }
            Err(fault) => return Err(fault),
        }
    }
    Ok(bits)
}

/// The bits of a header.
fn header_bits<'v>(
    alloc: Global,
    at: usize,
    next: Option<Section>,
    object: &'v Value,
    section: Section,
) -> Result<Vec<bool>, Fault<'v>> {
    if let Some(member) = unknown_member(object, section.fields(), &[]) {
        return Err(Fault::Refused(Refusal {
            header: Some(at),
            member,
            reason: Reason::Unknown,
        }));
    }
    fields_meaning(
        alloc,
        at,
        &lengths_of(object),
        next,
        object,
        section.fields(),
    )
}

/// The bytes of a header.
fn header_bytes<'v>(
    alloc: Global,
    at: usize,
    next: Option<Section>,
    object: &'v Value,
) -> Result<Vec<u8>, Fault<'v>> {
    let section = match section_in(object) {
        Ok(section) => section,
        Err(reason) => {
            return Err(Fault::Refused(Refusal {
                header: Some(at),
                member: "header",
                reason,
            }));
        }
    };
    match header_bits(alloc, at, next, object, section) {
        Ok(bits) => packed_bytes(alloc, &bits),
        Err(fault) => Err(fault),
    }
}

/// The bytes of bits.
fn packed_bytes<'v>(alloc: Global, bits: &[bool]) -> Result<Vec<u8>, Fault<'v>> {
    let mut bytes = crate::ether_make::memory::list(alloc);
    match pack(&mut bytes, bits) {
        Ok(()) => Ok(bytes),
        Err(_) => Err(Fault::Memory),
    }
}

/// The bytes of headers, one header after the other.
///
/// <details><summary>Contract</summary>
///
/// ```text
/// ensures { Tells (λ v. v.items) (headers_bytes_in 0 (map view objects.now)) result }
/// ```
///
/// </details>
pub fn headers_bytes<'v>(alloc: Global, objects: &'v [Value]) -> Result<Vec<u8>, Fault<'v>> {
    let mut bytes = crate::ether_make::memory::list(alloc);
    for (at, object) in objects.iter().enumerate() {
        let next = next_section(&objects[at + 1..]);
        match header_bytes(alloc, at, next, object) {
            Ok(more) => {
                if bytes.try_extend_from_slice(&more).is_err() {
                    return Err(Fault::Memory);
                }
            }
            Err(fault) => return Err(fault),
        }
    }
    Ok(bytes)
}
