//! The places of the fields in a part of a unit.

use crate::ether_fields::extent::Extent;
use crate::ether_fields::part::Part;
use crate::ether_fields::section::Section;
use arrayvec::ArrayVec;

/// The number and the place of a field in its part of a unit.
#[derive(Clone, Copy, PartialEq, Eq, Hash, Debug, Default)]
pub struct FieldPlace {
    /// Its number in `enum etherpeel_field_name` of C.
    pub number: u32,
    /// The offset of its first bit from the start of that part.
    pub first: usize,
    /// The number of its bits.
    pub len: usize,
}

/// The most fields that have bits in one header.
const ROOM: usize = 13;

/// The number of names that precede the fields of a header: its name and its place.
const PLACE_LEN: usize = 5;

/// The places of the fields in a part of a unit, in order. The first begins at bit 0, and each where the one before it
/// ends.
///
/// <details><summary>Contract</summary>
///
/// ```text
/// ensures { result.items ≡ placed part.now 0 (drop 5 (section_rows section)) }
/// ```
///
/// Words: [`placed`](crate::definitions::ether_fields#def.placed),
/// [`section_rows`](crate::definitions::ether_fields#def.section_rows). [Notation](crate::definitions::notation)
///
/// </details>
#[must_use]
#[inline]
pub fn places(section: Section, part: &Part) -> ArrayVec<FieldPlace, ROOM> {
    let mut places = ArrayVec::new();
    let mut first = 0;
    let fields = section.fields();
    for field in &fields[PLACE_LEN.min(fields.len())..] {
        if let Some(len) = bits(field.extent, part) {
            places.push(FieldPlace {
                number: field.number,
                first,
                len,
            });
            first += len;
        }
    }
    places
}

/// How many bits a field has in a part of a unit, if it is there.
#[inline]
fn bits(extent: Extent, part: &Part) -> Option<usize> {
    let Part::Header(sizes) = part else {
        return if extent == Extent::CheckSequence {
            Some(32)
        } else {
            None
        };
    };
    match extent {
        Extent::Bits(len) => Some(usize::from(len)),
        Extent::HardwareAddress => Some(usize::from(sizes.hardware)),
        Extent::ProtocolAddress => Some(usize::from(sizes.protocol)),
        Extent::SecureChannel if sizes.has_sci => Some(64),
        Extent::PayloadType if sizes.has_payload_type => Some(16),
        _ => None,
    }
}
