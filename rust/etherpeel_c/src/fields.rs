//! Writes the fields of a frame's headers to an array.

use crate::EtherField;
use crate::field_putting::put_table;
use crate::numbers::start_of;
use crate::statuses::{DONE, UNKNOWN_START};
use etherpeel::ether_fields::{Part, Section, places, section_of, sizes_of};
use etherpeel::ether_peel::{Peel, PeelUnit, Start};

/// Writes as many fields of a frame's headers as the array has room for, and the number of all its fields. An address
/// of length 0 is a field of 0 bits.
///
/// <details><summary>Contract</summary>
///
/// ```text
/// ensures unknown { IsUnknown start ether_type
///     → IsUnknownStart result ((fields.new ≡ fields.old) × (count.new ≡ count.old)) }
/// ensures given { OfStart start ether_type
///     (λ s. GivesFields (start_meant s) bytes.now fields.old fields.new result count.new) }
/// ```
///
/// </details>
#[unsafe(no_mangle)]
pub unsafe extern "C" fn etherpeel_fields(
    start: u32,
    ether_type: u16,
    bytes: *const u8,
    bytes_len: usize,
    fields: *mut EtherField,
    fields_len: usize,
    count: &mut usize,
) -> u32 {
    let bytes = unsafe { crate::by_hand::shared(bytes, bytes_len) };
    let fields = unsafe { crate::by_hand::mutable(fields, fields_len) };
    let Some(start) = start_of(start, ether_type) else {
        return UNKNOWN_START;
    };
    *count = fields_walked(start, bytes, fields);
    DONE
}

/// The index of a unit, the offset at which it starts, and that at which its payload ends.
#[derive(Clone, Copy)]
struct NumberedUnit {
    index: usize,
    start: usize,
    payload_end: usize,
}

/// Writes the fields of the units of a walk, and returns the number of all of them.
fn fields_walked(start: Start, bytes: &[u8], fields: &mut [EtherField]) -> usize {
    let mut peel = Peel::new(start, bytes);
    let mut count = 0;
    let mut index = 0;
    loop {
        let start = peel.offset();
        match peel.next() {
            Some(Ok(unit)) => {
                let place = NumberedUnit {
                    index,
                    start,
                    payload_end: peel.offset() + peel.rest().len(),
                };
                count = put_unit(bytes, &unit, place, fields, count);
                index += 1;
            }
            Some(Err(_)) => return count,
            None => return count,
        }
    }
}

/// Writes the fields of a unit to an array from an index on, and returns the index after them.
fn put_unit(
    bytes: &[u8],
    unit: &PeelUnit<'_>,
    place: NumberedUnit,
    fields: &mut [EtherField],
    at: usize,
) -> usize {
    let next = put_header(bytes, unit, place, fields, at);
    match unit {
        PeelUnit::Ethernet2(frame) if frame.fcs().is_some() => {
            let table = places(Section::Eth, &Part::Trailer);
            put_table(
                bytes,
                place.index,
                place.payload_end,
                table.as_slice(),
                fields,
                next,
            )
        }
        _ => next,
    }
}

/// Writes the fields of a unit's header.
fn put_header(
    bytes: &[u8],
    unit: &PeelUnit<'_>,
    place: NumberedUnit,
    fields: &mut [EtherField],
    at: usize,
) -> usize {
    let table = places(section_of(unit), &Part::Header(sizes_of(unit)));
    put_table(
        bytes,
        place.index,
        place.start,
        table.as_slice(),
        fields,
        at,
    )
}
