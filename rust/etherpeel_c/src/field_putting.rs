//! Writes fields to an array.

use crate::EtherField;
use etherpeel::ether_fields::FieldPlace;

/// Writes the fields of a table, in what starts at a byte of the frame, to an array from an index on, and returns the
/// index after them.
pub(crate) fn put_table(
    bytes: &[u8],
    unit: usize,
    start: usize,
    table: &[FieldPlace],
    fields: &mut [EtherField],
    at: usize,
) -> usize {
    let mut next = at;
    for place in table {
        put(fields, next, EtherField::of(bytes, unit, start, *place));
        next += 1;
    }
    next
}

/// Writes a field to the index `at`, if the array has that index.
#[inline(always)]
fn put(fields: &mut [EtherField], at: usize, field: EtherField) {
    if at < fields.len() {
        fields[at] = field;
    }
}
