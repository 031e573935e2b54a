//! Counts packets by the texts of their rows.

use crate::ether_capture::count::Count;
use crate::ether_capture::count_table::CountTable;
use crate::ether_capture::grouping::Grouping;
use crate::ether_capture::heap_text::HeapText;
use etherpeel::ether_format::split_at;
use crate::ether_stream::NoMemory;

/// Counts packets for the texts of their row, of all columns together or of each.
#[inline(always)]
pub(in crate::ether_capture) fn count_texts<G: Grouping>(
    heading: &[u8],
    texts: &[u8],
    count: Count,
    key: &mut HeapText,
    counts: &mut CountTable,
) -> Result<(), NoMemory> {
    if G::is_joint() {
        return count_together(heading, texts, count, key, counts);
    }
    count_each(heading, texts, count, key, counts)
}

/// Counts packets for the texts of all columns of their row together, unless all are empty.
fn count_together(
    heading: &[u8],
    texts: &[u8],
    count: Count,
    key: &mut HeapText,
    counts: &mut CountTable,
) -> Result<(), NoMemory> {
    if are_empty(texts) {
        return Ok(());
    }
    let (_, columns) = first_field(heading);
    count_text(or_nothing(columns), texts, count, key, counts)
}

/// Counts packets for each text of the columns of their row.
fn count_each(
    heading: &[u8],
    texts: &[u8],
    count: Count,
    key: &mut HeapText,
    counts: &mut CountTable,
) -> Result<(), NoMemory> {
    let (_, mut columns) = first_field(heading);
    let mut fields = Some(texts);
    while let (Some(names), Some(texts)) = (columns, fields) {
        let (column, later_columns) = first_field(names);
        let (text, later_fields) = first_field(texts);
        if !text.is_empty() {
            count_text(column, text, count, key, counts)?;
        }
        columns = later_columns;
        fields = later_fields;
    }
    Ok(())
}

/// Counts packets for the text of a column.
fn count_text(
    column: &[u8],
    text: &[u8],
    count: Count,
    key: &mut HeapText,
    counts: &mut CountTable,
) -> Result<(), NoMemory> {
    write_key(column, text, key)?;
    counts.add(key.as_slice(), count)
}

/// Replaces `key` by the key of a column's text: the column, a tab and the text.
fn write_key(column: &[u8], text: &[u8], key: &mut HeapText) -> Result<(), NoMemory> {
    key.clear();
    key.append(column)?;
    key.append(b"\t")?;
    key.append(text)?;
    Ok(())
}

/// A text, or nothing if there is none.
pub(in crate::ether_capture) fn or_nothing(text: Option<&[u8]>) -> &[u8] {
    match text {
        Some(text) => text,
        None => b"",
    }
}

/// Tests that all fields are empty.
fn are_empty(texts: &[u8]) -> bool {
    let mut rest = Some(texts);
    while let Some(left) = rest {
        let (text, later) = first_field(left);
        if !text.is_empty() {
            return false;
        }
        rest = later;
    }
    true
}

/// The first field, and the text after the tab that ends it, if there is one.
pub(in crate::ether_capture) fn first_field(text: &[u8]) -> (&[u8], Option<&[u8]>) {
    match split_at(b'\t', text) {
        Some((field, after)) => (field, Some(after)),
        None => (text, None),
    }
}
