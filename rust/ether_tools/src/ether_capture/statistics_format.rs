//! Writes the count of a key.

use crate::ether_capture::count::Count;
use crate::ether_capture::key_members::write_key_members;
use etherpeel::ether_output::{OutputBuffer, Sink, write_decimal};

/// How packets are counted, and how their counts are written.
#[derive(Clone, Copy, PartialEq, Eq, Debug)]
pub struct Counting {
    /// Packets are counted by the texts of all columns together, and not by those of each.
    pub is_joint: bool,
    /// How their counts are written.
    pub format: StatisticsFormat,
}

/// How counts are written.
#[derive(Clone, Copy, PartialEq, Eq, Debug)]
pub enum StatisticsFormat {
    /// Lines of fields, with a tab between two: columns, their texts, packets and bytes.
    Text,
    /// Lines of JSON (RFC 8259), each an object with these members.
    Json,
}

/// Writes the line of a key and its count.
pub(in crate::ether_capture) fn write_statistic<W: Sink>(
    format: StatisticsFormat,
    key: &[u8],
    count: Count,
    out: &mut OutputBuffer<'_, W>,
) {
    match format {
        StatisticsFormat::Text => write_fields(key, count, out),
        StatisticsFormat::Json => {
            out.append(b"{");
            write_key_members(key, out);
            out.append(b",\"packets\":");
            write_decimal(out, count.packets as u64);
            out.append(b",\"bytes\":");
            write_decimal(out, count.bytes as u64);
            out.append(b"}\n");
        }
    }
}

/// Writes a key and its count as fields, with a tab between two.
fn write_fields<W: Sink>(key: &[u8], count: Count, out: &mut OutputBuffer<'_, W>) {
    out.append(key);
    out.append(b"\t");
    write_decimal(out, count.packets as u64);
    out.append(b"\t");
    write_decimal(out, count.bytes as u64);
    out.append(b"\n");
}
