//! Writes a packet as a row of columns.

use crate::ether_format::Columns;
use crate::ether_format::column::Column;
use crate::ether_format::end::End;
use crate::ether_format::end_values::end_value;
use crate::ether_format::found::Found;
use crate::ether_format::gathered::{Gatherer, Headers, ROOM};
use crate::ether_format::json::write_comma;
use crate::ether_format::origin::Origin;
use crate::ether_format::spelling::write_column_value;
use crate::ether_format::times::{write_time, write_time_interval};
use crate::ether_format::value::{Shown, Value};
use crate::ether_format::values::packet_value;
use crate::ether_format::visit::{Visitor, visit};
use crate::ether_fields::Section;
use crate::ether_output::{OutputBuffer, Sink};
use crate::ether_pcap::{CapturedPacket, Timestamp};

/// A packet of a row, and the most VLAN tags and SecTags that are read of it.
#[derive(Clone, Copy)]
pub(in crate::ether_format) struct RowPacket<'a> {
    pub(in crate::ether_format) origin: &'a Origin<'a>,
    pub(in crate::ether_format) packet: &'a CapturedPacket<'a>,
    pub(in crate::ether_format) limit: Option<usize>,
}

/// Writes the row of a packet, and returns whether no header of the packet is refused.
///
/// One walk gathers the first headers for all columns. Only a column that has values in later headers walks again.
#[inline(never)]
pub(in crate::ether_format) fn write_row<W: Sink>(
    columns: &Columns,
    limit: Option<usize>,
    origin: &Origin<'_>,
    packet: &CapturedPacket<'_>,
    out: &mut OutputBuffer<'_, W>,
) -> bool {
    let mut headers = Headers::new();
    let mut gatherer = Gatherer::new();
    let end = visit(packet, limit, &mut gatherer, &mut headers);
    let row = RowPacket {
        origin,
        packet,
        limit,
    };
    let headers = headers.as_slice();
    write_columns(columns, &row, headers, &gatherer, &end, out);
    end.is_accepted()
}

/// Writes the columns of a row.
#[inline(always)]
fn write_columns<W: Sink>(
    columns: &Columns,
    row: &RowPacket<'_>,
    headers: &[Found<'_>],
    gatherer: &Gatherer,
    end: &End,
    out: &mut OutputBuffer<'_, W>,
) {
    let mut column = columns.first();
    let mut others = columns.others();
    loop {
        write_column(column, row, headers, gatherer, end, out);
        match others {
            [next, rest @ ..] => {
                out.append(b"\t");
                column = *next;
                others = rest;
            }
            [] => {
                out.append(b"\n");
                return;
            }
        }
    }
}

/// Writes a column.
#[inline(always)]
pub(in crate::ether_format) fn write_column<W: Sink>(
    column: Column,
    row: &RowPacket<'_>,
    headers: &[Found<'_>],
    gatherer: &Gatherer,
    end: &End,
    out: &mut OutputBuffer<'_, W>,
) {
    if column.section == Section::Frame {
        let index = usize::from(column.index);
        write_shown(
            packet_value(row.origin, row.packet, index),
            row.packet.time,
            out,
        );
    } else if is_end(column.section) {
        write_in_end(column, end, out);
    } else {
        write_in_all(column, row, headers, gatherer, out);
    }
}

/// Writes what a packet itself has in a field, if it has that.
#[inline(always)]
fn write_shown<W: Sink>(
    shown: Option<Shown<'_>>,
    time: Option<Timestamp>,
    out: &mut OutputBuffer<'_, W>,
) {
    match &shown {
        Some(Shown::Time) => write_time(time, out),
        Some(Shown::Within(interval)) => write_time_interval(*interval, time, out),
        Some(Shown::Value(value)) => write_column_value(value, out),
        None => {}
    }
}

/// Whether a section is one of how a walk ends.
#[inline(always)]
fn is_end(section: Section) -> bool {
    matches!(section, Section::Rest | Section::Fault)
}

/// Writes the value of a column in how a walk ends, if there is one.
#[inline(always)]
fn write_in_end<W: Sink>(column: Column, end: &End, out: &mut OutputBuffer<'_, W>) {
    if column.section == end.section() {
        write_only(end_value(end, usize::from(column.index)), out);
    }
}

/// Writes the values of a column in all headers.
#[inline(always)]
fn write_in_all<W: Sink>(
    column: Column,
    row: &RowPacket<'_>,
    headers: &[Found<'_>],
    gatherer: &Gatherer,
    out: &mut OutputBuffer<'_, W>,
) {
    let is_first = write_in_headers(column, headers, out);
    if gatherer.has(column.section) {
        write_later(column, is_first, row, out);
    }
}

/// Writes the values of a column in headers. Returns whether the next value is the first.
#[inline(always)]
fn write_in_headers<W: Sink>(
    column: Column,
    headers: &[Found<'_>],
    out: &mut OutputBuffer<'_, W>,
) -> bool {
    let mut is_first = true;
    for found in headers {
        is_first = write_value(is_first, column.in_found(found), out);
    }
    is_first
}

/// Writes the values of a column in the headers for which there was no room.
#[inline(never)]
fn write_later<W: Sink>(
    column: Column,
    is_first: bool,
    row: &RowPacket<'_>,
    out: &mut OutputBuffer<'_, W>,
) {
    let mut later = LaterValues {
        column,
        is_first,
        before: ROOM,
    };
    visit(row.packet, row.limit, &mut later, out);
}

/// Writes the values of a column in headers, but for the first ones.
#[derive(Clone, Copy)]
struct LaterValues {
    column: Column,
    /// Whether the next value is the first.
    is_first: bool,
    /// How many headers are left out.
    before: usize,
}

impl<'a, 'b, W: Sink> Visitor<'a, OutputBuffer<'b, W>> for LaterValues {
    #[inline(always)]
    fn header(&mut self, found: Found<'a>, target: &mut OutputBuffer<'b, W>) {
        if self.before > 0 {
            self.before -= 1;
        } else {
            self.is_first = write_value(self.is_first, self.column.in_found(&found), target);
        }
    }
}

/// Writes a value of a column, if there is one, after a comma unless it is the first. Returns whether the next value
/// is the first.
#[inline(always)]
fn write_value<W: Sink>(
    is_first: bool,
    value: Option<Value<'_>>,
    out: &mut OutputBuffer<'_, W>,
) -> bool {
    let Some(value) = &value else {
        return is_first;
    };
    write_comma(is_first, out);
    write_column_value(value, out);
    false
}

/// Writes the only value of a column, if there is one.
#[inline(always)]
fn write_only<W: Sink>(value: Option<Value<'_>>, out: &mut OutputBuffer<'_, W>) {
    if let Some(value) = &value {
        write_column_value(value, out);
    }
}
