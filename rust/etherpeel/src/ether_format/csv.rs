//! Writes a packet as a record of CSV (RFC 4180).

use crate::ether_format::Columns;
use crate::ether_format::column::Column;
use crate::ether_format::end::End;
use crate::ether_format::found::Found;
use crate::ether_format::gathered::{Gatherer, Headers};
use crate::ether_format::origin::Origin;
use crate::ether_format::row::{RowPacket, write_column};
use crate::ether_format::spelling::write_column_value;
use crate::ether_format::text::write_csv_text;
use crate::ether_format::times::{write_time, write_time_interval};
use crate::ether_format::value::{Shown, Value};
use crate::ether_format::values::packet_value;
use crate::ether_format::visit::{Visitor, visit};
use crate::ether_fields::Section;
use crate::ether_output::{OutputBuffer, Sink};
use crate::ether_pcap::{CapturedPacket, Timestamp};

/// Writes the record of a packet, and returns whether no header of the packet is refused.
#[inline(never)]
pub(in crate::ether_format) fn write_csv_row<W: Sink>(
    columns: &Columns,
    limit: Option<usize>,
    origin: &Origin<'_>,
    packet: &CapturedPacket<'_>,
    out: &mut OutputBuffer<'_, W>,
) -> bool {
    let mut headers = Headers::new();
    let mut gatherer = Gatherer::new();
    let end = visit(packet, limit, &mut gatherer, &mut headers);
    let row = RowPacket {
        origin,
        packet,
        limit,
    };
    let headers = headers.as_slice();
    write_record(columns, &row, headers, &gatherer, &end, out);
    end.is_accepted()
}

/// Writes the fields of a record.
#[inline]
fn write_record<W: Sink>(
    columns: &Columns,
    row: &RowPacket<'_>,
    headers: &[Found<'_>],
    gatherer: &Gatherer,
    end: &End,
    out: &mut OutputBuffer<'_, W>,
) {
    let mut column = columns.first();
    let mut others = columns.others();
    loop {
        write_field(column, row, headers, gatherer, end, out);
        match others {
            [next, rest @ ..] => {
                out.append(b",");
                column = *next;
                others = rest;
            }
            [] => {
                out.append(b"\r\n");
                return;
            }
        }
    }
}

/// Writes a column.
#[inline]
fn write_field<W: Sink>(
    column: Column,
    row: &RowPacket<'_>,
    headers: &[Found<'_>],
    gatherer: &Gatherer,
    end: &End,
    out: &mut OutputBuffer<'_, W>,
) {
    if column.section == Section::Frame {
        let index = usize::from(column.index);
        write_shown_if(
            packet_value(row.origin, row.packet, index),
            row.packet.time,
            out,
        );
    } else {
        write_values_field(column, row, headers, gatherer, end, out);
    }
}

/// Writes what a packet itself has in a field, if it has that.
#[inline]
fn write_shown_if<W: Sink>(
    shown: Option<Shown<'_>>,
    time: Option<Timestamp>,
    out: &mut OutputBuffer<'_, W>,
) {
    if let Some(shown) = shown {
        write_shown_field(shown, time, out);
    }
}

/// Writes what a packet itself has in a field. No time has a byte that asks for double quotes.
#[inline]
fn write_shown_field<W: Sink>(
    shown: Shown<'_>,
    time: Option<Timestamp>,
    out: &mut OutputBuffer<'_, W>,
) {
    match shown {
        Shown::Time => write_time(time, out),
        Shown::Within(interval) => write_time_interval(interval, time, out),
        Shown::Value(value) => write_value_field(&value, out),
    }
}

/// Writes a value as a field. Only a text or a word can have a byte that asks for double quotes.
#[inline]
fn write_value_field<W: Sink>(value: &Value<'_>, out: &mut OutputBuffer<'_, W>) {
    match text_of(value) {
        Some(text) => write_csv_text(text, out),
        None => write_column_value(value, out),
    }
}

/// The bytes of a text or a word.
#[inline]
fn text_of<'a>(value: &Value<'a>) -> Option<&'a [u8]> {
    match value {
        Value::Text(text) => Some(text),
        Value::Word(word) => Some(word.as_bytes()),
        _ => None,
    }
}

/// Writes a column of headers, or of how a walk ends. It is enclosed in double quotes if it has several values, since
/// there is a comma between two. None of them has a byte that asks for double quotes.
#[inline]
fn write_values_field<W: Sink>(
    column: Column,
    row: &RowPacket<'_>,
    headers: &[Found<'_>],
    gatherer: &Gatherer,
    end: &End,
    out: &mut OutputBuffer<'_, W>,
) {
    let is_enclosed = has_several(column, row, headers, gatherer);
    write_quote_if(is_enclosed, out);
    write_column(column, row, headers, gatherer, end, out);
    write_quote_if(is_enclosed, out);
}

/// Writes a double quote around a field that is enclosed.
#[inline]
fn write_quote_if<W: Sink>(is_enclosed: bool, out: &mut OutputBuffer<'_, W>) {
    if is_enclosed {
        out.append(b"\"");
    }
}

/// Whether a column has several values in the headers of a packet.
#[inline]
fn has_several(
    column: Column,
    row: &RowPacket<'_>,
    headers: &[Found<'_>],
    gatherer: &Gatherer,
) -> bool {
    if gatherer.has(column.section) {
        has_several_in_all(column, row)
    } else {
        count_in(column, headers).is_several()
    }
}

/// How many values a column has.
#[derive(Clone, Copy)]
enum Count {
    Zero,
    One,
    Several,
}

impl Count {
    /// Counts a value, if there is one.
    #[inline]
    fn and(self, value: Option<Value<'_>>) -> Count {
        match (value, self) {
            (None, count) => count,
            (Some(_), Count::Zero) => Count::One,
            (Some(_), Count::One | Count::Several) => Count::Several,
        }
    }

    /// Whether there are several.
    #[inline]
    fn is_several(self) -> bool {
        matches!(self, Count::Several)
    }
}

/// How many values a column has in these headers.
#[inline]
fn count_in(column: Column, headers: &[Found<'_>]) -> Count {
    let mut count = Count::Zero;
    for found in headers {
        count = count.and(column.in_found(found));
    }
    count
}

/// Whether a column has several values in the headers of a packet, which are walked again.
#[inline(never)]
fn has_several_in_all(column: Column, row: &RowPacket<'_>) -> bool {
    let mut count = Count::Zero;
    visit(
        row.packet,
        row.limit,
        &mut ValueCounter { column },
        &mut count,
    );
    count.is_several()
}

/// Counts the values of a column.
#[derive(Clone, Copy)]
struct ValueCounter {
    column: Column,
}

impl<'a> Visitor<'a, Count> for ValueCounter {
    #[inline]
    fn header(&mut self, found: Found<'a>, target: &mut Count) {
        *target = target.and(self.column.in_found(&found));
    }
}
