//! Writes a packet as a line.

use crate::ether_format::brief::{write_brief_end, write_brief_front, write_brief_header, write_brief_tail};
use crate::ether_format::end::End;
use crate::ether_format::found::Found;
use crate::ether_format::json::{write_json_end, write_json_front, write_json_header};
use crate::ether_format::origin::Origin;
use crate::ether_format::values::moment_if;
use crate::ether_format::visit::{Visitor, visit};
use crate::ether_output::{OutputBuffer, Sink};
use crate::ether_pcap::CapturedPacket;

/// How a line is formed.
#[derive(Clone, Copy)]
pub(in crate::ether_format) enum Line {
    Json,
    Brief,
}

/// Writes headers to a line.
#[derive(Clone, Copy)]
struct LineHeaders {
    line: Line,
    /// Whether the next header is the first of the packet.
    is_first: bool,
}

impl<'a, 'b, W: Sink> Visitor<'a, OutputBuffer<'b, W>> for LineHeaders {
    #[inline(always)]
    fn header(&mut self, found: Found<'a>, target: &mut OutputBuffer<'b, W>) {
        write_header(self.line, self.is_first, &found, target);
        self.is_first = false;
    }
}

/// Writes a packet as a line, and returns whether no header of it is refused.
#[inline(always)]
pub(in crate::ether_format) fn write_line<W: Sink>(
    line: Line,
    limit: Option<usize>,
    origin: &Origin<'_>,
    packet: &CapturedPacket<'_>,
    out: &mut OutputBuffer<'_, W>,
) -> bool {
    write_front(line, origin, packet, out);
    let mut headers = LineHeaders {
        line,
        is_first: true,
    };
    let end = visit(packet, limit, &mut headers, out);
    write_end(line, packet, &end, out);
    write_tail(line, packet, out);
    end.is_accepted()
}

/// Writes what comes before the headers of a packet.
#[inline(always)]
fn write_front<W: Sink>(
    line: Line,
    origin: &Origin<'_>,
    packet: &CapturedPacket<'_>,
    out: &mut OutputBuffer<'_, W>,
) {
    match line {
        Line::Json => write_json_front(origin, packet, out),
        Line::Brief => write_brief_front(origin.number, moment_if(packet.time), out),
    }
}

/// Writes a header. `is_first` says whether it is the first of the packet.
#[inline(always)]
fn write_header<W: Sink>(
    line: Line,
    is_first: bool,
    found: &Found<'_>,
    out: &mut OutputBuffer<'_, W>,
) {
    match line {
        Line::Json => write_json_header(is_first, found, out),
        Line::Brief => write_brief_header(&found.header, out),
    }
}

/// Writes how the walk through the headers of a packet ends.
#[inline(always)]
fn write_end<W: Sink>(
    line: Line,
    packet: &CapturedPacket<'_>,
    end: &End,
    out: &mut OutputBuffer<'_, W>,
) {
    match line {
        Line::Json => write_json_end(end, out),
        Line::Brief => write_brief_end(packet, end, out),
    }
}

/// Writes what comes after the end of a packet.
#[inline(always)]
fn write_tail<W: Sink>(line: Line, packet: &CapturedPacket<'_>, out: &mut OutputBuffer<'_, W>) {
    match line {
        Line::Json => {}
        Line::Brief => write_brief_tail(packet, out),
    }
}
