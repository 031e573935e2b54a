//! Writes a packet as a line of JSON that says each of its bytes.

use crate::ether_format::end::End;
use crate::ether_format::found::Found;
use crate::ether_format::found_header::FoundHeader;
use crate::ether_format::json::{write_comma, write_end_front, write_json_front, write_own, write_unit};
use crate::ether_format::members::{write_ethernet2_without_fcs, write_placed};
use crate::ether_format::origin::Origin;
use crate::ether_format::visit::{Visitor, visit};
use crate::ether_fields::Section;
use crate::ether_output::{OutputBuffer, Sink, digit_pair, write_decimal};
use crate::ether_pcap::CapturedPacket;
use crate::ether_peel::PeelUnit;

/// Writes headers with their reserved bits.
#[derive(Clone, Copy)]
struct ExactHeaders<'p> {
    /// The packet that has them.
    packet: &'p [u8],
    /// Whether the next header is the first of the packet.
    is_first: bool,
}

impl<'a, 'b, 'p, W: Sink> Visitor<'a, OutputBuffer<'b, W>> for ExactHeaders<'p> {
    #[inline(always)]
    fn header(&mut self, found: Found<'a>, target: &mut OutputBuffer<'b, W>) {
        write_exact_header(self.is_first, self.packet, &found, target);
        self.is_first = false;
    }
}

/// Writes a packet as a line, and returns whether no header of it is refused.
#[inline(never)]
pub(in crate::ether_format) fn write_json_bytes<W: Sink>(
    limit: Option<usize>,
    origin: &Origin<'_>,
    packet: &CapturedPacket<'_>,
    out: &mut OutputBuffer<'_, W>,
) -> bool {
    write_json_front(origin, packet, out);
    let mut headers = ExactHeaders {
        packet: packet.packet,
        is_first: true,
    };
    let end = visit(packet, limit, &mut headers, out);
    write_exact_end(packet.packet, &end, out);
    end.is_accepted()
}

/// Writes a header of a packet as an object, after a comma unless it is the first.
#[inline(never)]
fn write_exact_header<W: Sink>(
    is_first: bool,
    packet: &[u8],
    found: &Found<'_>,
    out: &mut OutputBuffer<'_, W>,
) {
    write_comma(is_first, out);
    write_placed(found.section, found.place, out);
    write_exact_own(&found.header, out);
    let bytes = bytes_from(packet, found.place.start);
    write_reserved(reserved_bits(found.section, bytes), out);
    out.append(b"}");
}

/// Writes the members of a header after its name and its place. A frame check sequence is none of them.
#[inline]
fn write_exact_own<W: Sink>(header: &FoundHeader<'_>, out: &mut OutputBuffer<'_, W>) {
    match header {
        FoundHeader::Walked(unit) => write_exact_unit(unit, out),
        _ => write_own(header, out),
    }
}

/// .. of a header of the walk.
#[inline]
fn write_exact_unit<W: Sink>(unit: &PeelUnit<'_>, out: &mut OutputBuffer<'_, W>) {
    match unit {
        PeelUnit::Ethernet2(slice) => write_ethernet2_without_fcs(slice, out),
        _ => write_unit(unit, out),
    }
}

/// Writes reserved bits as a member, unless they are 0.
#[inline]
fn write_reserved<W: Sink>(bits: u64, out: &mut OutputBuffer<'_, W>) {
    if bits != 0 {
        out.append(b",\"reserved\":");
        write_decimal(out, bits);
    }
}

/// The reserved bits of a header that these bytes begin with.
#[inline]
fn reserved_bits(section: Section, bytes: &[u8]) -> u64 {
    match section {
        Section::Macsec => byte_at(bytes, 1) / 64,
        Section::Sll2 => byte_at(bytes, 2) * 256 + byte_at(bytes, 3),
        _ => 0,
    }
}

/// The byte at an index, or 0 if there is none.
#[inline]
fn byte_at(bytes: &[u8], index: usize) -> u64 {
    match bytes.get(index) {
        Some(byte) => u64::from(*byte),
        None => 0,
    }
}

/// The bytes from an offset on; none if there are not that many.
#[inline]
fn bytes_from(bytes: &[u8], start: usize) -> &[u8] {
    &bytes[start.min(bytes.len())..]
}

/// Writes the end of the list of headers, and how the walk through them ends, with the bytes after them.
#[inline(never)]
fn write_exact_end<W: Sink>(packet: &[u8], end: &End, out: &mut OutputBuffer<'_, W>) {
    write_end_front(end, out);
    write_bytes(bytes_from(packet, end.headers_end()), out);
}

/// Writes the bytes after the headers as the last member.
#[inline]
fn write_bytes<W: Sink>(bytes: &[u8], out: &mut OutputBuffer<'_, W>) {
    out.append(b",\"bytes\":\"");
    write_digits(bytes, out);
    out.append(b"\"}}\n");
}

/// Writes two digits for each byte.
#[inline]
fn write_digits<W: Sink>(bytes: &[u8], out: &mut OutputBuffer<'_, W>) {
    for byte in bytes {
        out.append_array(digit_pair(*byte));
    }
}
