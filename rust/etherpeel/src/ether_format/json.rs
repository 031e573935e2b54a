//! Writes a packet as a line of JSON.

use crate::ether_format::end::End;
use crate::ether_format::found::Found;
use crate::ether_format::found_header::FoundHeader;
use crate::ether_format::members;
use crate::ether_format::origin::Origin;
use crate::ether_output::{OutputBuffer, Sink};
use crate::ether_pcap::CapturedPacket;
use crate::ether_peel::PeelUnit;

/// Writes the object of a packet up to its list of headers: its members, and the name of that list.
#[inline]
pub(in crate::ether_format) fn write_json_front<W: Sink>(
    origin: &Origin<'_>,
    packet: &CapturedPacket<'_>,
    out: &mut OutputBuffer<'_, W>,
) {
    members::write_packet_members(origin, packet, out);
    out.append(b",\"headers\":[");
}

/// Writes a header as an object, after a comma unless it is the first.
#[inline(never)]
pub(in crate::ether_format) fn write_json_header<W: Sink>(
    is_first: bool,
    found: &Found<'_>,
    out: &mut OutputBuffer<'_, W>,
) {
    write_comma(is_first, out);
    members::write_placed(found.section, found.place, out);
    write_own(&found.header, out);
    out.append(b"}");
}

/// Writes the members of a header after its name and its place.
#[inline(always)]
pub(in crate::ether_format) fn write_own<W: Sink>(header: &FoundHeader<'_>, out: &mut OutputBuffer<'_, W>) {
    match header {
        FoundHeader::Walked(unit) => write_unit(unit, out),
        FoundHeader::Cooked(header) => members::write_cooked(header, out),
        FoundHeader::CookedV2(packet) => members::write_linux_sll2(packet, out),
    }
}

/// Writes the members of a header of the walk after its name and its place.
#[inline(always)]
pub(in crate::ether_format) fn write_unit<W: Sink>(unit: &PeelUnit<'_>, out: &mut OutputBuffer<'_, W>) {
    match unit {
        PeelUnit::Ethernet2(slice) => members::write_ethernet2(slice, out),
        PeelUnit::LinuxSll(slice) => members::write_linux_sll(slice, out),
        PeelUnit::Vlan(slice) => members::write_vlan(slice, out),
        PeelUnit::Macsec(slice) => members::write_macsec(&slice.header, out),
        PeelUnit::Arp(slice) => members::write_arp(slice, out),
    }
}

/// Writes the end of the list of headers, and how the walk through them ends.
#[inline]
pub(in crate::ether_format) fn write_json_end<W: Sink>(end: &End, out: &mut OutputBuffer<'_, W>) {
    write_end_front(end, out);
    out.append(b"}}\n");
}

/// .. up to the last member of how the walk ends.
#[inline(always)]
pub(in crate::ether_format) fn write_end_front<W: Sink>(end: &End, out: &mut OutputBuffer<'_, W>) {
    match end {
        End::Rest(start, end, kind) => {
            out.append(b"],\"rest\":");
            members::write_rest(*start, *end, kind, out);
        }
        End::Skipped(len) => {
            out.append(b"],\"rest\":");
            members::write_skipped(*len, out);
        }
        End::Fault(start, closed, cause) => {
            out.append(b"],\"fault\":");
            members::write_fault(*start, *closed, cause, out);
        }
    }
}

/// Writes a comma, but not before the first of several.
#[inline(always)]
pub(in crate::ether_format) fn write_comma<W: Sink>(is_first: bool, out: &mut OutputBuffer<'_, W>) {
    if !is_first {
        out.append(b",");
    }
}
