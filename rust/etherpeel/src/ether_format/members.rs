//! Writes the members of each header and of what else a packet tells, as an object has them.

use crate::ether_format::cause::Cause;
use crate::ether_format::end_values::{fault_value, rest_value, skipped_value};
use crate::ether_format::origin::Origin;
use crate::ether_format::place::Place;
use crate::ether_format::spelling::write_json_value;
use crate::ether_format::times::{write_json_interval, write_json_time};
use crate::ether_format::value::{Shown, Value};
use crate::ether_format::values::{
    arp_value, cooked_value, ethernet2_value, linux_sll_value, linux_sll2_value, macsec_value,
    packet_value, place_value, vlan_value,
};
use crate::ether_content::CookedHeader;
use crate::ether_fields::{Field, Section, rows};
use crate::ether_output::{OutputBuffer, Sink};
use crate::ether_pcap::{CapturedPacket, Timestamp};
use crate::ether_peel::RestKind;
use crate::ether_sll2::LinuxSll2Slice;
use crate::{
    ArpPacketSlice, Ethernet2Slice, LinuxSllSlice, MacsecHeaderSlice, SingleVlanSlice,
};

/// Writes a member: its name, with what precedes it, and its value.
///
/// It is expanded where it is called: there the compiler knows the name, and which kind of value has it.
#[inline(always)]
fn write_member<W: Sink>(field: &Field, value: Option<Value<'_>>, out: &mut OutputBuffer<'_, W>) {
    out.append(field.key.as_bytes());
    match &value {
        Some(value) => write_json_value(value, out),
        None => out.append(b"null"),
    }
}

/// [`write_member`] as a call.
#[inline(never)]
fn write_rare_member<W: Sink>(
    field: &Field,
    value: Option<Value<'_>>,
    out: &mut OutputBuffer<'_, W>,
) {
    write_member(field, value, out);
}

/// Writes a member of a packet itself.
#[inline(always)]
fn write_shown_member<W: Sink>(
    field: &Field,
    shown: Option<Shown<'_>>,
    time: Option<Timestamp>,
    out: &mut OutputBuffer<'_, W>,
) {
    match shown {
        Some(Shown::Time) => {
            out.append(field.key.as_bytes());
            write_json_time(time, out);
        }
        Some(Shown::Within(interval)) => {
            out.append(field.key.as_bytes());
            write_json_interval(interval, time, out);
        }
        Some(Shown::Value(value)) => write_member(field, Some(value), out),
        None => write_member(field, None, out),
    }
}

/// Writes the members of a packet itself, from the first member of its object on.
#[inline(always)]
pub(in crate::ether_format) fn write_packet_members<W: Sink>(
    origin: &Origin<'_>,
    packet: &CapturedPacket<'_>,
    out: &mut OutputBuffer<'_, W>,
) {
    write_shown_member(
        &rows::FRAME[0],
        packet_value(origin, packet, 0),
        packet.time,
        out,
    );
    write_shown_member(
        &rows::FRAME[1],
        packet_value(origin, packet, 1),
        packet.time,
        out,
    );
    write_shown_member(
        &rows::FRAME[2],
        packet_value(origin, packet, 2),
        packet.time,
        out,
    );
    write_shown_member(
        &rows::FRAME[3],
        packet_value(origin, packet, 3),
        packet.time,
        out,
    );
    write_shown_member(
        &rows::FRAME[4],
        packet_value(origin, packet, 4),
        packet.time,
        out,
    );
    write_shown_member(
        &rows::FRAME[5],
        packet_value(origin, packet, 5),
        packet.time,
        out,
    );
    write_shown_member(
        &rows::FRAME[6],
        packet_value(origin, packet, 6),
        packet.time,
        out,
    );
    write_shown_member(
        &rows::FRAME[7],
        packet_value(origin, packet, 7),
        packet.time,
        out,
    );
    write_shown_member(
        &rows::FRAME[8],
        packet_value(origin, packet, 8),
        packet.time,
        out,
    );
}

/// Writes the members that each header begins with: its name and its place.
#[inline(always)]
pub(in crate::ether_format) fn write_placed<W: Sink>(section: Section, place: Place, out: &mut OutputBuffer<'_, W>) {
    write_member(&rows::HEADERS[0], place_value(section, place, 0), out);
    write_member(&rows::HEADERS[1], place_value(section, place, 1), out);
    write_member(&rows::HEADERS[2], place_value(section, place, 2), out);
    write_member(&rows::HEADERS[3], place_value(section, place, 3), out);
    write_member(&rows::HEADERS[4], place_value(section, place, 4), out);
}

/// Writes the members of a header of Ethernet II.
#[inline(always)]
pub(in crate::ether_format) fn write_ethernet2<W: Sink>(slice: &Ethernet2Slice<'_>, out: &mut OutputBuffer<'_, W>) {
    write_member(&rows::ETH[5], ethernet2_value(slice, 0), out);
    write_member(&rows::ETH[6], ethernet2_value(slice, 1), out);
    write_member(&rows::ETH[7], ethernet2_value(slice, 2), out);
    write_member(&rows::ETH[8], ethernet2_value(slice, 3), out);
}

/// .. without a frame check sequence.
#[inline(never)]
pub(in crate::ether_format) fn write_ethernet2_without_fcs<W: Sink>(
    slice: &Ethernet2Slice<'_>,
    out: &mut OutputBuffer<'_, W>,
) {
    write_rare_member(&rows::ETH[5], ethernet2_value(slice, 0), out);
    write_rare_member(&rows::ETH[6], ethernet2_value(slice, 1), out);
    write_rare_member(&rows::ETH[7], ethernet2_value(slice, 2), out);
    write_rare_member(&rows::ETH[8], Some(Value::Nothing), out);
}

/// Writes the members of a VLAN tag.
#[inline(always)]
pub(in crate::ether_format) fn write_vlan<W: Sink>(slice: &SingleVlanSlice<'_>, out: &mut OutputBuffer<'_, W>) {
    write_member(&rows::VLAN[5], vlan_value(slice, 0), out);
    write_member(&rows::VLAN[6], vlan_value(slice, 1), out);
    write_member(&rows::VLAN[7], vlan_value(slice, 2), out);
    write_member(&rows::VLAN[8], vlan_value(slice, 3), out);
}

/// Writes the members of a SecTag.
#[inline(never)]
pub(in crate::ether_format) fn write_macsec<W: Sink>(tag: &MacsecHeaderSlice<'_>, out: &mut OutputBuffer<'_, W>) {
    write_member(&rows::MACSEC[5], macsec_value(tag, 0), out);
    write_member(&rows::MACSEC[7], macsec_value(tag, 2), out);
    write_member(&rows::MACSEC[9], macsec_value(tag, 4), out);
    write_member(&rows::MACSEC[10], macsec_value(tag, 5), out);
    write_member(&rows::MACSEC[11], macsec_value(tag, 6), out);
    write_member(&rows::MACSEC[12], macsec_value(tag, 7), out);
    write_member(&rows::MACSEC[14], macsec_value(tag, 9), out);
    write_member(&rows::MACSEC[15], macsec_value(tag, 10), out);
    write_member(&rows::MACSEC[16], macsec_value(tag, 11), out);
    write_member(&rows::MACSEC[17], macsec_value(tag, 12), out);
}

/// Writes the members of an ARP packet.
#[inline(always)]
pub(in crate::ether_format) fn write_arp<W: Sink>(packet: &ArpPacketSlice<'_>, out: &mut OutputBuffer<'_, W>) {
    write_member(&rows::ARP[5], arp_value(packet, 0), out);
    write_member(&rows::ARP[6], arp_value(packet, 1), out);
    write_member(&rows::ARP[7], arp_value(packet, 2), out);
    write_member(&rows::ARP[8], arp_value(packet, 3), out);
    write_member(&rows::ARP[9], arp_value(packet, 4), out);
    write_member(&rows::ARP[10], arp_value(packet, 5), out);
    write_member(&rows::ARP[11], arp_value(packet, 6), out);
    write_member(&rows::ARP[12], arp_value(packet, 7), out);
    write_member(&rows::ARP[13], arp_value(packet, 8), out);
}

/// Writes the members of a header of Linux cooked capture v1.
#[inline(never)]
pub(in crate::ether_format) fn write_linux_sll<W: Sink>(slice: &LinuxSllSlice<'_>, out: &mut OutputBuffer<'_, W>) {
    write_member(&rows::SLL[5], linux_sll_value(slice, 0), out);
    write_member(&rows::SLL[6], linux_sll_value(slice, 1), out);
    write_member(&rows::SLL[7], linux_sll_value(slice, 2), out);
    write_member(&rows::SLL[8], linux_sll_value(slice, 3), out);
    write_member(&rows::SLL[9], linux_sll_value(slice, 4), out);
}

/// Writes the members of a header of Linux cooked capture v1 that is not walked.
#[inline(never)]
pub(in crate::ether_format) fn write_cooked<W: Sink>(header: &CookedHeader, out: &mut OutputBuffer<'_, W>) {
    write_rare_member(&rows::SLL[5], cooked_value(header, 0), out);
    write_rare_member(&rows::SLL[6], cooked_value(header, 1), out);
    write_rare_member(&rows::SLL[7], cooked_value(header, 2), out);
    write_rare_member(&rows::SLL[8], cooked_value(header, 3), out);
    write_rare_member(&rows::SLL[9], cooked_value(header, 4), out);
}

/// Writes the members of a header of Linux cooked capture v2.
#[inline(never)]
pub(in crate::ether_format) fn write_linux_sll2<W: Sink>(packet: &LinuxSll2Slice<'_>, out: &mut OutputBuffer<'_, W>) {
    write_member(&rows::SLL2[5], linux_sll2_value(packet, 0), out);
    write_member(&rows::SLL2[7], linux_sll2_value(packet, 2), out);
    write_member(&rows::SLL2[8], linux_sll2_value(packet, 3), out);
    write_member(&rows::SLL2[9], linux_sll2_value(packet, 4), out);
    write_member(&rows::SLL2[10], linux_sll2_value(packet, 5), out);
    write_member(&rows::SLL2[11], linux_sll2_value(packet, 6), out);
}

/// Writes the members of what is left.
#[inline(always)]
pub(in crate::ether_format) fn write_rest<W: Sink>(
    start: usize,
    end: usize,
    kind: &RestKind,
    out: &mut OutputBuffer<'_, W>,
) {
    write_member(&rows::REST[0], rest_value(start, end, kind, 0), out);
    write_member(&rows::REST[1], rest_value(start, end, kind, 1), out);
    write_member(&rows::REST[2], rest_value(start, end, kind, 2), out);
    write_member(&rows::REST[3], rest_value(start, end, kind, 3), out);
}

/// Writes the members of a packet that is skipped.
#[inline(never)]
pub(in crate::ether_format) fn write_skipped<W: Sink>(len: usize, out: &mut OutputBuffer<'_, W>) {
    write_rare_member(&rows::REST[0], skipped_value(len, 0), out);
    write_rare_member(&rows::REST[1], skipped_value(len, 1), out);
    write_rare_member(&rows::REST[2], skipped_value(len, 2), out);
    write_rare_member(&rows::REST[3], skipped_value(len, 3), out);
}

/// Writes the members of a fault.
#[inline(never)]
pub(in crate::ether_format) fn write_fault<W: Sink>(
    start: usize,
    closed: bool,
    cause: &Cause,
    out: &mut OutputBuffer<'_, W>,
) {
    write_rare_member(&rows::FAULT[0], fault_value(start, closed, cause, 0), out);
    write_rare_member(&rows::FAULT[1], fault_value(start, closed, cause, 1), out);
    write_rare_member(&rows::FAULT[2], fault_value(start, closed, cause, 2), out);
    write_rare_member(&rows::FAULT[3], fault_value(start, closed, cause, 3), out);
    write_rare_member(&rows::FAULT[4], fault_value(start, closed, cause, 4), out);
    write_rare_member(&rows::FAULT[5], fault_value(start, closed, cause, 5), out);
    write_rare_member(&rows::FAULT[6], fault_value(start, closed, cause, 6), out);
}
