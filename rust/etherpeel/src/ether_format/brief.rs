//! Writes the parts of a line for the eye: the packet's number and time, its headers, and how the walk ends.

use crate::ether_format::Moment;
use crate::ether_format::cause::Cause;
use crate::ether_format::end::End;
use crate::ether_format::end_values::kind_word;
use crate::ether_format::found_header::FoundHeader;
use crate::ether_format::spelling::{
    first_of, has_date, mac_text, nine_digits, write_colons, write_date, write_dotted,
};
use crate::ether_format::values::{changed_bit, encrypted_bit, used};
use crate::ether_content::{CookedHeader, is_cut};
use crate::ether_fields::{Kind, name_of};
use crate::ether_output::{OutputBuffer, Sink, hex_type, write_decimal, write_number};
use crate::ether_pcap::{CapturedPacket, LinkType};
use crate::ether_peel::{PeelUnit, RestKind};
use crate::ether_sll2::LinuxSll2Slice;
use crate::err::Layer;
use crate::{
    ArpPacketSlice, EtherType, Ethernet2Slice, LinuxSllSlice, MacsecHeaderSlice, SingleVlanSlice,
};

/// Writes a header, after a space.
#[inline(always)]
pub(in crate::ether_format) fn write_brief_header<W: Sink>(header: &FoundHeader<'_>, out: &mut OutputBuffer<'_, W>) {
    match header {
        FoundHeader::Walked(unit) => write_unit(unit, out),
        FoundHeader::Cooked(header) => write_cooked(header, out),
        FoundHeader::CookedV2(packet) => write_linux_sll2(packet, out),
    }
}

/// Writes a header of the walk, after a space.
#[inline]
fn write_unit<W: Sink>(unit: &PeelUnit<'_>, out: &mut OutputBuffer<'_, W>) {
    match unit {
        PeelUnit::Ethernet2(slice) => write_ethernet2(slice, out),
        PeelUnit::LinuxSll(slice) => write_linux_sll(slice, out),
        PeelUnit::Vlan(slice) => write_vlan(slice, out),
        PeelUnit::Macsec(slice) => write_macsec(&slice.header, out),
        PeelUnit::Arp(slice) => write_arp(slice, out),
    }
}

/// Writes ` SOURCE > DESTINATION`.
#[inline]
fn write_ethernet2<W: Sink>(slice: &Ethernet2Slice<'_>, out: &mut OutputBuffer<'_, W>) {
    out.append(b" ");
    out.append_array(mac_text(slice.source()));
    out.append(b" > ");
    out.append_array(mac_text(slice.destination()));
}

/// Writes ` vlan VID pcp PCP`, and ` dei` if that bit is set.
#[inline]
fn write_vlan<W: Sink>(slice: &SingleVlanSlice<'_>, out: &mut OutputBuffer<'_, W>) {
    write_number(out, b" vlan ", u64::from(slice.vlan_identifier().value()));
    write_number(
        out,
        b" pcp ",
        u64::from(slice.priority_code_point().value()),
    );
    if slice.drop_eligible_indicator() {
        out.append(b" dei");
    }
}

/// Writes ` macsec an AN pn PN`: the association number and the packet number; then the SCI and the bits.
#[inline]
fn write_macsec<W: Sink>(tag: &MacsecHeaderSlice<'_>, out: &mut OutputBuffer<'_, W>) {
    write_number(out, b" macsec an ", u64::from(tag.an().value()));
    write_number(out, b" pn ", tag.packet_nr() as u64);
    write_sci(tag.sci(), out);
    write_macsec_bits(tag, out);
}

/// Writes ` sci ADDRESS/PORT`, if there is an SCI.
#[inline]
fn write_sci<W: Sink>(sci: Option<u64>, out: &mut OutputBuffer<'_, W>) {
    if let Some(sci) = sci {
        out.append(b" sci ");
        write_colons(first_of(&sci.to_be_bytes(), 6), out);
        write_number(out, b"/", sci % 65_536);
    }
}

/// Writes a word for each bit of a SecTag that is set.
#[inline]
fn write_macsec_bits<W: Sink>(tag: &MacsecHeaderSlice<'_>, out: &mut OutputBuffer<'_, W>) {
    write_if(u64::from(tag.endstation_id()), b" es", out);
    write_if(u64::from(tag.tci_scb()), b" scb", out);
    write_if(encrypted_bit(tag.ptype()), b" encrypted", out);
    write_if(changed_bit(tag.ptype()), b" changed", out);
}

/// Writes a word if a bit is 1.
#[inline]
fn write_if<W: Sink>(bit: u64, word: &[u8], out: &mut OutputBuffer<'_, W>) {
    if bit == 1 {
        out.append(word);
    }
}

/// Writes an ARP packet: as a request, a reply, or another operation by its number.
#[inline]
fn write_arp<W: Sink>(packet: &ArpPacketSlice<'_>, out: &mut OutputBuffer<'_, W>) {
    let operation = packet.operation().0;
    if operation == 1 {
        write_arp_request(packet, out);
    } else if operation == 2 {
        write_arp_reply(packet, out);
    } else {
        write_arp_other(packet, out);
    }
}

/// Writes ` ARP who-has TARGET tell SENDER`, by their protocol addresses.
#[inline]
fn write_arp_request<W: Sink>(packet: &ArpPacketSlice<'_>, out: &mut OutputBuffer<'_, W>) {
    let protocol = packet.proto_addr_type();
    out.append(b" ARP who-has ");
    write_address(protocol, packet.target_protocol_addr(), out);
    out.append(b" tell ");
    write_address(protocol, packet.sender_protocol_addr(), out);
}

/// Writes ` ARP reply SENDER is-at HARDWARE`.
#[inline]
fn write_arp_reply<W: Sink>(packet: &ArpPacketSlice<'_>, out: &mut OutputBuffer<'_, W>) {
    let protocol = packet.proto_addr_type();
    out.append(b" ARP reply ");
    write_address(protocol, packet.sender_protocol_addr(), out);
    out.append(b" is-at ");
    write_colons(packet.sender_hw_addr(), out);
}

/// Writes ` ARP op NUMBER from SENDER to TARGET`.
#[inline]
fn write_arp_other<W: Sink>(packet: &ArpPacketSlice<'_>, out: &mut OutputBuffer<'_, W>) {
    let protocol = packet.proto_addr_type();
    write_number(out, b" ARP op ", u64::from(packet.operation().0));
    out.append(b" from ");
    write_address(protocol, packet.sender_protocol_addr(), out);
    out.append(b" to ");
    write_address(protocol, packet.target_protocol_addr(), out);
}

/// Writes a protocol address: of IPv4 with dots, any other in hexadecimal digits with colons.
#[inline]
fn write_address<W: Sink>(protocol: EtherType, bytes: &[u8], out: &mut OutputBuffer<'_, W>) {
    if protocol == EtherType::IPV4 && bytes.len() == 4 {
        write_dotted(bytes, out);
    } else {
        write_colons(bytes, out);
    }
}

/// Writes a header of cooked capture v1.
#[inline(never)]
fn write_linux_sll<W: Sink>(slice: &LinuxSllSlice<'_>, out: &mut OutputBuffer<'_, W>) {
    let address = slice.sender_address_full();
    let len = usize::from(slice.sender_address_valid_length());
    write_sender(slice.packet_type_number(), first_of(&address, len), out);
}

/// Writes ` cooked TYPE from ADDRESS`: how the packet was sent, and the sender's address.
#[inline]
fn write_sender<W: Sink>(packet_type: u16, address: &[u8], out: &mut OutputBuffer<'_, W>) {
    out.append(b" cooked ");
    write_packet_type(packet_type, out);
    out.append(b" from ");
    write_colons(address, out);
}

/// Writes a packet type by its name, or as a number if it has no name.
#[inline]
fn write_packet_type<W: Sink>(packet_type: u16, out: &mut OutputBuffer<'_, W>) {
    match name_of(Kind::PacketType, u64::from(packet_type)) {
        Some(name) => out.append(name.as_bytes()),
        None => write_number(out, b"type ", u64::from(packet_type)),
    }
}

/// Writes a header of cooked capture v1 that is not walked.
#[inline(never)]
fn write_cooked<W: Sink>(header: &CookedHeader, out: &mut OutputBuffer<'_, W>) {
    let address = used(&header.address, usize::from(header.address_len));
    write_sender(header.packet_type, address, out);
}

/// Writes a header of cooked capture v2.
#[inline(never)]
fn write_linux_sll2<W: Sink>(packet: &LinuxSll2Slice<'_>, out: &mut OutputBuffer<'_, W>) {
    let packet_type = u16::from(packet.packet_type_number());
    let address = packet.sender_address_full();
    let len = usize::from(packet.sender_address_valid_length());
    write_number(out, b" if ", packet.interface_index() as u64);
    write_sender(packet_type, first_of(&address, len), out);
}

/// Writes how the walk through a packet ends, after a space.
#[inline]
pub(in crate::ether_format) fn write_brief_end<W: Sink>(
    packet: &CapturedPacket<'_>,
    end: &End,
    out: &mut OutputBuffer<'_, W>,
) {
    match end {
        End::Rest(start, end, kind) => write_rest(packet, *start, *end, kind, out),
        End::Skipped(len) => write_skipped(*len, out),
        End::Fault(start, _, cause) => write_fault(*start, cause, out),
    }
}

/// Writes what is left, and its length; nothing for the padding after an ARP packet.
#[inline]
fn write_rest<W: Sink>(
    packet: &CapturedPacket<'_>,
    start: usize,
    end: usize,
    kind: &RestKind,
    out: &mut OutputBuffer<'_, W>,
) {
    let len = end.saturating_sub(start);
    match kind {
        RestKind::AfterArp => {}
        RestKind::EtherType(ether_type) => {
            out.append(b" ");
            write_announced(packet, *ether_type, start, len, out);
            write_len(len, out);
        }
        _ => {
            out.append(b" ");
            out.append(kind_word(kind).as_bytes());
            write_len(len, out);
        }
    }
}

/// Writes an ether type, or a length of IEEE 802.3 and what the bytes that it counts begin with.
#[inline]
fn write_announced<W: Sink>(
    packet: &CapturedPacket<'_>,
    ether_type: EtherType,
    start: usize,
    len: usize,
    out: &mut OutputBuffer<'_, W>,
) {
    if ether_type.0 <= 1500 && packet.link_type == LinkType::ETHERNET {
        write_counted(
            ether_type.0,
            first_of(after(packet.packet, start), len),
            out,
        );
    } else {
        write_type(ether_type, out);
    }
}

/// The bytes from an offset on, or none if there are fewer.
#[inline]
fn after(bytes: &[u8], start: usize) -> &[u8] {
    &bytes[start.min(bytes.len())..]
}

/// Writes `802.3 len LEN`, and what the first LEN bytes begin with.
#[inline(never)]
fn write_counted<W: Sink>(len: u16, rest: &[u8], out: &mut OutputBuffer<'_, W>) {
    write_number(out, b"802.3 len ", u64::from(len));
    write_llc(first_of(rest, usize::from(len)), out);
}

/// Writes the two addresses of LLC, if both are there.
#[inline]
fn write_llc<W: Sink>(bytes: &[u8], out: &mut OutputBuffer<'_, W>) {
    if bytes.len() >= 2 {
        write_saps(bytes[0], bytes[1], out);
    }
}

/// Writes ` STP`, ` SNAP` or ` LLC dsap DSAP ssap SSAP`.
#[inline]
fn write_saps<W: Sink>(dsap: u8, ssap: u8, out: &mut OutputBuffer<'_, W>) {
    if are_both(dsap, ssap, 0x42) {
        out.append(b" STP");
    } else if are_both(dsap, ssap, 0xAA) {
        out.append(b" SNAP");
    } else {
        write_other_saps(dsap, ssap, out);
    }
}

/// Whether both addresses are this one.
#[inline]
fn are_both(dsap: u8, ssap: u8, sap: u8) -> bool {
    dsap == sap && ssap == sap
}

/// Writes ` LLC dsap DSAP ssap SSAP`.
#[inline]
fn write_other_saps<W: Sink>(dsap: u8, ssap: u8, out: &mut OutputBuffer<'_, W>) {
    out.append(b" LLC dsap 0x");
    out.append_array(upper_pair(dsap));
    out.append(b" ssap 0x");
    out.append_array(upper_pair(ssap));
}

/// The two digits of a byte, in upper case.
#[inline]
fn upper_pair(byte: u8) -> [u8; 2] {
    let digits = hex_type(EtherType(u16::from(byte)));
    [digits[4], digits[5]]
}

/// Writes ` LEN bytes`.
#[inline]
fn write_len<W: Sink>(len: usize, out: &mut OutputBuffer<'_, W>) {
    write_number(out, b" ", len as u64);
    out.append(b" bytes");
}

/// Writes an ether type by its name, or as a hexadecimal number if it has no name here.
#[inline]
fn write_type<W: Sink>(ether_type: EtherType, out: &mut OutputBuffer<'_, W>) {
    match name_of(Kind::EtherType, u64::from(ether_type.0)) {
        Some(name) => out.append(name.as_bytes()),
        None => out.append(&hex_type(ether_type)),
    }
}

/// Writes ` skipped LEN bytes`.
#[inline]
fn write_skipped<W: Sink>(len: usize, out: &mut OutputBuffer<'_, W>) {
    write_number(out, b" skipped ", len as u64);
    out.append(b" bytes");
}

/// Writes ` fault at START: CAUSE`.
#[inline]
fn write_fault<W: Sink>(start: usize, cause: &Cause, out: &mut OutputBuffer<'_, W>) {
    write_number(out, b" fault at ", start as u64);
    out.append(b": ");
    write_cause(cause, out);
}

/// Writes what is wrong with a header.
#[inline]
fn write_cause<W: Sink>(cause: &Cause, out: &mut OutputBuffer<'_, W>) {
    match cause {
        Cause::Length(required, available, _, layer) => {
            write_lengths(*layer, *required, *available, out);
        }
        Cause::UnknownPacketType(number) => {
            write_number(out, b"packet type ", u64::from(*number));
        }
        Cause::UnknownHardwareType(number) => {
            write_number(out, b"hardware type ", u64::from(*number));
        }
        Cause::Version => out.append(b"version 1 of MACsec"),
        Cause::ShortLength => out.append(b"short length 1"),
    }
}

/// Writes `LAYER needs REQUIRED bytes, has AVAILABLE`.
#[inline]
fn write_lengths<W: Sink>(
    layer: Layer,
    required: usize,
    available: usize,
    out: &mut OutputBuffer<'_, W>,
) {
    out.append(layer_word(layer).as_bytes());
    write_number(out, b"needs ", required as u64);
    write_number(out, b" bytes, has ", available as u64);
}

/// The word for a layer that was cut, and a space.
#[inline]
fn layer_word(layer: Layer) -> &'static str {
    match layer {
        Layer::Ethernet2Header => "Ethernet II ",
        Layer::LinuxSllHeader => "cooked header ",
        Layer::VlanHeader => "vlan ",
        Layer::MacsecHeader => "macsec ",
        Layer::MacsecPacket => "macsec packet ",
        Layer::Arp => "ARP ",
        _ => "",
    }
}

/// Writes the number and the time of a packet; a hyphen if it has no time.
#[inline]
pub(in crate::ether_format) fn write_brief_front<W: Sink>(
    number: usize,
    moment: Option<Moment>,
    out: &mut OutputBuffer<'_, W>,
) {
    write_decimal(out, number as u64);
    out.append(b" ");
    match moment {
        Some(moment) => write_brief_moment(&moment, out),
        None => out.append(b"-"),
    }
}

/// Writes a date and a time of day, or without a date the seconds since the beginning of 1970, with six or nine
/// decimals.
#[inline]
fn write_brief_moment<W: Sink>(moment: &Moment, out: &mut OutputBuffer<'_, W>) {
    if !has_date(moment) {
        write_decimal(out, moment.seconds);
        out.append(b".");
        write_fraction(moment.nanoseconds, out);
        return;
    }
    write_date(moment, out);
    out.append(b".");
    write_fraction(moment.nanoseconds, out);
    out.append(b"Z");
}

/// Writes six decimals, or nine if the last three are not 0.
#[inline]
fn write_fraction<W: Sink>(nanoseconds: u32, out: &mut OutputBuffer<'_, W>) {
    let digits = nine_digits(nanoseconds);
    if nanoseconds % 1_000 == 0 {
        out.append(&digits[..6]);
    } else {
        out.append(&digits);
    }
}

/// Writes how much of a packet was captured, if that is not all, and ends the line.
#[inline]
pub(in crate::ether_format) fn write_brief_tail<W: Sink>(packet: &CapturedPacket<'_>, out: &mut OutputBuffer<'_, W>) {
    if is_cut(packet) {
        write_number(out, b" (", packet.packet.len() as u64);
        write_number(out, b" of ", packet.original_len as u64);
        out.append(b" bytes)");
    }
    out.append(b"\n");
}
