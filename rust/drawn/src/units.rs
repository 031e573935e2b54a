//! Units, rests and faults as numbers and digits.
use etherpeel::err::{Layer, linux_sll, macsec};
use etherpeel::ether_peel::{PeelError, PeelFault, PeelUnit, RestKind};
use etherpeel::{ArpPacketSlice, LenSource, LinuxSllProtocolType, LinuxSllSlice, MacsecHeaderSlice};
use std::fmt::Write;

pub fn digits(bytes: &[u8]) -> String {
    bytes.iter().map(|byte| format!("{byte:02x}")).collect()
}

pub fn kind(unit: &PeelUnit<'_>) -> u8 {
    match unit {
        PeelUnit::Ethernet2(_) => 1,
        PeelUnit::LinuxSll(_) => 2,
        PeelUnit::Vlan(_) => 3,
        PeelUnit::Macsec(_) => 4,
        PeelUnit::Arp(_) => 5,
    }
}

pub fn fields(unit: &PeelUnit<'_>, out: &mut String) {
    match unit {
        PeelUnit::Ethernet2(frame) => {
            let (to, from) = (digits(&frame.destination()), digits(&frame.source()));
            let _ = write!(out, "{to} {from} {} {}", frame.ether_type().0, u8::from(frame.fcs().is_some()));
        }
        PeelUnit::LinuxSll(packet) => linux_sll(packet, out),
        PeelUnit::Vlan(tag) => {
            let (vid, pcp) = (tag.vlan_identifier().value(), tag.priority_code_point().value());
            let _ = write!(out, "{vid} {} {pcp} {}", tag.ether_type().0, u8::from(tag.drop_eligible_indicator()));
        }
        PeelUnit::Macsec(packet) => sec_tag(&packet.header, out),
        PeelUnit::Arp(packet) => arp(packet, out),
    }
}

fn linux_sll(packet: &LinuxSllSlice<'_>, out: &mut String) {
    let header = packet.to_header();
    let number = u16::from_be_bytes([header.to_bytes()[14], header.to_bytes()[15]]);
    let (kind, hardware) = (u16::from(packet.packet_type()), packet.arp_hardware_type().0);
    let (len, address) = (packet.sender_address_valid_length(), digits(&packet.sender_address_full()));
    let _ = write!(out, "{kind} {hardware} {len} {address} {number}");
}

fn sec_tag(tag: &MacsecHeaderSlice<'_>, out: &mut String) {
    let ether_type = tag.next_ether_type().map_or(0, |it| it.0);
    let _ = write!(out, "{} {} {ether_type}", tag.sci().unwrap_or(0), tag.packet_nr());
    for bit in [tag.endstation_id(), tag.sci().is_some(), tag.tci_scb(), tag.encrypted(), tag.userdata_changed()] {
        let _ = write!(out, " {}", u8::from(bit));
    }
    let _ = write!(out, " {} {}", tag.an().value(), tag.short_len().value());
}

fn arp(packet: &ArpPacketSlice<'_>, out: &mut String) {
    let (hardware, protocol) = (packet.hw_addr_type().0, packet.proto_addr_type().0);
    let _ = write!(out, "{hardware} {protocol} {}", packet.operation().0);
    let sender = [packet.sender_hw_addr(), packet.sender_protocol_addr()];
    for address in sender.into_iter().chain([packet.target_hw_addr(), packet.target_protocol_addr()]) {
        let _ = write!(out, " {}.", digits(address));
    }
}

pub fn rest(kind: RestKind, out: &mut String) {
    let (kind, number) = match kind {
        RestKind::Start => (0, 0),
        RestKind::EtherType(ether_type) => (1, ether_type.0),
        RestKind::Sll(LinuxSllProtocolType::NetlinkProtocolType(number)) => (2, number),
        RestKind::Sll(LinuxSllProtocolType::GenericRoutingEncapsulationProtocolType(number)) => (3, number),
        RestKind::Sll(LinuxSllProtocolType::Ignored(number)) => (4, number),
        RestKind::Sll(_) => (9, 0),
        RestKind::Sealed => (5, 0),
        RestKind::AfterArp => (6, 0),
    };
    let _ = write!(out, "{kind} {number}|");
}

pub fn fault(fault: Option<&PeelFault>, out: &mut String) {
    if let Some(fault) = fault {
        let missing = fault.missing().unwrap_or(0);
        let (required, len, kind, layer, source, packet_type, hardware) = match &fault.error {
            PeelError::Len(e) => (e.required_len, e.len, 1, number(e.layer), by(e.len_source), 0, 0),
            PeelError::LinuxSll(linux_sll::HeaderError::UnsupportedPacketTypeField { packet_type }) => {
                (0, 0, 2, 0, 0, *packet_type, 0)
            }
            PeelError::LinuxSll(linux_sll::HeaderError::UnsupportedArpHardwareId { arp_hardware_type }) => {
                (0, 0, 3, 0, 0, 0, arp_hardware_type.0)
            }
            PeelError::Macsec(macsec::HeaderError::UnexpectedVersion) => (0, 0, 4, 0, 0, 0, 0),
            PeelError::Macsec(macsec::HeaderError::InvalidUnmodifiedShortLen) => (0, 0, 5, 0, 0, 0, 0),
        };
        let _ = write!(out, "{} {required} {len} {missing} {kind} {layer} {source} ", fault.offset);
        let _ = write!(out, "{packet_type} {hardware} {}", u8::from(fault.closed));
    }
    out.push('|');
}

fn number(layer: Layer) -> u8 {
    match layer {
        Layer::Ethernet2Header => 1,
        Layer::LinuxSllHeader => 2,
        Layer::VlanHeader => 3,
        Layer::MacsecHeader => 4,
        Layer::MacsecPacket => 5,
        Layer::Arp => 6,
        _ => 9,
    }
}

fn by(source: LenSource) -> u8 {
    match source {
        LenSource::Slice => 1,
        LenSource::MacsecShortLength => 2,
        LenSource::ArpAddrLengths => 3,
        _ => 9,
    }
}
