//! Packets of Linux cooked capture v2. Captured ones are from `tcpdump -i any`, cut after a few bytes of their
//! payload; the others were composed with scapy's CookedLinuxV2. The expected fields are those that tshark prints, and
//! those of scapy where tshark prints none.
use super::{Protocol, equal, protocol_type};
use etherpeel::ether_peel::{Peel, PeelUnit, Start};
use etherpeel::ether_sll2::{LinuxSll2Error, LinuxSll2Header, LinuxSll2HeaderSlice, LinuxSll2Slice};
use etherpeel::{ArpHardwareId, EtherType, LinuxSllPacketType};
use crate::kit::Fail;

/// Captured on the loopback device: an IPv4 packet, to us.
const LOOPBACK: [u8; 24] = [
    0x08, 0x00, 0x00, 0x00, 0x00, 0x00, 0x00, 0x01, 0x03, 0x04, 0x00, 0x06, 0x00, 0x00, 0x00, 0x00,
    0x00, 0x00, 0x00, 0x00, 0x45, 0x00, 0x00, 0x1E,
];

/// Captured on a tun device, which has no link-layer addresses: an IPv4 packet, to us.
const TUN: [u8; 24] = [
    0x08, 0x00, 0x00, 0x00, 0x00, 0x00, 0x00, 0x02, 0xFF, 0xFE, 0x00, 0x00, 0x00, 0x00, 0x00, 0x00,
    0x00, 0x00, 0x00, 0x00, 0x45, 0x00, 0x00, 0x1C,
];

/// Captured: an IEEE 802.3 frame, which begins with an 802.2 LLC header.
const SPANNING_TREE: [u8; 23] = [
    0x00, 0x04, 0x00, 0x00, 0x00, 0x00, 0x00, 0x02, 0x00, 0x01, 0x02, 0x06, 0x02, 0x00, 0x5E, 0x10,
    0x00, 0x01, 0x00, 0x00, 0x42, 0x42, 0x03,
];

/// Composed: the example, a VLAN tag.
const EXAMPLE: [u8; 25] = [
    0x81, 0x00, 0x00, 0x00, 0x00, 0x00, 0x00, 0x03, 0x00, 0x01, 0x04, 0x06, 0x02, 0x00, 0x00, 0x00,
    0x00, 0x01, 0x00, 0x00, 0xB1, 0x23, 0x08, 0x00, 0x45,
];

/// Composed: a VLAN tag after a header with reserved bytes that are not 0.
const TAGGED: [u8; 25] = [
    0x81, 0x00, 0xAB, 0xCD, 0x00, 0x00, 0x00, 0x03, 0x00, 0x01, 0x02, 0x06, 0x02, 0x00, 0x5E, 0x10,
    0x00, 0x01, 0x00, 0x00, 0xB1, 0x23, 0x08, 0x00, 0x45,
];

/// Composed: an IPv6 tunnel, whose addresses have 16 bytes.
const TUNNEL: [u8; 21] = [
    0x86, 0xDD, 0x00, 0x00, 0x01, 0x02, 0x03, 0x04, 0x03, 0x01, 0x04, 0x10, 0x01, 0x02, 0x03, 0x04,
    0x05, 0x06, 0x07, 0x08, 0x60,
];

/// Composed: a GRE tunnel over IPv4.
const GRE: [u8; 21] = [
    0x08, 0x00, 0x00, 0x00, 0x00, 0x00, 0x00, 0x07, 0x03, 0x0A, 0x00, 0x04, 0xC0, 0x00, 0x02, 0x01,
    0x00, 0x00, 0x00, 0x00, 0x45,
];

/// A packet: the fields of its header, the sender's address and the start of a walk.
struct Row {
    name: &'static str,
    packet: &'static [u8],
    protocol: (Protocol, u16),
    interface_index: u32,
    arp_hrd_type: ArpHardwareId,
    packet_type: u16,
    sender_address_valid_length: u8,
    sender_address: [u8; 8],
    address: &'static [u8],
    start: Option<Start>,
}

/// An IPv4 packet, to us.
const CAPTURED: Row = Row {
    name: "loopback",
    packet: &LOOPBACK,
    protocol: (Protocol::EtherType, 0x0800),
    interface_index: 1,
    arp_hrd_type: ArpHardwareId::LOOPBACK,
    packet_type: 0,
    sender_address_valid_length: 6,
    sender_address: [0; 8],
    address: &[0; 6],
    start: Some(Start::EtherType(EtherType::IPV4)),
};

static PACKETS: [Row; 7] = [
    Row {
        name: "the example",
        packet: &EXAMPLE,
        protocol: (Protocol::EtherType, 0x8100),
        interface_index: 3,
        arp_hrd_type: ArpHardwareId::ETHERNET,
        packet_type: 4,
        sender_address: [2, 0, 0, 0, 0, 1, 0, 0],
        address: &[2, 0, 0, 0, 0, 1],
        start: Some(Start::EtherType(EtherType::VLAN_TAGGED_FRAME)),
        ..CAPTURED
    },
    CAPTURED,
    Row {
        name: "a tun device",
        packet: &TUN,
        interface_index: 2,
        arp_hrd_type: ArpHardwareId::NONE,
        sender_address_valid_length: 0,
        address: &[],
        ..CAPTURED
    },
    Row {
        name: "802.2",
        packet: &SPANNING_TREE,
        protocol: (Protocol::Llc, 4),
        interface_index: 2,
        arp_hrd_type: ArpHardwareId::ETHERNET,
        packet_type: 2,
        sender_address: [0x02, 0x00, 0x5E, 0x10, 0x00, 0x01, 0, 0],
        address: &[0x02, 0x00, 0x5E, 0x10, 0x00, 0x01],
        start: Some(Start::EtherType(EtherType(4))),
        ..CAPTURED
    },
    Row {
        name: "reserved bytes that are not 0",
        packet: &TAGGED,
        protocol: (Protocol::EtherType, 0x8100),
        interface_index: 3,
        arp_hrd_type: ArpHardwareId::ETHERNET,
        packet_type: 2,
        sender_address: [0x02, 0x00, 0x5E, 0x10, 0x00, 0x01, 0, 0],
        address: &[0x02, 0x00, 0x5E, 0x10, 0x00, 0x01],
        start: Some(Start::EtherType(EtherType::VLAN_TAGGED_FRAME)),
        ..CAPTURED
    },
    Row {
        name: "an address of 16 bytes",
        packet: &TUNNEL,
        protocol: (Protocol::EtherType, 0x86DD),
        interface_index: 16_909_060,
        arp_hrd_type: ArpHardwareId::TUNNEL6,
        packet_type: 4,
        sender_address_valid_length: 16,
        sender_address: [1, 2, 3, 4, 5, 6, 7, 8],
        address: &[1, 2, 3, 4, 5, 6, 7, 8],
        start: Some(Start::EtherType(EtherType::IPV6)),
    },
    Row {
        name: "GRE",
        packet: &GRE,
        protocol: (Protocol::Gre, 0x0800),
        interface_index: 7,
        arp_hrd_type: ArpHardwareId::IPGRE,
        sender_address_valid_length: 4,
        sender_address: [192, 0, 2, 1, 0, 0, 0, 0],
        address: &[192, 0, 2, 1],
        start: None,
        ..CAPTURED
    },
];

fn header(row: &Row, packet_type: LinuxSllPacketType) -> LinuxSll2Header {
    let (protocol, number) = row.protocol;
    LinuxSll2Header {
        protocol_type: protocol_type(protocol, number),
        interface_index: row.interface_index,
        arp_hrd_type: row.arp_hrd_type,
        packet_type,
        sender_address_valid_length: row.sender_address_valid_length,
        sender_address: row.sender_address,
    }
}

#[test]
fn a_version_2_packet_has_its_address_and_payload() -> Result<(), Fail> {
    let rt = crate::kit::HostRuntime;
    for row in &PACKETS {
        let view = LinuxSll2Slice::from_slice(row.packet)?;
        equal!(rt, row.name;
            view.sender_address() => row.address,
            view.payload_slice() => row.packet.get(20..).unwrap_or(&[]),
            view.start() => row.start,
        );
    }
    Ok(())
}

#[test]
fn a_version_2_packet_has_its_header() -> Result<(), Fail> {
    let rt = crate::kit::HostRuntime;
    for row in &PACKETS {
        let view = LinuxSll2Slice::from_slice(row.packet)?;
        let packet_type = LinuxSllPacketType::try_from(row.packet_type)?;
        equal!(rt, row.name; view.to_header() => header(row, packet_type));
    }
    Ok(())
}

#[test]
fn a_version_2_header_is_written_but_for_its_reserved_bytes() -> Result<(), Fail> {
    let rt = crate::kit::HostRuntime;
    for row in &PACKETS {
        let packet_type = LinuxSllPacketType::try_from(row.packet_type)?;
        let bytes = header(row, packet_type).to_bytes();
        equal!(rt, row.name;
            bytes.get(..2) => row.packet.get(..2),
            bytes.get(4..) => row.packet.get(4..20),
        );
    }
    Ok(())
}

#[test]
fn a_walk_goes_on_after_a_cooked_header_of_version_2() -> Result<(), Fail> {
    let rt = crate::kit::HostRuntime;
    let packet = LinuxSll2Slice::from_slice(&EXAMPLE)?;
    let mut found = None;
    if let Some(start) = packet.start() {
        let mut peel = Peel::new(start, packet.payload_slice());
        if let Some(Ok(PeelUnit::Vlan(tag))) = peel.next() {
            found = Some((tag.vlan_identifier().value(), peel.offset()));
        }
    }
    equal!(rt, "a tag"; found => Some((291, 4)));
    Ok(())
}

#[test]
fn debug_shows_cooked_packets_of_version_2() -> Result<(), Fail> {
    let rt = crate::kit::HostRuntime;
    let view = LinuxSll2HeaderSlice::from_slice(&GRE)?;
    let packet = LinuxSll2Slice::from_slice(&GRE)?;
    let shown = format!("{:?}", (view, packet));
    equal!(rt, "a view of a header and one with the payload";
        shown.as_str()
            => "(LinuxSll2HeaderSlice { slice: [8, 0, 0, 0, 0, 0, 0, 7, 3, 10, 0, 4, 192, 0, 2, 1, 0, 0, 0, 0] }, \
LinuxSll2Slice { header: LinuxSll2Header { protocol_type: GenericRoutingEncapsulationProtocolType(2048), interface_index: 7, arp_hrd_type: 778 (GRE over IP), packet_type: 0 (Sent to us), sender_address_valid_length: 4, sender_address: [192, 0, 2, 1, 0, 0, 0, 0] }, payload: LinuxSllPayloadSlice { protocol_type: GenericRoutingEncapsulationProtocolType(2048), payload: [69] } })",
    );
    Ok(())
}

/// Composed: a packet type that tshark does not know.
const UNSUPPORTED: [u8; 20] = [
    0x08, 0x00, 0x00, 0x00, 0x00, 0x00, 0x00, 0x03, 0x00, 0x01, 0x08, 0x06, 0x02, 0x00, 0x00, 0x00,
    0x00, 0x01, 0x00, 0x00,
];

fn refusal(bytes: &[u8]) -> Option<LinuxSll2Error> {
    match LinuxSll2Header::from_slice(bytes) {
        Ok(_) => None,
        Err(error) => Some(error),
    }
}

/// Bytes of a header, why they are refused, and the text of the error. The length is tested first.
static REFUSALS: [(&str, &[u8], LinuxSll2Error, &str); 3] = [
    (
        "no byte",
        &[],
        LinuxSll2Error::Len {
            required_len: 20,
            len: 0,
        },
        "A header of Linux cooked capture v2 needs 20 byte(s); only 0 are available.",
    ),
    (
        "nineteen bytes of a refused header",
        &[
            0x08, 0x00, 0x00, 0x00, 0x00, 0x00, 0x00, 0x03, 0x00, 0x01, 0x08, 0x06, 0x02, 0x00,
            0x00, 0x00, 0x00, 0x01, 0x00,
        ],
        LinuxSll2Error::Len {
            required_len: 20,
            len: 19,
        },
        "A header of Linux cooked capture v2 needs 20 byte(s); only 19 are available.",
    ),
    (
        "a packet type",
        &UNSUPPORTED,
        LinuxSll2Error::PacketType(8),
        "The packet type 8 of a header of Linux cooked capture v2 is not supported, the maximum is 7.",
    ),
];

#[test]
fn a_refused_cooked_packet_of_version_2_names_the_cause() -> Result<(), Fail> {
    let rt = crate::kit::HostRuntime;
    for (name, bytes, wanted, text) in &REFUSALS {
        let view = LinuxSll2HeaderSlice::from_slice(bytes).err();
        let packet = LinuxSll2Slice::from_slice(bytes).err();
        let alike = view == packet && refusal(bytes) == packet;
        let shown = format!("{wanted}");
        equal!(rt, name;
            packet.as_ref() => Some(wanted),
            alike => true,
            shown.as_str() => *text,
        );
    }
    equal!(rt, "twenty bytes by value";
        LinuxSll2Header::from_bytes(UNSUPPORTED) => Err(LinuxSll2Error::PacketType(8)),
    );
    Ok(())
}
