//! ARP packets, read, made and written.
use super::equal;
use crate::test_frames::{REPLY, REQUEST};
use etherpeel::err::arp::ArpEthIpv4FromError;
use etherpeel::err::{Layer, LenError};
use etherpeel::{
    ArpEthIpv4Packet, ArpHardwareId, ArpOperation, ArpPacket, ArpPacketSlice, EtherType, LenSource,
};
use std::net::Ipv4Addr;
use crate::kit::Fail;

/// [`REQUEST`] as a value.
const QUESTION: ArpEthIpv4Packet = ArpEthIpv4Packet {
    operation: ArpOperation::REQUEST,
    sender_mac: [2, 0, 0, 0, 0, 1],
    sender_ipv4: [10, 0, 0, 1],
    target_mac: [0; 6],
    target_ipv4: [10, 0, 0, 2],
};

/// [`REQUEST`] with 18 bytes after it, as Ethernet pads it.
const PADDED: [u8; 46] = [
    0x00, 0x01, 0x08, 0x00, 0x06, 0x04, 0x00, 0x01, 0x02, 0x00, 0x00, 0x00, 0x00, 0x01, 0x0A, 0x00,
    0x00, 0x01, 0x00, 0x00, 0x00, 0x00, 0x00, 0x00, 0x0A, 0x00, 0x00, 0x02, 0x55, 0x55, 0x55, 0x55,
    0x55, 0x55, 0x55, 0x55, 0x55, 0x55, 0x55, 0x55, 0x55, 0x55, 0x55, 0x55, 0x55, 0x55,
];

/// Addresses of two bytes, and of three.
const SMALL: [u8; 18] = [
    0x01, 0x02, 0x86, 0xDD, 2, 3, 0xAB, 0xCD, 1, 2, 3, 4, 5, 6, 7, 8, 9, 10,
];

/// A packet in bytes, and what it says.
struct Row {
    name: &'static str,
    bytes: &'static [u8],
    len: usize,
    hardware_type: u16,
    protocol_type: u16,
    sizes: (u8, u8),
    operation: u16,
    /// Those of the sender, hardware before protocol, then those of the target.
    addresses: [&'static [u8]; 4],
}

const ASKED: Row = Row {
    name: "a request",
    bytes: &REQUEST,
    len: 28,
    hardware_type: 1,
    protocol_type: 0x0800,
    sizes: (6, 4),
    operation: 1,
    addresses: [
        &[2, 0, 0, 0, 0, 1],
        &[10, 0, 0, 1],
        &[0, 0, 0, 0, 0, 0],
        &[10, 0, 0, 2],
    ],
};

static ROWS: [Row; 5] = [
    ASKED,
    Row {
        name: "padding is no part of the packet",
        bytes: &PADDED,
        ..ASKED
    },
    Row {
        name: "the reply to the request",
        bytes: &REPLY,
        operation: 2,
        addresses: [
            &[2, 0, 0, 0, 0, 2],
            &[10, 0, 0, 2],
            &[2, 0, 0, 0, 0, 1],
            &[10, 0, 0, 1],
        ],
        ..ASKED
    },
    Row {
        name: "addresses of other sizes",
        bytes: &SMALL,
        len: 18,
        hardware_type: 0x0102,
        protocol_type: 0x86DD,
        sizes: (2, 3),
        operation: 0xABCD,
        addresses: [&[1, 2], &[3, 4, 5], &[6, 7], &[8, 9, 10]],
    },
    Row {
        name: "no addresses",
        bytes: &[0, 1, 8, 0, 0, 0, 0, 1],
        len: 8,
        sizes: (0, 0),
        addresses: [&[], &[], &[], &[]],
        ..ASKED
    },
];

#[test]
fn an_arp_view_shows_types_sizes_and_addresses() -> Result<(), Fail> {
    let rt = crate::kit::HostRuntime;
    for row in &ROWS {
        let view = ArpPacketSlice::from_slice(row.bytes)?;
        equal!(rt, row.name;
            Some(view.slice()) => row.bytes.get(..row.len),
            view.hw_addr_type() => ArpHardwareId(row.hardware_type),
            view.proto_addr_type() => EtherType(row.protocol_type),
            (view.hw_addr_size(), view.proto_addr_size()) => row.sizes,
            view.operation() => ArpOperation(row.operation),
            [
                view.sender_hw_addr(),
                view.sender_protocol_addr(),
                view.target_hw_addr(),
                view.target_protocol_addr(),
            ] => row.addresses,
        );
    }
    Ok(())
}

#[test]
fn an_arp_packet_has_the_fields_of_its_bytes() -> Result<(), Fail> {
    let rt = crate::kit::HostRuntime;
    for row in &ROWS {
        let packet = ArpPacket::from_slice(row.bytes)?;
        equal!(rt, row.name;
            packet.hw_addr_type => ArpHardwareId(row.hardware_type),
            packet.proto_addr_type => EtherType(row.protocol_type),
            (packet.hw_addr_size(), packet.protocol_addr_size()) => row.sizes,
            packet.operation => ArpOperation(row.operation),
            [
                packet.sender_hw_addr(),
                packet.sender_protocol_addr(),
                packet.target_hw_addr(),
                packet.target_protocol_addr(),
            ] => row.addresses,
            packet.packet_len() => row.len,
        );
    }
    Ok(())
}

/// A packet made of the types and addresses, and a view as a value, both equal the packet that was read.
#[test]
fn an_arp_packet_made_of_fields_is_the_one_that_was_read() -> Result<(), Fail> {
    let rt = crate::kit::HostRuntime;
    for row in &ROWS {
        let read = ArpPacket::from_slice(row.bytes)?;
        let [
            sender_hardware,
            sender_protocol,
            target_hardware,
            target_protocol,
        ] = row.addresses;
        let made = ArpPacket::new(
            ArpHardwareId(row.hardware_type),
            EtherType(row.protocol_type),
            ArpOperation(row.operation),
            sender_hardware,
            sender_protocol,
            target_hardware,
            target_protocol,
        )?;
        let view = ArpPacketSlice::from_slice(row.bytes)?;
        let packets = [read.clone(), made, view.to_packet()];
        for packet in &packets {
            let bytes = packet.to_bytes();
            equal!(rt, row.name;
                Some(bytes.as_slice()) => row.bytes.get(..row.len),
                packet => &read,
            );
        }
    }
    Ok(())
}

#[test]
fn arp_addresses_of_255_bytes_are_read() -> Result<(), Fail> {
    let rt = crate::kit::HostRuntime;
    let mut bytes = [7; 1028];
    bytes[4] = 255;
    bytes[5] = 255;
    let view = ArpPacketSlice::from_slice(&bytes)?;
    let packet = ArpPacket::from_slice(&bytes)?;
    let sevens = [7; 255];
    equal!(rt, "of four addresses";
        view.slice() => bytes.as_slice(),
        view.target_protocol_addr() => sevens.as_slice(),
        packet.target_protocol_addr() => sevens.as_slice(),
        packet.packet_len() => 1028,
        ArpPacket::MAX_LEN => 1028,
    );
    let mut bytes = [7; 518];
    bytes[4] = 255;
    bytes[5] = 0;
    let view = ArpPacketSlice::from_slice(&bytes)?;
    equal!(rt, "of hardware addresses alone";
        view.slice() => bytes.as_slice(),
        view.target_hw_addr() => sevens.as_slice(),
        view.target_protocol_addr() => [].as_slice(),
    );
    Ok(())
}

/// The first bytes of a slice whose other bytes are 7, its length, how many bytes are required, and the source of that
/// length.
static SHORT: [(&str, &[u8], usize, usize, LenSource); 7] = [
    ("no byte", &[], 0, 8, LenSource::Slice),
    (
        "the front alone",
        &REQUEST,
        8,
        28,
        LenSource::ArpAddrLengths,
    ),
    ("a byte less", &REQUEST, 27, 28, LenSource::ArpAddrLengths),
    // the front says that each protocol address has one byte
    (
        "the front is asked for first",
        &[0, 1, 8, 0, 0, 1, 0],
        7,
        8,
        LenSource::Slice,
    ),
    (
        "then the addresses",
        &[0, 1, 8, 0, 0, 1, 0, 1],
        8,
        10,
        LenSource::ArpAddrLengths,
    ),
    (
        "hardware addresses alone",
        &[7, 7, 7, 7, 255, 0],
        517,
        518,
        LenSource::ArpAddrLengths,
    ),
    (
        "the greatest sizes",
        &[7, 7, 7, 7, 255, 255],
        1027,
        1028,
        LenSource::ArpAddrLengths,
    ),
];

#[test]
fn a_cut_arp_packet_names_the_missing_bytes() {
    let rt = crate::kit::HostRuntime;
    for &(name, front, len, required_len, len_source) in &SHORT {
        let mut buffer = [7; 1028];
        for (to, byte) in buffer.iter_mut().zip(front) {
            *to = *byte;
        }
        let bytes = &buffer[..len.min(1028)];
        let refused = LenError {
            required_len,
            len,
            len_source,
            layer: Layer::Arp,
            layer_start_offset: 0,
        };
        let view = ArpPacketSlice::from_slice(bytes).err();
        let alike = ArpPacket::from_slice(bytes).err() == view;
        equal!(rt, name;
            view => Some(refused),
            alike => true,
        );
    }
}

#[test]
fn an_ethernet_ipv4_request_converts_both_ways() -> Result<(), Fail> {
    let rt = crate::kit::HostRuntime;
    let packet = QUESTION.to_arp_packet();
    equal!(rt, "the request";
        QUESTION.to_bytes() => REQUEST,
        ArpEthIpv4Packet::LEN => 28,
        QUESTION.sender_ipv4_addr() => Ipv4Addr::new(10, 0, 0, 1),
        QUESTION.target_ipv4_addr() => Ipv4Addr::new(10, 0, 0, 2),
        packet.try_eth_ipv4() => Ok(QUESTION),
        ArpPacket::from(QUESTION) == packet => true,
        ArpPacket::from_slice(&REQUEST)? == packet => true,
        ArpEthIpv4Packet::try_from(packet) => Ok(QUESTION),
    );
    Ok(())
}

/// The types and hardware addresses of a packet whose protocol addresses have 16 bytes, and why it is not a packet of
/// Ethernet and IPv4.
type Other = (
    &'static str,
    ArpHardwareId,
    EtherType,
    &'static [u8],
    ArpEthIpv4FromError,
);

/// Types are tested before sizes.
static OTHERS: [Other; 4] = [
    (
        "a hardware type",
        ArpHardwareId::EETHER,
        EtherType::IPV6,
        &[0; 8],
        ArpEthIpv4FromError::NonMatchingHwType(ArpHardwareId::EETHER),
    ),
    (
        "a protocol type",
        ArpHardwareId::ETHERNET,
        EtherType::IPV6,
        &[0; 8],
        ArpEthIpv4FromError::NonMatchingProtocolType(EtherType::IPV6),
    ),
    (
        "longer hardware addresses",
        ArpHardwareId::ETHERNET,
        EtherType::IPV4,
        &[0; 8],
        ArpEthIpv4FromError::NonMatchingHwAddrSize(8),
    ),
    (
        "longer protocol addresses",
        ArpHardwareId::ETHERNET,
        EtherType::IPV4,
        &[0; 6],
        ArpEthIpv4FromError::NonMatchingProtoAddrSize(16),
    ),
];

#[test]
fn other_arp_packets_are_refused_as_ethernet_ipv4() -> Result<(), Fail> {
    let rt = crate::kit::HostRuntime;
    for (name, hardware_type, protocol_type, hardware, wanted) in &OTHERS {
        let packet = ArpPacket::new(
            *hardware_type,
            *protocol_type,
            ArpOperation::REQUEST,
            hardware,
            &[0; 16],
            hardware,
            &[0; 16],
        )?;
        let refused = packet.try_eth_ipv4().err();
        let alike = ArpEthIpv4Packet::try_from(packet).err() == refused;
        equal!(rt, name;
            refused.as_ref() => Some(wanted),
            alike => true,
        );
    }
    Ok(())
}

#[test]
fn debug_shows_arp_packets() -> Result<(), Fail> {
    let rt = crate::kit::HostRuntime;
    let packet = ArpPacket::from_slice(&REQUEST)?;
    let view = ArpPacketSlice::from_slice(&REQUEST)?;
    let shown = format!("{:?}", (packet, view, QUESTION));
    equal!(rt, "a request, its view, and as one of Ethernet and IPv4";
        shown.as_str()
            => "(ArpPacket { hw_addr_type: 1 (Ethernet), proto_addr_type: 0x0800 (Internet Protocol version 4 (IPv4)), hw_addr_size: 6, proto_addr_size: 4, operation: ArpOperation(1), sender_hw_addr: [2, 0, 0, 0, 0, 1], sender_protocol_addr: [10, 0, 0, 1], target_hw_addr: [0, 0, 0, 0, 0, 0], target_protocol_addr: [10, 0, 0, 2] }, \
ArpPacketSlice { slice: [0, 1, 8, 0, 6, 4, 0, 1, 2, 0, 0, 0, 0, 1, 10, 0, 0, 1, 0, 0, 0, 0, 0, 0, 10, 0, 0, 2] }, \
ArpEthIpv4Packet { operation: ArpOperation(1), sender_mac: [2, 0, 0, 0, 0, 1], sender_ipv4: [10, 0, 0, 1], target_mac: [0, 0, 0, 0, 0, 0], target_ipv4: [10, 0, 0, 2] })",
    );
    Ok(())
}
