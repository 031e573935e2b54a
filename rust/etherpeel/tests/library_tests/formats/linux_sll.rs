//! Packets of Linux cooked capture v1.
use super::equal;
use crate::test_frames::{
    COOKED, COOKED_ARP_REQUEST, COOKED_GRE, COOKED_LOOPBACK, COOKED_OUTGOING, COOKED_SPANNING_TREE,
};
use etherpeel::err::linux_sll::{HeaderError, HeaderSliceError};
use etherpeel::err::{Layer, SliceWriteSpaceError};
use etherpeel::{
    ArpHardwareId, EtherType, LinuxNonstandardEtherType, LinuxSllHeader, LinuxSllHeaderSlice,
    LinuxSllPacketType, LinuxSllPayloadSlice, LinuxSllProtocolType, LinuxSllSlice,
};
use crate::kit::Abort;
use crate::kit::Fail;

/// The header of [`COOKED`].
const HEADER: LinuxSllHeader = LinuxSllHeader {
    packet_type: LinuxSllPacketType::HOST,
    arp_hrd_type: ArpHardwareId::ETHERNET,
    sender_address_valid_length: 255,
    sender_address: [2, 0, 0, 0, 0, 1, 0, 0],
    protocol_type: LinuxSllProtocolType::LinuxNonstandardEtherType(
        LinuxNonstandardEtherType::N802_3,
    ),
};

/// The header of [`COOKED_ARP_REQUEST`].
const CAPTURED: LinuxSllHeader = LinuxSllHeader {
    packet_type: LinuxSllPacketType::BROADCAST,
    arp_hrd_type: ArpHardwareId::ETHERNET,
    sender_address_valid_length: 6,
    sender_address: [0x02, 0x00, 0x5E, 0x10, 0x00, 0x01, 0, 0],
    protocol_type: LinuxSllProtocolType::EtherType(EtherType::ARP),
};

/// Name, packet, its header, and the sender's address.
const PACKETS: [(&str, &[u8], LinuxSllHeader, &[u8]); 5] = [
    (
        "the example",
        &COOKED_OUTGOING,
        LinuxSllHeader {
            packet_type: LinuxSllPacketType::OUTGOING,
            sender_address_valid_length: 6,
            protocol_type: LinuxSllProtocolType::EtherType(EtherType::IPV4),
            ..HEADER
        },
        &[2, 0, 0, 0, 0, 1],
    ),
    (
        "an address length of 255",
        &COOKED,
        HEADER,
        &[2, 0, 0, 0, 0, 1, 0, 0],
    ),
    (
        "the hardware type decides the variant",
        &COOKED_GRE,
        LinuxSllHeader {
            packet_type: LinuxSllPacketType::HOST,
            arp_hrd_type: ArpHardwareId::IPGRE,
            sender_address_valid_length: 0,
            sender_address: [0; 8],
            protocol_type: LinuxSllProtocolType::GenericRoutingEncapsulationProtocolType(0x0800),
        },
        &[],
    ),
    (
        "a captured packet",
        &COOKED_ARP_REQUEST,
        CAPTURED,
        &[0x02, 0x00, 0x5E, 0x10, 0x00, 0x01],
    ),
    (
        "a captured 802.2 frame",
        &COOKED_SPANNING_TREE,
        LinuxSllHeader {
            packet_type: LinuxSllPacketType::MULTICAST,
            protocol_type: LinuxSllProtocolType::LinuxNonstandardEtherType(
                LinuxNonstandardEtherType::N802_2,
            ),
            ..CAPTURED
        },
        &[0x02, 0x00, 0x5E, 0x10, 0x00, 0x01],
    ),
];

/// The packet has this header, read and written as a value.
fn is_header(rt: &impl Abort, name: &str, packet: &[u8], header: &LinuxSllHeader) {
    let bytes = header.to_bytes();
    let rest = packet.get(16..).unwrap_or(&[]);
    equal!(rt, name;
        LinuxSllHeader::from_slice(packet) => Ok((*header, rest)),
        LinuxSllHeader::from_bytes(bytes) => Ok(*header),
        Some(bytes.as_slice()) => packet.get(..LinuxSllHeader::LEN),
        header.header_len() => 16,
    );
}

/// The packet has this header, as a view.
fn is_view(
    rt: &impl Abort,
    name: &str,
    packet: &[u8],
    header: &LinuxSllHeader,
    address: &[u8],
) -> Result<(), Fail> {
    let view = LinuxSllHeaderSlice::from_slice(packet)?;
    equal!(rt, name;
        view.packet_type() => header.packet_type,
        view.arp_hardware_type() => header.arp_hrd_type,
        view.sender_address_valid_length() => header.sender_address_valid_length,
        view.sender_address() => address,
        view.sender_address_full() => header.sender_address,
        view.protocol_type() => header.protocol_type,
        Some(view.slice()) => packet.get(..16),
        view.to_header() => *header,
    );
    Ok(())
}

/// The packet has this header and its payload, as a view.
fn is_packet(
    rt: &impl Abort,
    name: &str,
    packet: &[u8],
    header: &LinuxSllHeader,
    address: &[u8],
) -> Result<(), Fail> {
    let view = LinuxSllSlice::from_slice(packet)?;
    let rest = packet.get(16..).unwrap_or(&[]);
    let payload = LinuxSllPayloadSlice {
        protocol_type: header.protocol_type,
        payload: rest,
    };
    equal!(rt, name;
        view.packet_type() => header.packet_type,
        view.arp_hardware_type() => header.arp_hrd_type,
        view.sender_address_valid_length() => header.sender_address_valid_length,
        view.sender_address() => address,
        view.sender_address_full() => header.sender_address,
        view.protocol_type() => header.protocol_type,
        view.header_len() => 16,
        view.to_header() => *header,
        view.slice() => packet,
        Some(view.header_slice()) => packet.get(..16),
        view.payload_slice() => rest,
        view.payload() => payload,
    );
    Ok(())
}

#[test]
fn a_cooked_packet_has_its_header_address_and_payload() -> Result<(), Fail> {
    let rt = crate::kit::HostRuntime;
    for (name, packet, header, address) in PACKETS {
        is_header(&rt, name, packet, &header);
        is_view(&rt, name, packet, &header, address)?;
        is_packet(&rt, name, packet, &header, address)?;
    }
    Ok(())
}

/// The hardware type is that of Ethernet, where 1 is the dummy type for 802.3 frames.
#[test]
fn the_hardware_type_decides_the_variant_that_is_read_back() {
    let rt = crate::kit::HostRuntime;
    let other = LinuxSllHeader {
        protocol_type: LinuxSllProtocolType::EtherType(EtherType(1)),
        ..HEADER
    };
    equal!(rt, "another variant"; LinuxSllHeader::from_bytes(other.to_bytes()) => Ok(HEADER));
}

#[test]
fn a_cooked_header_is_written_to_the_front() -> Result<(), Fail> {
    let rt = crate::kit::HostRuntime;
    let mut target = [0x55; 18];
    let rest = HEADER.write_to_slice(&mut target)?;
    let len = rest.len();
    for byte in rest {
        *byte = 0xAA;
    }
    equal!(rt, "the front, and the rest lent";
        len => 2,
        target.get(..17) => Some(COOKED.as_slice()),
        target.get(17) => Some(&0xAA),
    );
    let mut target = [0x55; 15];
    let refused = SliceWriteSpaceError {
        required_len: 16,
        len: 15,
        layer: Layer::LinuxSllHeader,
        layer_start_offset: 0,
    };
    let error = HEADER.write_to_slice(&mut target).err();
    equal!(rt, "fifteen bytes";
        error => Some(refused),
        target => [0x55; 15],
    );
    Ok(())
}

/// The length of an address, and which of the bytes 1 to 8 are the address then.
static ADDRESSES: [(&str, u8, &[u8]); 5] = [
    ("no address", 0, &[]),
    ("six bytes", 6, &[1, 2, 3, 4, 5, 6]),
    ("eight bytes", 8, &[1, 2, 3, 4, 5, 6, 7, 8]),
    ("nine bytes, eight held", 9, &[1, 2, 3, 4, 5, 6, 7, 8]),
    ("255 bytes, eight held", 255, &[1, 2, 3, 4, 5, 6, 7, 8]),
];

#[test]
fn a_cooked_sender_address_has_at_most_eight_bytes() -> Result<(), Fail> {
    let rt = crate::kit::HostRuntime;
    for &(name, valid_len, address) in &ADDRESSES {
        let bytes = [0, 0, 0, 1, 0, valid_len, 1, 2, 3, 4, 5, 6, 7, 8, 0x08, 0x00];
        let view = LinuxSllHeaderSlice::from_slice(&bytes)?;
        equal!(rt, name;
            view.sender_address_valid_length() => u16::from(valid_len),
            view.sender_address() => address,
        );
    }
    Ok(())
}

/// A header whose packet type and hardware type are not supported.
const UNSUPPORTED: [u8; 16] = [0, 8, 1, 1, 0, 0, 0, 0, 0, 0, 0, 0, 0, 0, 0, 0];

/// A refused packet type.
macro_rules! packet_type {
    ($packet_type:expr $(,)?) => {
        Some(HeaderSliceError::Content(
            HeaderError::UnsupportedPacketTypeField { packet_type: $packet_type },
        ))
    };
}

/// A refused hardware type.
macro_rules! hardware_type {
    ($number:expr $(,)?) => {
        Some(HeaderSliceError::Content(
            HeaderError::UnsupportedArpHardwareId { arp_hardware_type: ArpHardwareId($number) },
        ))
    };
}

const SHORT: Option<HeaderSliceError> = Some(HeaderSliceError::Len(cut_short!(
    16,
    15,
    Layer::LinuxSllHeader
)));

fn refusal(bytes: &[u8]) -> Option<HeaderSliceError> {
    match LinuxSllHeader::from_slice(bytes) {
        Ok(_) => None,
        Err(error) => Some(error),
    }
}

/// Bytes, and why they are refused. The length is tested first, then the packet type.
static REFUSALS: [(&str, &[u8], Option<HeaderSliceError>); 8] = [
    (
        "fifteen bytes",
        &[0, 0, 0, 1, 0, 0xFF, 2, 0, 0, 0, 0, 1, 0, 0, 0],
        SHORT,
    ),
    (
        "fifteen bytes of a refused header",
        &[0, 8, 1, 1, 0, 0, 0, 0, 0, 0, 0, 0, 0, 0, 0],
        SHORT,
    ),
    (
        "a packet type",
        &[0, 8, 0, 1, 0, 0xFF, 2, 0, 0, 0, 0, 1, 0, 0, 0, 1],
        packet_type!(8),
    ),
    (
        "the greatest packet type",
        &[0xFF, 0xFF, 0, 1, 0, 0, 0, 0, 0, 0, 0, 0, 0, 0, 0, 0],
        packet_type!(65535),
    ),
    ("both types", &UNSUPPORTED, packet_type!(8)),
    (
        "a hardware type",
        &[0, 0, 1, 1, 0, 0, 0, 0, 0, 0, 0, 0, 0, 0, 0x08, 0x00],
        hardware_type!(257),
    ),
    (
        "a hardware type after the greatest packet type that is supported",
        &[0, 7, 1, 1, 0, 0, 0, 0, 0, 0, 0, 0, 0, 0, 0, 0],
        hardware_type!(257),
    ),
    (
        "a captured packet of the loopback device",
        &COOKED_LOOPBACK,
        hardware_type!(772),
    ),
];

#[test]
fn a_refused_cooked_packet_names_the_cause() {
    let rt = crate::kit::HostRuntime;
    for (name, bytes, wanted) in &REFUSALS {
        let packet = LinuxSllSlice::from_slice(bytes).err();
        let view = LinuxSllHeaderSlice::from_slice(bytes).err();
        let alike = view == packet && refusal(bytes) == packet;
        equal!(rt, name;
            &packet => wanted,
            alike => true,
        );
    }
    let refused = HeaderError::UnsupportedPacketTypeField { packet_type: 8 };
    equal!(rt, "sixteen bytes by value"; LinuxSllHeader::from_bytes(UNSUPPORTED) => Err(refused));
}

#[test]
fn debug_shows_cooked_packets() -> Result<(), Fail> {
    let rt = crate::kit::HostRuntime;
    let view = LinuxSllHeaderSlice::from_slice(&COOKED)?;
    let packet = LinuxSllSlice::from_slice(&COOKED)?;
    let shown = format!("{:?}", (HEADER, view, packet));
    equal!(rt, "a header, its view and one with the payload";
        shown.as_str()
            => "(LinuxSllHeader { packet_type: 0 (Sent to us), arp_hrd_type: 1 (Ethernet), sender_address_valid_length: 255, sender_address: [2, 0, 0, 0, 0, 1, 0, 0], protocol_type: LinuxNonstandardEtherType(0x0001 (Dummy type for 802.3 frames)) }, \
LinuxSllHeaderSlice { slice: [0, 0, 0, 1, 0, 255, 2, 0, 0, 0, 0, 1, 0, 0, 0, 1] }, \
LinuxSllSlice { header: LinuxSllHeader { packet_type: 0 (Sent to us), arp_hrd_type: 1 (Ethernet), sender_address_valid_length: 255, sender_address: [2, 0, 0, 0, 0, 1, 0, 0], protocol_type: LinuxNonstandardEtherType(0x0001 (Dummy type for 802.3 frames)) }, payload: LinuxSllPayloadSlice { protocol_type: LinuxNonstandardEtherType(0x0001 (Dummy type for 802.3 frames)), payload: [170] } })",
    );
    Ok(())
}
