//! ARP packets of worked frames, replaced in place.
use super::frames::{
    CHECKED, CONFIDENTIALITY, COOKED_ARP_REQUEST, PADDED_ARP, TWICE_TAGGED_ARP_REQUEST,
};
use super::{equal, filled, put};
use etherpeel::ether_packet::{Difference, PacketSlice, ReplaceError, replace_arp};
use etherpeel::ether_peel::Start;
use etherpeel::{ArpEthIpv4Packet, ArpHardwareId, ArpOperation, ArpPacket, EtherType};
use crate::kit::Fail;

/// The reply from 02:00:5E:10:00:02 to the captured request for 192.0.2.2.
const REPLY: ArpEthIpv4Packet = ArpEthIpv4Packet {
    operation: ArpOperation::REPLY,
    sender_mac: [0x02, 0x00, 0x5E, 0x10, 0x00, 0x02],
    sender_ipv4: [192, 0, 2, 2],
    target_mac: [0x02, 0x00, 0x5E, 0x10, 0x00, 0x01],
    target_ipv4: [192, 0, 2, 1],
};

/// Its bytes (RFC 826, "Packet format").
const REPLY_BYTES: [u8; 28] = [
    0x00, 0x01, 0x08, 0x00, 0x06, 0x04, 0x00, 0x02, 0x02, 0x00, 0x5E, 0x10, 0x00, 0x02, 0xC0, 0x00,
    0x02, 0x02, 0x02, 0x00, 0x5E, 0x10, 0x00, 0x01, 0xC0, 0x00, 0x02, 0x01,
];

/// A packet with equal addresses for sender and target.
fn between(hardware: &[u8], protocol: &[u8]) -> Result<ArpPacket, Fail> {
    Ok(ArpPacket::new(
        ArpHardwareId::ETHERNET,
        EtherType::IPV4,
        ArpOperation::REPLY,
        hardware,
        protocol,
        hardware,
        protocol,
    )?)
}

const ETH: Start = Start::Ethernet2;

const EXAMPLE: &[u8] = &[
    0xFF, 0xFF, 0xFF, 0xFF, 0xFF, 0xFF, 0x02, 0x00, 0x00, 0x00, 0x00, 0x01, 0x08, 0x06, 0x00, 0x01,
    0x08, 0x00, 0x06, 0x04, 0x00, 0x01, 0x02, 0x00, 0x00, 0x00, 0x00, 0x01, 0x0A, 0x00, 0x00, 0x01,
    0x00, 0x00, 0x00, 0x00, 0x00, 0x00, 0x0A, 0x00, 0x00, 0x02,
];

/// After the ether type of a VLAN tag: a tag, the captured request and three bytes of padding.
const PADDED: &[u8] = &[
    0x01, 0x23, 0x08, 0x06, 0x00, 0x01, 0x08, 0x00, 0x06, 0x04, 0x00, 0x01, 0x02, 0x00, 0x5E, 0x10,
    0x00, 0x01, 0xC0, 0x00, 0x02, 0x01, 0x00, 0x00, 0x00, 0x00, 0x00, 0x00, 0xC0, 0x00, 0x02, 0x02,
    0xAA, 0xBB, 0xCC,
];

/// Frames of a length, and the offset of the ARP packet that the reply replaces, or why it is not replaced.
static FRAMES: [(&str, Start, &[u8], usize, Result<usize, ReplaceError>); 7] = [
    ("the example", ETH, EXAMPLE, 42, Ok(14)),
    ("after two tags", ETH, &TWICE_TAGGED_ARP_REQUEST, 50, Ok(22)),
    (
        "after a tag and before padding",
        Start::EtherType(EtherType::VLAN_TAGGED_FRAME),
        PADDED,
        35,
        Ok(4),
    ),
    (
        "in a cooked capture",
        Start::LinuxSll,
        &COOKED_ARP_REQUEST,
        44,
        Ok(16),
    ),
    (
        "no ARP packet",
        Start::Ethernet2Fcs,
        &CHECKED,
        19,
        Err(ReplaceError::NoArp),
    ),
    (
        "a sealed payload",
        ETH,
        &CONFIDENTIALITY,
        78,
        Err(ReplaceError::NoArp),
    ),
    (
        "a packet that is cut short",
        ETH,
        &PADDED_ARP,
        41,
        Err(ReplaceError::NoArp),
    ),
];

#[test]
fn a_request_becomes_a_reply_or_is_unchanged() {
    let rt = crate::kit::HostRuntime;
    let packet = REPLY.to_arp_packet();
    for (name, start, frame, len, wanted) in &FRAMES {
        let (mut changed, mut after) = (filled(frame), filled(frame));
        if let Ok(place) = wanted {
            put(&mut after, *place, &REPLY_BYTES);
        }
        let replaced = replace_arp(*start, &mut changed[..(*len).min(96)], &packet);
        let refused = wanted.as_ref().err();
        equal!(rt, name;
            replaced.as_ref().err() => refused,
            changed => after,
        );
    }
}

#[test]
fn a_reply_in_the_place_of_a_request_is_read_again() {
    let rt = crate::kit::HostRuntime;
    let mut frame = TWICE_TAGGED_ARP_REQUEST;
    let replaced = replace_arp(ETH, &mut frame, &REPLY.to_arp_packet());
    let read = PacketSlice::from_slice(ETH, &frame);
    let arp = read.arp().map(|arp| arp.slice());
    equal!(rt, "a reply that is read again";
        replaced => Ok(()),
        read.link_ext_count() => 2,
        read.is_complete() => true,
        arp => Some(REPLY_BYTES.as_slice()),
    );
}

#[test]
fn addresses_of_other_sizes_replace_as_many_bytes() -> Result<(), Fail> {
    let rt = crate::kit::HostRuntime;
    let mut bytes = [
        0x00, 0x07, 0x08, 0x00, 0x01, 0x02, 0x00, 0x01, 0x11, 0x22, 0x33, 0x00, 0x44, 0x55, 0xEE,
    ];
    let reply = ArpPacket::new(
        ArpHardwareId::ARCNET,
        EtherType::IPV4,
        ArpOperation::REPLY,
        &[0x66],
        &[0x44, 0x55],
        &[0x11],
        &[0x22, 0x33],
    )?;
    let replaced = replace_arp(Start::EtherType(EtherType::ARP), &mut bytes, &reply);
    let wanted = [
        0x00, 0x07, 0x08, 0x00, 0x01, 0x02, 0x00, 0x02, 0x66, 0x44, 0x55, 0x11, 0x22, 0x33, 0xEE,
    ];
    equal!(rt, "as short as those of the frame";
        replaced => Ok(()),
        bytes => wanted,
    );
    Ok(())
}

/// Hardware and protocol addresses, and which of their lengths differs from the frame's.
static LENGTHS: [(&str, &[u8], &[u8], Difference); 3] = [
    (
        "longer hardware addresses",
        &[0; 8],
        &[0; 4],
        Difference::HwAddrLen,
    ),
    (
        "longer protocol addresses",
        &[0; 6],
        &[0; 16],
        Difference::ProtocolAddrLen,
    ),
    (
        "other lengths of the same sum",
        &[0; 4],
        &[0; 6],
        Difference::HwAddrLen,
    ),
];

#[test]
fn longer_addresses_are_refused() -> Result<(), Fail> {
    let rt = crate::kit::HostRuntime;
    for &(name, hardware, protocol, difference) in &LENGTHS {
        let packet = between(hardware, protocol)?;
        let mut frame = PADDED_ARP;
        let replaced = replace_arp(Start::Ethernet2, &mut frame, &packet);
        equal!(rt, name;
            replaced => Err(ReplaceError::SaysOther(difference)),
            frame => PADDED_ARP,
        );
    }
    Ok(())
}
