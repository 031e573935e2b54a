//! Addresses of ARP packets, which are refused or replace others.
use super::equal;
use crate::test_frames::{REPLY, REQUEST};
use etherpeel::err::arp::{ArpHwAddrError, ArpNewError, ArpProtoAddrError};
use etherpeel::{ArpHardwareId, ArpOperation, ArpPacket, EtherType};
use std::hash::{DefaultHasher, Hash, Hasher};
use crate::kit::Fail;

/// A request with these addresses.
fn request(addresses: [&[u8]; 4]) -> Result<ArpPacket, ArpNewError> {
    let [
        sender_hardware,
        sender_protocol,
        target_hardware,
        target_protocol,
    ] = addresses;
    ArpPacket::new(
        ArpHardwareId::ETHERNET,
        EtherType::IPV4,
        ArpOperation::REQUEST,
        sender_hardware,
        sender_protocol,
        target_hardware,
        target_protocol,
    )
}

/// Addresses, and why they are refused: lengths that differ are refused before lengths above 255.
static REFUSED: [(&str, [&[u8]; 4], ArpNewError); 4] = [
    (
        "hardware addresses of two lengths",
        [&[0; 5], &[0; 4], &[0; 6], &[0; 3]],
        ArpNewError::HwAddr(ArpHwAddrError::LenNonMatching(5, 6)),
    ),
    (
        "protocol addresses of two lengths",
        [&[0; 256], &[0; 4], &[0; 256], &[0; 3]],
        ArpNewError::ProtoAddr(ArpProtoAddrError::LenNonMatching(4, 3)),
    ),
    (
        "long hardware addresses",
        [&[0; 256], &[0; 256], &[0; 256], &[0; 256]],
        ArpNewError::HwAddr(ArpHwAddrError::LenTooBig(256)),
    ),
    (
        "long protocol addresses",
        [&[0; 6], &[0; 300], &[0; 6], &[0; 300]],
        ArpNewError::ProtoAddr(ArpProtoAddrError::LenTooBig(300)),
    ),
];

#[test]
fn a_new_arp_packet_refuses_unequal_and_long_addresses() {
    let rt = crate::kit::HostRuntime;
    for (name, addresses, wanted) in &REFUSED {
        equal!(rt, name; request(*addresses).err().as_ref() => Some(wanted));
    }
}

fn hash_of(packet: &ArpPacket) -> u64 {
    let mut state = DefaultHasher::new();
    packet.hash(&mut state);
    state.finish()
}

/// A packet, the addresses of sender and target that replace its own, and the packet that results, whose operation is
/// set too.
struct Change {
    name: &'static str,
    before: &'static [u8],
    hardware: Option<[&'static [u8]; 2]>,
    protocol: Option<[&'static [u8]; 2]>,
    after: &'static [u8],
}

static CHANGES: [Change; 9] = [
    Change {
        name: "other hardware addresses",
        before: &REQUEST,
        hardware: Some([&[0xAA, 0xBB], &[0xCC, 0xDD]]),
        protocol: None,
        after: &[
            0x00, 0x01, 0x08, 0x00, 0x02, 0x04, 0x00, 0x01, 0xAA, 0xBB, 0x0A, 0x00, 0x00, 0x01,
            0xCC, 0xDD, 0x0A, 0x00, 0x00, 0x02,
        ],
    },
    Change {
        name: "other protocol addresses",
        before: &REQUEST,
        hardware: None,
        protocol: Some([&[11, 12, 13, 14, 15, 16, 17], &[21, 22, 23, 24, 25, 26, 27]]),
        after: &[
            0, 1, 8, 0, 6, 7, 0, 1, 2, 0, 0, 0, 0, 1, 11, 12, 13, 14, 15, 16, 17, 0, 0, 0, 0, 0, 0,
            21, 22, 23, 24, 25, 26, 27,
        ],
    },
    Change {
        name: "protocol addresses of 16 bytes",
        before: &REQUEST,
        hardware: None,
        protocol: Some([&[1; 16], &[2; 16]]),
        after: &[
            0, 1, 8, 0, 6, 16, 0, 1, 2, 0, 0, 0, 0, 1, 1, 1, 1, 1, 1, 1, 1, 1, 1, 1, 1, 1, 1, 1, 1,
            1, 0, 0, 0, 0, 0, 0, 2, 2, 2, 2, 2, 2, 2, 2, 2, 2, 2, 2, 2, 2, 2, 2,
        ],
    },
    Change {
        name: "protocol addresses of one byte",
        before: &REQUEST,
        hardware: None,
        protocol: Some([&[31], &[32]]),
        after: &[
            0, 1, 8, 0, 6, 1, 0, 1, 2, 0, 0, 0, 0, 1, 31, 0, 0, 0, 0, 0, 0, 32,
        ],
    },
    Change {
        name: "no protocol addresses",
        before: &REQUEST,
        hardware: None,
        protocol: Some([&[], &[]]),
        after: &[0, 1, 8, 0, 6, 0, 0, 1, 2, 0, 0, 0, 0, 1, 0, 0, 0, 0, 0, 0],
    },
    Change {
        name: "hardware addresses that are a byte longer",
        before: &[0, 1, 8, 0, 2, 3, 0, 1, 1, 2, 11, 12, 13, 3, 4, 14, 15, 16],
        hardware: Some([&[5, 6, 7], &[8, 9, 10]]),
        protocol: None,
        after: &[
            0, 1, 8, 0, 3, 3, 0, 1, 5, 6, 7, 11, 12, 13, 8, 9, 10, 14, 15, 16,
        ],
    },
    Change {
        name: "a byte shorter",
        before: &[
            0, 1, 8, 0, 3, 3, 0, 1, 5, 6, 7, 11, 12, 13, 8, 9, 10, 14, 15, 16,
        ],
        hardware: Some([&[1, 2], &[3, 4]]),
        protocol: None,
        after: &[0, 1, 8, 0, 2, 3, 0, 1, 1, 2, 11, 12, 13, 3, 4, 14, 15, 16],
    },
    Change {
        name: "a request put together from nothing",
        before: &[0, 1, 8, 0, 0, 0, 0, 1],
        hardware: Some([&[2, 0, 0, 0, 0, 1], &[0, 0, 0, 0, 0, 0]]),
        protocol: Some([&[10, 0, 0, 1], &[10, 0, 0, 2]]),
        after: &REQUEST,
    },
    Change {
        name: "the example, which is the reply",
        before: &REQUEST,
        hardware: Some([&[2, 0, 0, 0, 0, 2], &[2, 0, 0, 0, 0, 1]]),
        protocol: Some([&[10, 0, 0, 2], &[10, 0, 0, 1]]),
        after: &REPLY,
    },
];

/// A packet whose addresses were set is written, and read back as an equal packet with the same hash.
#[test]
fn addresses_that_are_set_are_written_and_hashed() -> Result<(), Fail> {
    let rt = crate::kit::HostRuntime;
    for change in &CHANGES {
        let mut packet = ArpPacket::from_slice(change.before)?;
        if let Some(addresses) = change.protocol {
            packet.set_protocol_addrs(addresses[0], addresses[1])?;
        }
        if let Some(addresses) = change.hardware {
            packet.set_hw_addrs(addresses[0], addresses[1])?;
        }
        let read = ArpPacket::from_slice(change.after)?;
        packet.operation = read.operation;
        let bytes = packet.to_bytes();
        equal!(rt, change.name;
            bytes.as_slice() => change.after,
            hash_of(&packet) => hash_of(&read),
            &packet => &read,
        );
    }
    Ok(())
}

/// A packet whose addresses were set equals the packet that is made with these addresses.
#[test]
fn addresses_that_are_set_equal_those_given_at_first() -> Result<(), Fail> {
    let rt = crate::kit::HostRuntime;
    let mut packet = ArpPacket::from_slice(&REQUEST)?;
    packet.set_hw_addrs(&[0xAA, 0xBB], &[0xCC, 0xDD])?;
    let made = request([&[0xAA, 0xBB], &[10, 0, 0, 1], &[0xCC, 0xDD], &[10, 0, 0, 2]])?;
    equal!(rt, "other hardware addresses";
        hash_of(&packet) => hash_of(&made),
        &packet => &made,
    );
    Ok(())
}

/// The greatest addresses, of the bytes 1 to 6.
static GREATEST: [[u8; 255]; 6] = [[1; 255], [2; 255], [3; 255], [4; 255], [5; 255], [6; 255]];

#[test]
fn set_arp_addresses_may_be_longer_or_shorter() -> Result<(), Fail> {
    let rt = crate::kit::HostRuntime;
    let [one, two, three, four, five, six] = &GREATEST;
    let mut packet = request([one, two, three, four])?;
    let full = packet.packet_len();
    packet.set_hw_addrs(&[], &[])?;
    let shrunk = packet.clone();
    packet.set_hw_addrs(five, six)?;
    equal!(rt, "the greatest ones, no hardware addresses, and the greatest ones again";
        [full, shrunk.packet_len(), packet.packet_len()] => [1028, 518, 1028],
        shrunk => request([&[], two, &[], four])?,
        packet => request([five, two, six, four])?,
    );
    Ok(())
}

#[test]
fn refused_arp_addresses_change_nothing() -> Result<(), Fail> {
    let rt = crate::kit::HostRuntime;
    let before = ArpPacket::from_slice(&REQUEST)?;
    let mut packet = before.clone();
    let hardware = [
        packet.set_hw_addrs(&[1; 256], &[2; 255]),
        packet.set_hw_addrs(&[1; 256], &[2; 256]),
    ];
    let protocol = [
        packet.set_protocol_addrs(&[1; 3], &[2; 5]),
        packet.set_protocol_addrs(&[1; 256], &[2; 256]),
    ];
    let bytes = packet.to_bytes();
    equal!(rt, "addresses of two lengths, and of 256 bytes";
        hardware
            => [Err(ArpHwAddrError::LenNonMatching(256, 255)), Err(ArpHwAddrError::LenTooBig(256))],
        protocol
            => [Err(ArpProtoAddrError::LenNonMatching(3, 5)), Err(ArpProtoAddrError::LenTooBig(256))],
        &packet => &before,
        bytes.as_slice() => REQUEST.as_slice(),
    );
    Ok(())
}

#[test]
fn arp_packets_differ_by_the_sizes_that_cut_the_same_bytes() -> Result<(), Fail> {
    let rt = crate::kit::HostRuntime;
    let packet = request([&[1], &[2, 3], &[4], &[5, 6]])?;
    let other = request([&[1, 2], &[3], &[4, 5], &[6]])?;
    let mut cut = other.clone();
    cut.set_hw_addrs(&[1], &[4])?;
    cut.set_protocol_addrs(&[2, 3], &[5, 6])?;
    let hardware = request([&[1, 2], &[], &[3, 4], &[]])?;
    let protocol = request([&[], &[1, 2], &[], &[3, 4]])?;
    equal!(rt, "which are equal";
        [packet == other, packet == cut, hardware == protocol] => [false, true, false],
    );
    Ok(())
}
