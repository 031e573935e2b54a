//! `PacketBuilder`, and the steps after it.

use super::frames::{REPLY, X, X_IP, Y, Y_IP};
use etherpeel::err::packet::BuildWriteError;
use etherpeel::{
    ArpEthIpv4Packet, ArpHardwareId, ArpOperation, ArpPacket, DoubleVlanHeader, EtherType, LinuxSllPacketType,
    PacketBuilder, SingleVlanHeader, VlanHeader, VlanId,
};

fn reply() -> ArpPacket {
    let operation = ArpOperation::REPLY;
    ArpEthIpv4Packet { operation, sender_mac: Y, sender_ipv4: Y_IP, target_mac: X, target_ipv4: X_IP }.to_arp_packet()
}

#[test]
fn without_tags() {
    let builder = PacketBuilder::ethernet2(Y, X).arp(reply());
    let mut result = Vec::new();
    assert_eq!(builder.size(), REPLY.len());
    builder.write(&mut result).unwrap();
    assert_eq!(result, REPLY);
}

/// The tags keep their priorities, and lose their ether types.
#[test]
fn with_tags() {
    let tag = |bytes| SingleVlanHeader::from_bytes(bytes);
    let both = DoubleVlanHeader { outer: tag([0xD3, 0xE8, 0x91, 0x00]), inner: tag([0x60, 0x64, 0x12, 0x34]) };
    let (hundred, thousand) = (VlanId::try_new(100).unwrap(), VlanId::try_new(1000).unwrap());
    let start = || PacketBuilder::ethernet2(Y, X);
    let rows: [(_, &[u8]); 4] = [
        (start().vlan(VlanHeader::Single(both.outer)), &[0x81, 0x00, 0xD3, 0xE8]),
        (start().single_vlan(hundred), &[0x81, 0x00, 0x00, 0x64]),
        (start().vlan(VlanHeader::Double(both)), &[0x88, 0xA8, 0xD3, 0xE8, 0x81, 0x00, 0x60, 0x64]),
        (start().double_vlan(thousand, hundred), &[0x88, 0xA8, 0x03, 0xE8, 0x81, 0x00, 0x00, 0x64]),
    ];
    for (step, tags) in rows {
        let mut result = Vec::new();
        let builder = step.arp(reply());
        let size = builder.size();
        builder.write(&mut result).unwrap();
        assert_eq!(result, [&REPLY[..12], tags, &REPLY[12..]].concat());
        assert_eq!(size, result.len());
    }
}

#[test]
fn cooked_capture() {
    let start = || PacketBuilder::linux_sll(LinuxSllPacketType::OUTGOING, 6, [2, 0, 0, 0, 0, 11, 0, 0]);
    let mut result = Vec::new();
    start().arp(reply()).write(&mut result).unwrap();
    assert_eq!(result[..16], [0, 4, 0, 1, 0, 6, 2, 0, 0, 0, 0, 11, 0, 0, 8, 6]);
    assert_eq!(result[16..], REPLY[14..]);

    let mut result = Vec::new();
    let mut other = reply();
    other.hw_addr_type = ArpHardwareId::IEEE802;
    let error = start().arp(other.clone()).write(&mut result).unwrap_err();
    assert!(matches!(error, BuildWriteError::ArpHeaderNotMatch) && result.is_empty());
    // Ethernet II says no hardware type.
    PacketBuilder::ethernet2(Y, X).arp(other).write(&mut result).unwrap();
    assert_eq!(result[14..16], [0, 6]);
}

/// The longest packet there is.
#[test]
fn longest() {
    let address = [0xAB; 255];
    let operation = ArpOperation::REQUEST;
    let packet =
        ArpPacket::new(ArpHardwareId::ETHERNET, EtherType::IPV4, operation, &address, &address, &address, &address)
            .unwrap();
    let ids = (VlanId::ZERO, VlanId::ZERO);
    for (builder, len) in [
        (PacketBuilder::ethernet2(Y, X).double_vlan(ids.0, ids.1).arp(packet.clone()), 14 + 8 + 1028),
        (PacketBuilder::linux_sll(LinuxSllPacketType::HOST, 0, [0; 8]).arp(packet.clone()), 16 + 1028),
    ] {
        let mut result = Vec::new();
        assert_eq!(builder.size(), len);
        builder.write(&mut result).unwrap();
        assert_eq!((result.len(), &result[len - 1028..]), (len, &packet.to_bytes()[..]));
    }
}

#[test]
fn writer_that_fails() {
    let mut short = [0; 41];
    let error = PacketBuilder::ethernet2(Y, X).arp(reply()).write(&mut &mut short[..]).unwrap_err();
    assert_eq!(error.io().map(|it| it.kind()), Some(std::io::ErrorKind::WriteZero));
}
