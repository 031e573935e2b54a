//! ARP packets as values, at the root of the crate.

use etherpeel::err::arp::{ArpEthIpv4FromError, ArpHwAddrError, ArpNewError, ArpProtoAddrError};
use etherpeel::{ArpEthIpv4Packet, ArpOperation, ArpPacket};
use properties::arp::Arp;
use properties::cases::{agreed, check};
use properties::frames::{arp, arp_bytes, twins};
use properties::observed;
use properties::wire::Source;
use proptest::collection::vec;
use proptest::prelude::{Just, Strategy, any, prop_assert, prop_assert_eq, prop_oneof};

/// The packet of the crate with the fields of a packet of the model.
fn packet_of(arp: &Arp) -> Result<ArpPacket, ArpNewError> {
    ArpPacket::new(
        arp.hardware_type.into(),
        arp.protocol_type.into(),
        ArpOperation(arp.operation),
        &arp.sender_hardware,
        &arp.sender_protocol,
        &arp.target_hardware,
        &arp.target_protocol,
    )
}

/// An ARP packet is read exactly from bytes that begin with one, whatever follows. Packets are equal if their fields
/// are.
///
/// Holds: `ArpPacket::from_slice`
#[test]
fn arp_packets_are_read() {
    check(twins(arp_bytes()), |(bytes, others)| {
        let found = ArpPacket::from_slice(&bytes);
        let wanted = Arp::read(&bytes, Source::Frame);
        let Some((packet, wanted)) = agreed(found, wanted, observed::short)? else { return Ok(()) };
        prop_assert_eq!(&observed::arp(&packet), &wanted);
        if let Ok(other) = ArpPacket::from_slice(&others) {
            prop_assert_eq!(packet == other, observed::arp(&other) == wanted);
        }
        Ok(())
    });
}

/// An ARP packet has the fields that it is made of, is written as its bytes, and read back from them, whatever follows.
///
/// Holds: `ArpPacket::new`, `ArpPacket::hw_addr_size`, `ArpPacket::protocol_addr_size`, `ArpPacket::sender_hw_addr`,
/// `ArpPacket::sender_protocol_addr`, `ArpPacket::target_hw_addr`, `ArpPacket::target_protocol_addr`,
/// `ArpPacket::packet_len`, `ArpPacket::to_bytes`, `ArpPacket::from_slice`
#[test]
fn arp_packets_are_written() {
    check((arp(), arp(), vec(any::<u8>(), 0..6)), |(arp, other, more)| {
        let packet = packet_of(&arp).expect("the lengths fit");
        prop_assert_eq!(&observed::arp(&packet), &arp);
        let sizes = (arp.sender_hardware.len(), arp.sender_protocol.len());
        prop_assert_eq!((usize::from(packet.hw_addr_size()), usize::from(packet.protocol_addr_size())), sizes);
        prop_assert_eq!(packet.to_bytes().to_vec(), arp.bytes());
        prop_assert_eq!(packet.packet_len(), arp.bytes().len());
        prop_assert_eq!(packet == packet_of(&other).expect("the lengths fit"), arp == other);
        prop_assert_eq!(ArpPacket::from_slice(&[arp.bytes(), more].concat()), Ok(packet));
        Ok(())
    });
}

/// Lengths of addresses, many of them equal, some above 255.
fn lengths() -> impl Strategy<Value = (usize, usize)> {
    let len = || prop_oneof![0..4usize, 254..258usize];
    prop_oneof![len().prop_map(|len| (len, len)), (len(), len())]
}

/// Two hardware addresses are refused if their lengths differ, or else if they do not fit in a byte.
fn hardware_refusal((sender, target): (usize, usize)) -> Option<ArpHwAddrError> {
    match sender == target {
        false => Some(ArpHwAddrError::LenNonMatching(sender, target)),
        true => (sender > 255).then_some(ArpHwAddrError::LenTooBig(sender)),
    }
}

fn protocol_refusal((sender, target): (usize, usize)) -> Option<ArpProtoAddrError> {
    match sender == target {
        false => Some(ArpProtoAddrError::LenNonMatching(sender, target)),
        true => (sender > 255).then_some(ArpProtoAddrError::LenTooBig(sender)),
    }
}

/// Addresses of any lengths make an ARP packet exactly if both of a kind have one length, which fits in a byte. Of
/// several reasons to refuse them, unequal lengths are named first, and then the hardware addresses.
///
/// Holds: `ArpPacket::new`
#[test]
fn arp_packets_have_addresses_of_one_length() {
    check((lengths(), lengths(), any::<u8>()), |(hardware, protocol, byte)| {
        let address = |len: usize| vec![byte; len];
        let arp = Arp {
            hardware_type: 1,
            protocol_type: 2,
            operation: 3,
            sender_hardware: address(hardware.0),
            target_hardware: address(hardware.1),
            sender_protocol: address(protocol.0),
            target_protocol: address(protocol.1),
        };
        let refusals = [
            hardware_refusal(hardware).map(ArpNewError::HwAddr),
            protocol_refusal(protocol).map(ArpNewError::ProtoAddr),
        ];
        let is_unequal = |error: &ArpNewError| {
            let hardware = matches!(error, ArpNewError::HwAddr(ArpHwAddrError::LenNonMatching(..)));
            hardware || matches!(error, ArpNewError::ProtoAddr(ArpProtoAddrError::LenNonMatching(..)))
        };
        let refusals: Vec<ArpNewError> = refusals.into_iter().flatten().collect();
        let wanted = refusals.iter().find(|&error| is_unequal(error)).or(refusals.first());
        prop_assert_eq!(packet_of(&arp).err(), wanted.cloned());
        Ok(())
    });
}

/// Both addresses of a kind are replaced exactly if they have one length, which fits in a byte; else the packet is
/// unchanged.
///
/// Holds: `ArpPacket::set_hw_addrs`, `ArpPacket::set_protocol_addrs`
#[test]
fn arp_addresses_are_set() {
    check((arp(), lengths(), any::<[u8; 2]>()), |(arp, lengths, [sender, target])| {
        let (sender, target) = (vec![sender; lengths.0], vec![target; lengths.1]);
        let packet = packet_of(&arp).expect("the lengths fit");
        let mut set = packet.clone();
        let answer = set.set_hw_addrs(&sender, &target);
        prop_assert_eq!(answer.err(), hardware_refusal(lengths));
        let wanted = Arp { sender_hardware: sender.clone(), target_hardware: target.clone(), ..arp.clone() };
        prop_assert_eq!(&observed::arp(&set), if answer.is_ok() { &wanted } else { &arp });

        let mut set = packet;
        let answer = set.set_protocol_addrs(&sender, &target);
        prop_assert_eq!(answer.err(), protocol_refusal(lengths));
        let wanted = Arp { sender_protocol: sender, target_protocol: target, ..arp.clone() };
        prop_assert_eq!(&observed::arp(&set), if answer.is_ok() { &wanted } else { &arp });
        Ok(())
    });
}

/// An ARP packet is one of Ethernet and IPv4 exactly if its types are 1 and 0x0800 and its sizes 6 and 4 (RFC 826); the
/// first of these that differs is named.
///
/// Holds: `ArpPacket::try_eth_ipv4`
#[test]
fn packets_of_ethernet_and_ipv4_are_told_apart() {
    let near = (arp(), 0..3u16, prop_oneof![Just(0x0800u16), Just(0x86DD)]).prop_map(|(arp, hardware, protocol)| Arp {
        hardware_type: hardware,
        protocol_type: protocol,
        ..arp
    });
    check(prop_oneof![arp(), near], |arp| {
        let packet = packet_of(&arp).expect("the lengths fit");
        let (hardware, protocol) = (arp.sender_hardware.len(), arp.sender_protocol.len());
        let wanted = match (arp.hardware_type, arp.protocol_type, hardware, protocol) {
            (1, 0x0800, 6, 4) => None,
            (1, 0x0800, 6, size) => Some(ArpEthIpv4FromError::NonMatchingProtoAddrSize(size as u8)),
            (1, 0x0800, size, _) => Some(ArpEthIpv4FromError::NonMatchingHwAddrSize(size as u8)),
            (1, number, ..) => Some(ArpEthIpv4FromError::NonMatchingProtocolType(number.into())),
            (number, ..) => Some(ArpEthIpv4FromError::NonMatchingHwType(number.into())),
        };
        let found = packet.try_eth_ipv4();
        prop_assert_eq!(found.as_ref().err(), wanted.as_ref());
        prop_assert_eq!(&ArpEthIpv4Packet::try_from(packet.clone()), &found);
        prop_assert!(found.is_err() || found.map(|found| found.to_arp_packet()) == Ok(packet));
        Ok(())
    });
}

/// A packet of Ethernet and IPv4 is written as the packet that it becomes, and read back from it.
///
/// Holds: `ArpEthIpv4Packet::to_bytes`, `ArpEthIpv4Packet::to_arp_packet`, `ArpEthIpv4Packet::sender_ipv4_addr`,
/// `ArpEthIpv4Packet::target_ipv4_addr`, `ArpPacket::try_eth_ipv4`
#[test]
fn packets_of_ethernet_and_ipv4_are_written() {
    let parts = (any::<u16>(), any::<[u8; 6]>(), any::<[u8; 4]>(), any::<[u8; 6]>(), any::<[u8; 4]>());
    check(parts, |(number, sender_mac, sender_ipv4, target_mac, target_ipv4)| {
        let operation = ArpOperation(number);
        let packet = ArpEthIpv4Packet { operation, sender_mac, sender_ipv4, target_mac, target_ipv4 };
        let arp = Arp {
            hardware_type: 1,
            protocol_type: 0x0800,
            operation: number,
            sender_hardware: sender_mac.to_vec(),
            sender_protocol: sender_ipv4.to_vec(),
            target_hardware: target_mac.to_vec(),
            target_protocol: target_ipv4.to_vec(),
        };
        prop_assert_eq!(packet.to_bytes().to_vec(), arp.bytes());
        prop_assert_eq!(&observed::arp(&packet.to_arp_packet()), &arp);
        prop_assert_eq!(packet.to_arp_packet().try_eth_ipv4(), Ok(packet));
        prop_assert_eq!(packet.sender_ipv4_addr().octets(), sender_ipv4);
        prop_assert_eq!(packet.target_ipv4_addr().octets(), target_ipv4);
        Ok(())
    });
}
