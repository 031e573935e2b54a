//! What serde writes is read as the same value, and no value is read that a constructor refuses.

use etherpeel::ether_content::{CookedHeader, EditedPacket, PacketEdit};
use etherpeel::ether_filter::Decision;
use etherpeel::ether_packet::{EthernetFront, ethernet_front};
use etherpeel::ether_pcap::{
    ByteOrder, CaptureInterface, CopyMode, FileHeader, LinkType, Timestamp, TimestampResolution,
};
use etherpeel::ether_peel::{Feed, PeelError, PeelFault, RestKind, Start, Summary, feed, summary};
use etherpeel::ether_sll2::LinuxSll2Header;
use etherpeel::ether_switch::{
    AcceptableFrames, BridgeKind, PortConfig, PortSet, PortStates, Received, StaticEntry, Vlan, VlanConfig,
};
use etherpeel::*;
use serde::Serialize;
use serde::de::DeserializeOwned;
use std::fmt::Debug;

/// Asserts that a value is written as this text, and read from it.
fn assert_text<T: Serialize + DeserializeOwned + PartialEq + Debug>(value: T, text: &str) {
    assert_eq!(serde_json::to_string(&value).unwrap(), text);
    assert_eq!(serde_json::from_str::<T>(text).unwrap(), value);
}

/// Asserts that values are read as they are written.
fn assert_same<T: Serialize + DeserializeOwned + PartialEq + Debug>(values: impl IntoIterator<Item = T>) {
    for value in values {
        assert_eq!(serde_json::from_str::<T>(&serde_json::to_string(&value).unwrap()).unwrap(), value);
    }
}

/// Asserts that each text is refused.
fn assert_refused<T: DeserializeOwned + Debug>(texts: &[&str]) {
    for text in texts {
        assert!(serde_json::from_str::<T>(text).is_err(), "{text} is read");
    }
}

const FRAME: [u8; 20] = [
    0xFF, 0xFF, 0xFF, 0xFF, 0xFF, 0xFF, 0x02, 0x00, 0x00, 0x00, 0x00, 0x01, 0x81, 0x00, // Ethernet II
    0xB1, 0x23, 0x81, 0x00, // VLAN
    0x45, 0x00,
];

#[test]
fn numbers() {
    assert_text(EtherType::IPV4, "2048");
    assert_text(ArpHardwareId::ETHERNET, "1");
    assert_text(ArpOperation::REPLY, "2");
    assert_text(LinkType::ETHERNET, "1");
    assert_text(VlanId::try_new(4095).unwrap(), "4095");
    assert_text(VlanPcp::try_new(7).unwrap(), "7");
    assert_text(MacsecAn::try_new(3).unwrap(), "3");
    assert_text(MacsecShortLen::try_from(63).unwrap(), "63");
    assert_text(LinuxSllPacketType::try_from(4).unwrap(), "4");
    assert_text(LinuxNonstandardEtherType::try_from(1).unwrap(), "1");
    assert_text(Vlan::try_new(4094).unwrap(), "4094");
}

#[test]
fn numbers_that_are_refused() {
    assert_refused::<EtherType>(&["65536", "-1", "\"2048\"", "[]"]);
    assert_refused::<VlanId>(&["4096", "65535", "65536", "[5]"]);
    assert_refused::<VlanPcp>(&["8", "255", "256"]);
    assert_refused::<MacsecAn>(&["4", "255"]);
    assert_refused::<MacsecShortLen>(&["64", "255"]);
    assert_refused::<LinuxSllPacketType>(&["8", "65535"]);
    assert_refused::<LinuxNonstandardEtherType>(&["0", "2048"]);
    assert_refused::<Vlan>(&["0", "4095", "4096", "65535"]);
}

fn tag() -> SingleVlanHeader {
    SingleVlanHeader::from_bytes([0xB1, 0x23, 0x08, 0x00])
}

fn sec_tags() -> [MacsecHeader; 2] {
    let unmodified = MacsecHeader::from_slice(&[0x0B, 0x05, 0, 0, 0, 1, 0x08, 0x00]).unwrap();
    let mut encrypted = unmodified;
    (encrypted.ptype, encrypted.sci) = (MacsecPType::Encrypted, Some(u64::MAX));
    [unmodified, encrypted]
}

#[test]
fn headers() {
    let text = r#"{"pcp":5,"drop_eligible_indicator":true,"vlan_id":291,"ether_type":2048}"#;
    assert_text(tag(), text);
    assert_refused::<SingleVlanHeader>(&[&text.replace("291", "4096"), &text.replace("5", "8"), "{}"]);
    let ethernet = Ethernet2Header::from_bytes(*FRAME.first_chunk().unwrap());
    assert_same([ethernet]);
    assert_same(sec_tags());
    let tags = DoubleVlanHeader { outer: tag(), inner: tag() };
    assert_same([tags]);
    assert_same([VlanHeader::Single(tag()), VlanHeader::Double(tags)]);
    assert_same([LinkExtHeader::Vlan(tag()), LinkExtHeader::Macsec(sec_tags()[1])]);
    let cooked = [0, 4, 0, 1, 0, 6, 2, 0, 0, 0, 0, 1, 0, 0, 8, 0];
    let cooked = LinuxSllHeader::from_slice(&cooked).unwrap().0;
    assert_same([cooked]);
    assert_same([LinkHeader::Ethernet2(ethernet), LinkHeader::LinuxSll(cooked)]);
    let mut cooked = [0; 20];
    cooked[9] = 1;
    assert_same([LinuxSll2Header::from_slice(&cooked).unwrap().0]);
    let front: EthernetFront = ethernet_front(&FRAME).unwrap();
    assert_same([front]);
}

fn arp() -> ArpEthIpv4Packet {
    ArpEthIpv4Packet {
        operation: ArpOperation::REQUEST,
        sender_mac: [2; 6],
        sender_ipv4: [10, 0, 0, 1],
        target_mac: [0; 6],
        target_ipv4: [9; 4],
    }
}

#[test]
fn arp_packets() {
    assert_same([arp()]);
    assert_same([arp().to_arp_packet()]);
    let text = r#"{"hw_addr_type":1,"proto_addr_type":2048,"operation":2,"sender_hw_addr":[1,2],"#.to_string()
        + r#""sender_protocol_addr":[3],"target_hw_addr":[4,5],"target_protocol_addr":[6]}"#;
    let (hardware, protocol) = (ArpHardwareId::ETHERNET, EtherType::IPV4);
    assert_text(ArpPacket::new(hardware, protocol, ArpOperation::REPLY, &[1, 2], &[3], &[4, 5], &[6]).unwrap(), &text);
    let long = |len: usize| format!("[{}]", vec!["7"; len].join(","));
    let most = |len| text.replace("[1,2]", &long(len)).replace("[4,5]", &long(len));
    assert!(serde_json::from_str::<ArpPacket>(&most(255)).is_ok());
    assert_refused::<ArpPacket>(&[&text.replace("[4,5]", "[4]"), &text.replace("[6]", "[]"), &most(256), "{}"]);
}

#[test]
fn walks() {
    assert_text(Start::Ethernet2, "\"Ethernet2\"");
    assert_text(Start::EtherType(EtherType::ARP), r#"{"EtherType":2054}"#);
    assert_same([RestKind::Start, RestKind::Sealed, RestKind::AfterArp, RestKind::EtherType(EtherType::ARP)]);
    assert_same([RestKind::Sll(LinuxSllProtocolType::Ignored(7))]);
    let whole: Summary = summary(Start::EtherType(EtherType::IPV4), &FRAME);
    assert_same((0..=20).map(|len| summary(Start::Ethernet2, &FRAME[..len])).chain([whole]));
    let (layer, len_source) = (err::Layer::VlanHeader, LenSource::MacsecShortLength);
    let errors = [
        PeelError::Len(err::LenError { required_len: 4, len: 2, len_source, layer, layer_start_offset: 14 }),
        PeelError::LinuxSll(err::linux_sll::HeaderError::UnsupportedPacketTypeField { packet_type: 9 }),
        PeelError::Macsec(err::macsec::HeaderError::UnexpectedVersion),
    ];
    assert_same(errors.map(|error| PeelFault { offset: 3, error, closed: true }));
    assert_same::<Feed>([feed(Start::Ethernet2, &FRAME)]);
}

#[test]
fn switches() {
    let vlan = Vlan::try_new(10).unwrap();
    let mut ports = PortSet::NONE;
    ports.insert(3);
    assert_same([ports]);
    assert_same([PortStates { learning: ports, forwarding: ports, isolated: PortSet::NONE, mirrors: PortSet::NONE }]);
    let frames = [AcceptableFrames::All, AcceptableFrames::OnlyVlanTagged, AcceptableFrames::OnlyUntagged];
    assert_same(frames.map(|frame_types| PortConfig { frame_types, ..PortConfig::access(vlan) }));
    let config = VlanConfig { members: ports, untagged: ports, first_bucket: 1, buckets: 2 };
    assert_same([config]);
    assert_same([StaticEntry { ports, address: [1; 6], vid: 5 }]);
    let priority = VlanPcp::try_new(3).unwrap();
    assert_same([BridgeKind::Customer, BridgeKind::Provider].map(|kind| Received {
        kind,
        vlan,
        priority,
        drop_eligible: true,
        reserved: false,
        tagged: ports,
        untagged: PortSet::NONE,
    }));
}

#[test]
fn captures() {
    let (byte_order, resolution) = (ByteOrder::BigEndian, TimestampResolution::Nanoseconds);
    assert_same([FileHeader { byte_order, resolution, snap_len: 96, link_type: LinkType::ETHERNET, fcs_len: Some(4) }]);
    assert_text(Timestamp { seconds: 1, nanoseconds: 2 }, r#"{"seconds":1,"nanoseconds":2}"#);
    assert_same([CaptureInterface::default()]);
    assert_same([CopyMode::Exact, CopyMode::Changed { raise: 4 }]);
    let (from, to, tpid) = (VlanId::ZERO, VlanId::try_new(5).unwrap(), EtherType::VLAN_TAGGED_FRAME);
    let edits = [PacketEdit::CutToHeaders, PacketEdit::PopVlan, PacketEdit::SetVlan { from, to }];
    assert_same(edits);
    assert_same([PacketEdit::PushVlan { tpid, vlan_id: to }]);
    assert_refused::<PacketEdit>(&[r#"{"SetVlan":{"from":0,"to":4096}}"#]);
    assert_same([EditedPacket { start: 1, end: 2, original_len: 3 }]);
    let (hardware_type, protocol) = (ArpHardwareId::ETHERNET, EtherType::IPV4);
    assert_same([CookedHeader { packet_type: 4, hardware_type, address_len: 6, address: [1; 8], protocol }]);
    assert_same([Decision::Matches, Decision::Fails, Decision::Needs(7)]);
}
