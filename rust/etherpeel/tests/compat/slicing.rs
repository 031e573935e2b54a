//! `SlicedPacket` and what it holds.

use super::frames::{COOKED, REQUEST, SEC_TAG, TWO_TAGS};
use etherpeel::err::packet::SliceError;
use etherpeel::err::{Layer, LenError, linux_sll, macsec};
use etherpeel::{EtherPayloadSlice, EtherType, LenSource, LinkExtSlice, LinkSlice, NetSlice, SlicedPacket, VlanSlice};

/// The identifiers of the VLAN tags.
fn ids(packet: &SlicedPacket<'_>) -> Vec<u16> {
    packet.vlan_ids().iter().map(|id| id.value()).collect()
}

#[test]
fn tags() {
    let packet = SlicedPacket::from_ethernet(&TWO_TAGS).unwrap();
    assert_eq!(ids(&packet), [1000, 100]);
    let Some(VlanSlice::DoubleVlan(both)) = packet.vlan() else { panic!() };
    assert_eq!((both.outer.vlan_identifier().value(), both.outer.priority_code_point().value()), (1000, 6));
    assert_eq!(both.inner.vlan_identifier().value(), 100);
    let payload = EtherPayloadSlice { ether_type: EtherType::IPV4, len_source: LenSource::Slice, payload: &[0x45, 0] };
    assert_eq!(packet.ether_payload(), Some(payload));
    assert_eq!((packet.net.is_none(), packet.transport.is_none()), (true, true));
    assert!(!packet.is_ip_payload_fragmented());

    let packet = SlicedPacket::from_ether_type(EtherType::VLAN_TAGGED_FRAME, &TWO_TAGS[18..]).unwrap();
    assert!(matches!(packet.vlan(), Some(VlanSlice::SingleVlan(tag)) if tag.vlan_identifier().value() == 100));
    let packet = SlicedPacket::from_ethernet(&REQUEST).unwrap();
    assert_eq!((packet.vlan(), packet.vlan_ids().len()), (None, 0));
}

/// A SecTag between two VLAN tags: both are there, and its length bounds the inner one.
#[test]
fn tags_around_a_sec_tag() {
    let mut frame = TWO_TAGS[..14].to_vec();
    frame.extend([0, 1, 0x88, 0xE5, 0x00, 0x06, 0, 0, 0, 9, 0x81, 0x00, 0, 2, 0x08, 0x00, 0xEE]);
    let packet = SlicedPacket::from_ethernet(&frame).unwrap();
    assert_eq!(ids(&packet), [1, 2]);
    assert!(matches!(&packet.link_exts[1], LinkExtSlice::Macsec(tag) if tag.header.packet_nr() == 9));
    assert_eq!(packet.ether_payload().map(|it| it.payload.len()), Some(0));
    assert_eq!(packet.payload_ether_type(), Some(EtherType::IPV4));
}

/// The fourth tag is payload.
#[test]
fn three_tags_at_most() {
    let mut frame = TWO_TAGS[..14].to_vec();
    frame.extend([0, 1, 0x81, 0x00, 0, 2, 0x81, 0x00, 0, 3, 0x81, 0x00, 0, 4]);
    let packet = SlicedPacket::from_ethernet(&frame).unwrap();
    assert_eq!(ids(&packet), [1, 2, 3]);
    assert_eq!(packet.link_exts.len(), SlicedPacket::LINK_EXTS_CAP);
    let payload = packet.ether_payload().unwrap();
    assert_eq!((payload.ether_type, payload.payload), (EtherType::VLAN_TAGGED_FRAME, &[0, 4][..]));
    assert!(matches!(packet.vlan(), Some(VlanSlice::DoubleVlan(_))));
}

#[test]
fn arp() {
    let packet = SlicedPacket::from_ethernet(&REQUEST).unwrap();
    let Some(net @ NetSlice::Arp(arp)) = &packet.net else { panic!() };
    assert_eq!(arp.slice(), &REQUEST[14..42]);
    assert_eq!(net.arp_ref(), Some(arp));
    assert!(!net.is_ip() && !net.is_ipv4() && !net.is_ipv6());
    assert_eq!(packet.payload_ether_type(), None);
    assert_eq!(packet.ether_payload().map(|it| (it.ether_type, it.payload.len())), Some((EtherType::ARP, 46)));
    let inner = SlicedPacket::from_ether_type(EtherType::ARP, &REQUEST[14..]).unwrap();
    assert_eq!(inner.net, packet.net);
    assert!(matches!(inner.link, Some(LinkSlice::EtherPayload(it)) if it.payload == &REQUEST[14..]));
}

#[test]
fn sec_tags() {
    let packet = SlicedPacket::from_ethernet(&SEC_TAG).unwrap();
    let payload = packet.ether_payload().unwrap();
    assert_eq!(payload.len_source, LenSource::MacsecShortLength);
    assert_eq!((payload.ether_type, payload.payload), (EtherType::IPV4, &SEC_TAG[30..70]));
    assert_eq!((packet.vlan(), packet.payload_ether_type()), (None, Some(EtherType::IPV4)));

    let mut sealed = SEC_TAG;
    sealed[14] |= 0x0C;
    let packet = SlicedPacket::from_ethernet(&sealed).unwrap();
    assert_eq!((packet.ether_payload(), packet.payload_ether_type()), (None, None));
}

#[test]
fn cooked_capture() {
    let packet = SlicedPacket::from_linux_sll(&COOKED).unwrap();
    assert!(matches!(&packet.link, Some(LinkSlice::LinuxSll(link)) if link.slice() == COOKED));
    assert_eq!(packet.payload_ether_type(), Some(EtherType::IPV4));
    let mut netlink = COOKED;
    netlink[2..4].copy_from_slice(&824u16.to_be_bytes());
    let packet = SlicedPacket::from_linux_sll(&netlink).unwrap();
    assert_eq!((packet.ether_payload(), packet.payload_ether_type()), (None, None));
    let mut numbered = COOKED;
    numbered[14..16].copy_from_slice(&[0, 4]);
    let packet = SlicedPacket::from_linux_sll(&numbered).unwrap();
    assert_eq!(packet.payload_ether_type(), Some(EtherType(4)));
}

#[test]
fn refusals() {
    let len = |required_len, len, len_source, layer, layer_start_offset| {
        SliceError::Len(LenError { required_len, len, len_source, layer, layer_start_offset })
    };
    let sliced = SlicedPacket::from_ethernet;
    assert_eq!(sliced(&[]).unwrap_err(), len(14, 0, LenSource::Slice, Layer::Ethernet2Header, 0));
    assert_eq!(sliced(&TWO_TAGS[..17]).unwrap_err(), len(4, 3, LenSource::Slice, Layer::VlanHeader, 14));
    let cut = len(16 + 40, 36, LenSource::MacsecShortLength, Layer::MacsecPacket, 14);
    assert_eq!(sliced(&SEC_TAG[..50]).unwrap_err(), cut);
    assert_eq!(sliced(&REQUEST[..41]).unwrap_err(), len(28, 27, LenSource::ArpAddrLengths, Layer::Arp, 14));

    // A tag within the payload of a SecTag that ends before it does.
    let bounded = [0x00, 0x04, 0, 0, 0, 1, 0x81, 0x00, 0, 2, 8, 0];
    let error = SlicedPacket::from_ether_type(EtherType::MACSEC, &bounded).unwrap_err();
    assert_eq!(error, len(4, 2, LenSource::MacsecShortLength, Layer::VlanHeader, 8));
    let error = SlicedPacket::from_ether_type(EtherType::MACSEC, &[0, 1, 0, 0, 0, 1]).unwrap_err();
    assert_eq!(error, SliceError::Macsec(macsec::HeaderError::InvalidUnmodifiedShortLen));
    let mut packet_type = COOKED;
    packet_type[1] = 8;
    let error = SlicedPacket::from_linux_sll(&packet_type).unwrap_err();
    assert_eq!(error, SliceError::LinuxSll(linux_sll::HeaderError::UnsupportedPacketTypeField { packet_type: 8 }));
}
