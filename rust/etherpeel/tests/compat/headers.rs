//! `PacketHeaders` and `LaxPacketHeaders`.

use super::frames::{COOKED, REQUEST, SEC_TAG, TWO_TAGS};
use etherpeel::err::{Layer, packet::SliceError};
use etherpeel::{
    ArpPacket, EtherType, Ethernet2Header, LaxPacketHeaders, LaxPayloadSlice, LinkExtHeader, LinkHeader,
    LinuxSllHeader, LinuxSllProtocolType, MacsecHeader, NetHeaders, PacketHeaders, PayloadSlice, VlanHeader,
};

#[test]
fn tags() {
    let packet = PacketHeaders::from_ethernet_slice(&TWO_TAGS).unwrap();
    assert_eq!(packet.link, Some(LinkHeader::Ethernet2(Ethernet2Header::from_slice(&TWO_TAGS).unwrap().0)));
    let Some(VlanHeader::Double(both)) = packet.vlan() else { panic!() };
    assert_eq!((both.outer.vlan_id.value(), both.inner.vlan_id.value()), (1000, 100));
    assert_eq!(packet.vlan_ids().as_slice(), [both.outer.vlan_id, both.inner.vlan_id]);
    assert!(matches!(&packet.payload, PayloadSlice::Ether(it) if it.ether_type == EtherType::IPV4));
    assert_eq!((packet.payload.slice(), packet.net, packet.transport), (&[0x45, 0][..], None, None));

    let packet = PacketHeaders::from_ether_type(EtherType::VLAN_TAGGED_FRAME, &TWO_TAGS[18..]).unwrap();
    assert!(matches!(packet.vlan(), Some(VlanHeader::Single(tag)) if tag.vlan_id.value() == 100));
    assert_eq!(packet.link, None);
    let lax = LaxPacketHeaders::from_ether_type(EtherType::VLAN_TAGGED_FRAME, &TWO_TAGS[18..]);
    assert_eq!((lax.link, lax.vlan(), lax.vlan_ids()), (None, packet.vlan(), packet.vlan_ids()));
    assert_eq!((lax.payload.slice(), lax.stop_err), (&[0x45, 0][..], None));
}

#[test]
fn arp() {
    let wanted = NetHeaders::from(ArpPacket::from_slice(&REQUEST[14..]).unwrap());
    let packet = PacketHeaders::from_ethernet_slice(&REQUEST).unwrap();
    let lax = LaxPacketHeaders::from_ethernet(&REQUEST).unwrap();
    assert_eq!((packet.net.as_ref(), lax.net.as_ref()), (Some(&wanted), Some(&wanted)));
    assert_eq!((&packet.payload, &lax.payload), (&PayloadSlice::Empty, &LaxPayloadSlice::Empty));
    assert_eq!((PayloadSlice::Empty.slice(), LaxPayloadSlice::Empty.slice()), (&[][..], &[][..]));
    assert_eq!((wanted.header_len(), wanted.arp_ref().map(ArpPacket::packet_len)), (28, Some(28)));
    assert!(!wanted.is_ip() && !wanted.is_ipv4() && !wanted.is_ipv6());
    assert_eq!(packet.vlan(), None);
}

#[test]
fn sec_tags() {
    let tag = LinkExtHeader::Macsec(MacsecHeader::from_slice(&SEC_TAG[14..]).unwrap());
    let packet = PacketHeaders::from_ethernet_slice(&SEC_TAG).unwrap();
    assert_eq!((packet.link_exts.as_slice(), packet.payload.slice()), (&[tag][..], &SEC_TAG[30..70]));
    let lax = LaxPacketHeaders::from_ethernet(&SEC_TAG[..50]).unwrap();
    assert!(matches!(&lax.payload, LaxPayloadSlice::Ether(it) if it.incomplete && it.payload == &SEC_TAG[30..50]));

    let mut sealed = SEC_TAG;
    sealed[14] |= 0x0C;
    let packet = PacketHeaders::from_ethernet_slice(&sealed).unwrap();
    assert_eq!(packet.payload, PayloadSlice::MacsecMod(&sealed[28..70]));
    assert_eq!((packet.payload.slice(), packet.vlan_ids().len()), (&sealed[28..70], 0));
    let lax = LaxPacketHeaders::from_ethernet(&sealed[..50]).unwrap();
    assert_eq!(lax.payload, LaxPayloadSlice::MacsecModified { payload: &sealed[28..50], incomplete: true });
    assert_eq!(lax.payload.slice(), &sealed[28..50]);
}

#[test]
fn cooked_capture() {
    let packet = LaxPacketHeaders::from_linux_sll(&COOKED).unwrap();
    assert_eq!(packet.link, Some(LinkHeader::LinuxSll(LinuxSllHeader::from_slice(&COOKED).unwrap().0)));
    assert!(matches!(&packet.payload, LaxPayloadSlice::Ether(it) if it.ether_type == EtherType::IPV4));
    let mut netlink = COOKED;
    netlink[2..4].copy_from_slice(&824u16.to_be_bytes());
    let packet = LaxPacketHeaders::from_linux_sll(&netlink).unwrap();
    let LaxPayloadSlice::LinuxSll(payload) = &packet.payload else { panic!() };
    assert_eq!(payload.protocol_type, LinuxSllProtocolType::NetlinkProtocolType(0x0800));
    assert_eq!(packet.payload.slice(), [0x45]);
    assert!(LaxPacketHeaders::from_linux_sll(&COOKED[..15]).is_err());
}

#[test]
fn refusals() {
    assert!(matches!(PacketHeaders::from_ethernet_slice(&TWO_TAGS[..20]), Err(SliceError::Len(it)) if it.len == 2));
    let lax = LaxPacketHeaders::from_ethernet(&TWO_TAGS[..20]).unwrap();
    assert!(matches!(lax.stop_err, Some((SliceError::Len(it), Layer::VlanHeader)) if it.layer_start_offset == 18));
    assert!(matches!(lax.payload, LaxPayloadSlice::Ether(it) if it.ether_type == EtherType::VLAN_TAGGED_FRAME));
    assert!(LaxPacketHeaders::from_ethernet(&TWO_TAGS[..13]).is_err());
}
