//! `LaxSlicedPacket` and what it holds.

use super::frames::{COOKED, REQUEST, SEC_TAG, TWO_TAGS};
use etherpeel::err::packet::SliceError;
use etherpeel::err::{Layer, LenError, linux_sll, macsec};
use etherpeel::{
    EtherType, LaxEtherPayloadSlice, LaxLinkExtSlice, LaxMacsecPayloadSlice, LaxMacsecSlice, LaxNetSlice,
    LaxSlicedPacket, LenSource, LinkExtHeader, LinkSlice, VlanSlice,
};

#[test]
fn payload_of_a_sec_tag_that_is_cut_short() {
    let packet = LaxSlicedPacket::from_ethernet(&SEC_TAG[..50]).unwrap();
    let payload = LaxEtherPayloadSlice {
        incomplete: true,
        ether_type: EtherType::IPV4,
        len_source: LenSource::Slice,
        payload: &SEC_TAG[30..50],
    };
    assert_eq!((packet.ether_payload(), &packet.stop_err), (Some(payload), &None));
    let [LaxLinkExtSlice::Macsec(tag)] = &packet.link_exts[..] else { panic!() };
    assert_eq!(tag.next_ether_type(), Some(EtherType::IPV4));
    assert_eq!(packet.link_exts[0].header_len(), 16);
    assert!(matches!(packet.link_exts[0].to_header(), LinkExtHeader::Macsec(tag) if tag.packet_nr == 0xB2C2_8465));
}

/// The walk goes on in such a payload, to what it announces, and to its end.
#[test]
fn headers_in_it() {
    let mut frame = REQUEST[..12].to_vec();
    frame.extend([0x88, 0xE5, 0x00, 60, 0, 0, 0, 1, 0x81, 0x00, 0, 7, 0x08, 0x06]);
    frame.extend(&REQUEST[14..42]);
    let packet = LaxSlicedPacket::from_ethernet(&frame).unwrap();
    assert!(matches!(&packet.net, Some(LaxNetSlice::Arp(arp)) if arp.slice() == &REQUEST[14..42]));
    assert_eq!((packet.vlan_ids()[0].value(), packet.link_exts.len(), &packet.stop_err), (7, 2, &None));

    for (len, required_len, layer, offset) in [(24, 4, Layer::VlanHeader, 22), (40, 28, Layer::Arp, 26)] {
        let packet = LaxSlicedPacket::from_ethernet(&frame[..len]).unwrap();
        let len_source = if layer == Layer::Arp { LenSource::ArpAddrLengths } else { LenSource::Slice };
        let len = len - offset;
        let error = LenError { required_len, len, len_source, layer, layer_start_offset: offset };
        assert_eq!(packet.stop_err, Some((SliceError::Len(error), layer)));
    }
}

/// The inner SecTag names more than the outer one holds. What is read in it is bounded by the outer one.
#[test]
fn a_sec_tag_in_another_one() {
    let bytes = |short_len| [0x00, short_len, 0, 0, 0, 1, 0x88, 0xE5, 0x00, 20, 0, 0, 0, 2, 0x81, 0x00, 0, 7, 8, 0];
    let whole = bytes(14);
    let packet = LaxSlicedPacket::from_ether_type(EtherType::MACSEC, &whole);
    let incomplete = packet.link_exts.iter().map(|ext| ext.ether_payload().is_some_and(|it| it.incomplete));
    assert_eq!(incomplete.collect::<Vec<_>>(), [false, true, false]);
    assert_eq!(packet.stop_err, None);

    let bounded = bytes(12);
    let packet = LaxSlicedPacket::from_ether_type(EtherType::MACSEC, &bounded);
    let error = LenError {
        required_len: 4,
        len: 2,
        len_source: LenSource::MacsecShortLength,
        layer: Layer::VlanHeader,
        layer_start_offset: 16,
    };
    assert_eq!(packet.stop_err, Some((SliceError::Len(error), Layer::VlanHeader)));
}

#[test]
fn sealed_payloads() {
    let mut sealed = SEC_TAG;
    sealed[14] |= 0x0C;
    for (len, incomplete) in [(50, true), (86, false)] {
        let packet = LaxSlicedPacket::from_ethernet(&sealed[..len]).unwrap();
        let [LaxLinkExtSlice::Macsec(tag)] = &packet.link_exts[..] else { panic!() };
        let payload = &sealed[28..len.min(70)];
        assert_eq!(tag.payload, LaxMacsecPayloadSlice::Modified { incomplete, payload });
        assert_eq!((tag.ether_payload(), packet.ether_payload(), &packet.stop_err), (None, None, &None));
    }
}

#[test]
fn three_tags_at_most() {
    let tags = [0, 60, 0, 0, 0, 1, 0x81, 0x00, 0, 2, 0x81, 0x00, 0, 3, 0x81, 0x00, 0, 4];
    let packet = LaxSlicedPacket::from_ether_type(EtherType::MACSEC, &tags);
    let ids: Vec<u16> = packet.vlan_ids().iter().map(|id| id.value()).collect();
    assert_eq!((ids, packet.link_exts.len(), &packet.stop_err), (vec![2, 3], LaxSlicedPacket::LINK_EXTS_CAP, &None));
    assert_eq!(packet.ether_payload().map(|it| it.payload), Some(&[0, 4][..]));
    assert!(matches!(packet.vlan(), Some(VlanSlice::DoubleVlan(_))));
    // Also of SecTags that are cut short.
    let tags = [0, 60, 0, 0, 0, 1, 0x88, 0xE5].repeat(4);
    let packet = LaxSlicedPacket::from_ether_type(EtherType::MACSEC, &tags);
    assert_eq!((packet.link_exts.len(), packet.ether_payload().map(|it| it.payload.len())), (3, Some(8)));
}

#[test]
fn stops() {
    let packet = LaxSlicedPacket::from_ethernet(&TWO_TAGS).unwrap();
    assert_eq!((packet.stop_err, packet.transport), (None, None));
    let packet = LaxSlicedPacket::from_ethernet(&REQUEST).unwrap();
    assert_eq!((packet.vlan(), packet.stop_err), (None, None));
    assert!(matches!(packet.link, Some(LinkSlice::Ethernet2(_))));

    let stop = |bytes| LaxSlicedPacket::from_ether_type(EtherType::MACSEC, bytes).stop_err;
    let version = SliceError::Macsec(macsec::HeaderError::UnexpectedVersion);
    assert_eq!(stop(&[0x80, 0, 0, 0, 0, 0]), Some((version, Layer::MacsecHeader)));
    let Some((SliceError::Len(error), Layer::MacsecHeader)) = stop(&[0, 0, 0, 0, 0]) else { panic!() };
    assert_eq!((error.required_len, error.len, error.layer_start_offset), (6, 5, 0));

    assert_eq!(LaxSlicedPacket::from_ethernet(&[0; 13]).unwrap_err().required_len, 14);
    let error = LaxSlicedPacket::from_linux_sll(&COOKED[..15]).unwrap_err();
    assert!(matches!(error, linux_sll::HeaderSliceError::Len(error) if error.required_len == 16));
    let packet = LaxSlicedPacket::from_linux_sll(&COOKED).unwrap();
    assert_eq!(packet.ether_payload().map(|it| it.ether_type), Some(EtherType::IPV4));
}

#[test]
fn of_a_slice() {
    let tag = LaxMacsecSlice::from_slice(&SEC_TAG[14..]).unwrap();
    assert_eq!(
        tag.ether_payload().map(|it| (it.incomplete, it.len_source)),
        Some((false, LenSource::MacsecShortLength))
    );
    let tag = LaxMacsecSlice::from_slice(&SEC_TAG[14..30]).unwrap();
    assert_eq!(tag.ether_payload().map(|it| (it.incomplete, it.payload.len())), Some((true, 0)));
    let error = LaxMacsecSlice::from_slice(&SEC_TAG[14..29]).unwrap_err();
    assert!(matches!(error, macsec::HeaderSliceError::Len(error) if error.required_len == 16));
    // The ether type is not within the short length, nor is it there.
    let error = LaxMacsecSlice::from_slice(&[0x00, 0x02, 0, 0, 0, 1, 0x81]).unwrap_err();
    assert!(matches!(error, macsec::HeaderSliceError::Len(error) if error.layer == Layer::MacsecHeader));
}
