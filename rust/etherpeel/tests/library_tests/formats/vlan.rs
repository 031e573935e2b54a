//! VLAN tags, one or two.
use super::{equal, ipv4};
use crate::test_frames::{TAG, TAGGED_ARP_REQUEST, TWICE_TAGGED_ARP_REQUEST, TWO_TAGS};
use etherpeel::err::Layer;
use etherpeel::{
    DoubleVlanHeader, DoubleVlanSlice, EtherType, SingleVlanHeader, SingleVlanHeaderSlice,
    SingleVlanSlice, VlanHeader, VlanId, VlanPcp, VlanSlice,
};
use crate::kit::Fail;

/// A tag with priority 5, drop eligible, VLAN 291.
fn tag(ether_type: EtherType) -> Result<SingleVlanHeader, Fail> {
    Ok(SingleVlanHeader {
        pcp: VlanPcp::try_new(5)?,
        drop_eligible_indicator: true,
        vlan_id: VlanId::try_new(0x123)?,
        ether_type,
    })
}

/// A frame, where a tag with its payload begins, and the next ether type.
static TAGS: [(&str, &[u8], usize, EtherType); 2] = [
    ("a tag", &TAG, 0, EtherType::IPV4),
    ("a captured tag", &TAGGED_ARP_REQUEST, 14, EtherType::ARP),
];

#[test]
fn a_tag_is_read_and_written_alike() -> Result<(), Fail> {
    let rt = crate::kit::HostRuntime;
    for &(name, frame, start, ether_type) in &TAGS {
        let bytes = frame.get(start..).unwrap_or(&[]);
        let header = tag(ether_type)?;
        let written = header.to_bytes();
        let rest = bytes.get(4..).unwrap_or(&[]);
        equal!(rt, name;
            SingleVlanHeader::from_slice(bytes) => Ok((header, rest)),
            SingleVlanHeader::read_from_slice(bytes) => Ok((header, rest)),
            SingleVlanHeader::from_bytes(written) => header,
            Some(written.as_slice()) => bytes.get(..4),
        );
    }
    Ok(())
}

#[test]
fn a_tag_with_another_identifier_keeps_its_priority() -> Result<(), Fail> {
    let rt = crate::kit::HostRuntime;
    let mut changed = SingleVlanHeader::from_bytes([0xB1, 0x23, 0x08, 0x00]);
    changed.vlan_id = VlanId::try_new(100)?;
    equal!(rt, "the example, lengths and the default";
        changed.to_bytes() => [0xB0, 0x64, 0x08, 0x00],
        changed.header_len() => 4,
        SingleVlanHeader::LEN => 4,
        SingleVlanHeader::SERIALIZED_SIZE => 4,
        SingleVlanHeader::default().to_bytes() => [0; 4],
    );
    Ok(())
}

#[test]
fn a_cut_tag_names_the_missing_bytes() {
    let rt = crate::kit::HostRuntime;
    for len in 0..4 {
        let bytes = &TAG[..len];
        equal!(rt, "a tag";
            SingleVlanHeader::from_slice(bytes) => Err(cut_short!(4, len, Layer::VlanHeader)),
            SingleVlanHeader::read_from_slice(bytes) => Err(cut_short!(4, len, Layer::VlanHeader)),
        );
        equal!(rt, "a view, and one with the payload";
            SingleVlanHeaderSlice::from_slice(bytes).err()
                => Some(cut_short!(4, len, Layer::VlanHeader)),
            SingleVlanSlice::from_slice(bytes).err() => Some(cut_short!(4, len, Layer::VlanHeader)),
        );
    }
}

#[test]
fn a_tag_view_shows_priority_identifier_and_type() -> Result<(), Fail> {
    let rt = crate::kit::HostRuntime;
    let view = SingleVlanHeaderSlice::from_slice(&TAG)?;
    equal!(rt, "a header";
        view.priority_code_point().value() => 5,
        view.drop_eligible_indicator() => true,
        view.vlan_identifier().value() => 0x123,
        view.ether_type() => EtherType::IPV4,
        view.slice() => &TAG[..4],
        view.to_header() => tag(EtherType::IPV4)?,
    );
    Ok(())
}

#[test]
fn a_tag_is_followed_by_its_payload() -> Result<(), Fail> {
    let rt = crate::kit::HostRuntime;
    for &(name, frame, start, ether_type) in &TAGS {
        let bytes = frame.get(start..).unwrap_or(&[]);
        let view = SingleVlanSlice::from_slice(bytes)?;
        let rest = bytes.get(4..).unwrap_or(&[]);
        equal!(rt, name;
            view.priority_code_point().value() => 5,
            view.drop_eligible_indicator() => true,
            view.vlan_identifier().value() => 291,
            view.ether_type() => ether_type,
            view.header_len() => 4,
            view.to_header() => tag(ether_type)?,
            view.slice() => bytes,
            Some(view.header_slice()) => bytes.get(..4),
            view.payload_slice() => rest,
            view.payload().payload => rest,
            view.payload().ether_type => ether_type,
        );
    }
    Ok(())
}

/// A view of two tags, the inner one right after the outer one.
fn two_tags(bytes: &[u8]) -> Result<DoubleVlanSlice<'_>, Fail> {
    let outer = SingleVlanSlice::from_slice(bytes)?;
    let inner = SingleVlanSlice::from_slice(outer.payload_slice())?;
    Ok(DoubleVlanSlice { outer, inner })
}

#[test]
fn two_tags_have_the_payload_of_the_inner_one() -> Result<(), Fail> {
    let rt = crate::kit::HostRuntime;
    let header = DoubleVlanHeader {
        outer: SingleVlanHeader::from_bytes([0x00, 0x01, 0x81, 0x00]),
        inner: SingleVlanHeader::from_bytes([0x00, 0x02, 0x08, 0x00]),
    };
    let tags = two_tags(&TWO_TAGS)?;
    equal!(rt, "two tags";
        tags.to_header() => header,
        tags.payload_slice() => [0x45].as_slice(),
        tags.payload() => ipv4(&[0x45]),
    );
    let captured = two_tags(&TWICE_TAGGED_ARP_REQUEST[14..])?;
    equal!(rt, "captured ones";
        captured.outer.vlan_identifier().value() => 10,
        captured.outer.ether_type() => EtherType::VLAN_TAGGED_FRAME,
        captured.inner.vlan_identifier().value() => 100,
        captured.inner.ether_type() => EtherType::ARP,
    );
    Ok(())
}

#[test]
fn the_default_of_two_tags_announces_the_inner_one() -> Result<(), Fail> {
    let rt = crate::kit::HostRuntime;
    let mut made = DoubleVlanHeader::default();
    made.outer.vlan_id = VlanId::try_new(10)?;
    made.inner.vlan_id = VlanId::try_new(100)?;
    made.inner.ether_type = EtherType::IPV4;
    equal!(rt, "the default announces the inner tag";
        made.outer.to_bytes() => [0x00, 0x0A, 0x81, 0x00],
        made.inner.to_bytes() => [0x00, 0x64, 0x08, 0x00],
    );
    Ok(())
}

#[test]
fn either_number_of_tags_has_headers_and_a_payload() -> Result<(), Fail> {
    let rt = crate::kit::HostRuntime;
    let outer = SingleVlanHeader::from_bytes([0x00, 0x01, 0x81, 0x00]);
    let inner = SingleVlanHeader::from_bytes([0x00, 0x02, 0x08, 0x00]);
    let single = VlanSlice::SingleVlan(SingleVlanSlice::from_slice(&TWO_TAGS)?);
    let double = VlanSlice::DoubleVlan(two_tags(&TWO_TAGS)?);
    let headers = [
        VlanHeader::Single(outer),
        VlanHeader::Double(DoubleVlanHeader { outer, inner }),
    ];
    equal!(rt, "one tag, and two, with the types that announce a tag";
        [single.to_header(), double.to_header()] => headers,
        [headers[0].next_header(), headers[1].next_header()]
            => [EtherType(0x8100), EtherType::IPV4],
        single.payload().ether_type => EtherType(0x8100),
        single.payload().payload => &TWO_TAGS[4..],
        double.payload() => ipv4(&[0x45]),
        VlanHeader::VLAN_ETHER_TYPES => [EtherType(0x8100), EtherType(0x88A8), EtherType(0x9100)],
    );
    Ok(())
}

#[test]
fn debug_shows_tags() -> Result<(), Fail> {
    let rt = crate::kit::HostRuntime;
    let header = SingleVlanHeaderSlice::from_slice(&TAG)?;
    let tag = tag(EtherType::IPV4)?;
    let single = SingleVlanSlice::from_slice(&TAG)?;
    let double = two_tags(&TWO_TAGS)?;
    let either = VlanSlice::SingleVlan(SingleVlanSlice::from_slice(&TAG)?);
    let value = VlanHeader::Single(single.to_header());
    let shown = format!("{:?}", (tag, header, single, either, value));
    equal!(rt, "one tag";
        shown.as_str()
            => "(SingleVlanHeader { pcp: VlanPcp(5), drop_eligible_indicator: true, vlan_id: VlanId(291), ether_type: 0x0800 (Internet Protocol version 4 (IPv4)) }, \
SingleVlanHeaderSlice { slice: [177, 35, 8, 0] }, \
SingleVlanSlice { header: SingleVlanHeader { pcp: VlanPcp(5), drop_eligible_indicator: true, vlan_id: VlanId(291), ether_type: 0x0800 (Internet Protocol version 4 (IPv4)) }, payload: EtherPayloadSlice { ether_type: 0x0800 (Internet Protocol version 4 (IPv4)), len_source: Slice, payload: [69] } }, \
SingleVlan(SingleVlanSlice { header: SingleVlanHeader { pcp: VlanPcp(5), drop_eligible_indicator: true, vlan_id: VlanId(291), ether_type: 0x0800 (Internet Protocol version 4 (IPv4)) }, payload: EtherPayloadSlice { ether_type: 0x0800 (Internet Protocol version 4 (IPv4)), len_source: Slice, payload: [69] } }), \
Single(SingleVlanHeader { pcp: VlanPcp(5), drop_eligible_indicator: true, vlan_id: VlanId(291), ether_type: 0x0800 (Internet Protocol version 4 (IPv4)) }))",
    );
    let shown = format!("{:?}", (double, DoubleVlanHeader::default()));
    equal!(rt, "two tags";
        shown.as_str()
            => "(DoubleVlanSlice { outer: SingleVlanHeader { pcp: VlanPcp(0), drop_eligible_indicator: false, vlan_id: VlanId(1), ether_type: 0x8100 (Customer VLAN Tag (C-TAG) as defined in IEEE Std 802.1Q) }, inner: SingleVlanHeader { pcp: VlanPcp(0), drop_eligible_indicator: false, vlan_id: VlanId(2), ether_type: 0x0800 (Internet Protocol version 4 (IPv4)) }, payload: EtherPayloadSlice { ether_type: 0x0800 (Internet Protocol version 4 (IPv4)), len_source: Slice, payload: [69] } }, \
DoubleVlanHeader { outer: SingleVlanHeader { pcp: VlanPcp(0), drop_eligible_indicator: false, vlan_id: VlanId(0), ether_type: 0x8100 (Customer VLAN Tag (C-TAG) as defined in IEEE Std 802.1Q) }, inner: SingleVlanHeader { pcp: VlanPcp(0), drop_eligible_indicator: false, vlan_id: VlanId(0), ether_type: 0x0000 } })",
    );
    Ok(())
}
