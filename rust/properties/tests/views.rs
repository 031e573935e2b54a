//! The views of headers, and of headers with their payloads, at the root of the crate.

use etherpeel::{
    ArpPacketSlice, DoubleVlanSlice, EtherPayloadSlice, Ethernet2HeaderSlice, Ethernet2Slice, LenSource, LinkExtHeader,
    LinkExtSlice, LinkHeader, LinkSlice, LinuxSllHeaderSlice, LinuxSllPayloadSlice, LinuxSllProtocolType,
    LinuxSllSlice, MacsecHeaderSlice, MacsecPayloadSlice, MacsecSlice, SingleVlanHeaderSlice, SingleVlanSlice,
    VlanHeader, VlanSlice,
};
use properties::arp::Arp;
use properties::cases::{Checked, agreed, check};
use properties::cooked::Cooked;
use properties::frames::{arp_bytes, cooked_bytes, hardware_type, protocol, sec_tag_bytes, twins};
use properties::observed;
use properties::sec_tag::SecTag;
use properties::wire::{Ethernet, Header, Kind, Source, Tag};
use proptest::collection::vec;
use proptest::prelude::{Strategy, any, prop_assert, prop_assert_eq};

fn bytes(most: usize) -> impl Strategy<Value = Vec<u8>> {
    vec(any::<u8>(), 0..=most)
}

/// The payload that an ether type announces, up to the end of a slice.
fn announced(ether_type: u16, payload: &[u8]) -> EtherPayloadSlice<'_> {
    EtherPayloadSlice { ether_type: ether_type.into(), len_source: LenSource::Slice, payload }
}

/// A view of an Ethernet header is made of fourteen bytes or more, and shows each field. Fewer are refused with all
/// fields of the error. Views are equal if their bytes are.
///
/// Holds: `Ethernet2HeaderSlice::from_slice`, `Ethernet2HeaderSlice::slice`, `Ethernet2HeaderSlice::destination`,
/// `Ethernet2HeaderSlice::source`, `Ethernet2HeaderSlice::ether_type`, `Ethernet2HeaderSlice::to_header`
#[test]
fn ethernet_header_views_show_their_bytes() {
    check(twins(bytes(20)), |(bytes, others)| {
        let wanted = Header::read(Kind::Ethernet, &bytes, Source::Frame);
        let Some((view, header)) = agreed(Ethernet2HeaderSlice::from_slice(&bytes), wanted, observed::short)? else {
            return Ok(());
        };
        prop_assert_eq!(view.slice(), &bytes[..Ethernet::LEN]);
        prop_assert_eq!(&Header::Ethernet(observed::ethernet(&view.to_header())), &header);
        prop_assert_eq!(view.destination().to_vec(), bytes[..6].to_vec());
        prop_assert_eq!(view.source().to_vec(), bytes[6..12].to_vec());
        prop_assert_eq!(view.ether_type(), view.to_header().ether_type);
        let longer = [&bytes[..Ethernet::LEN], &others].concat(); // what follows the header is ignored
        prop_assert_eq!(Ethernet2HeaderSlice::from_slice(&longer), Ok(view.clone()));
        if let Ok(other) = Ethernet2HeaderSlice::from_slice(&others) {
            prop_assert_eq!(other == view, others[..Ethernet::LEN] == bytes[..Ethernet::LEN]);
        }
        Ok(())
    });
}

/// A view of an Ethernet frame shows the header, the payload, and the frame check sequence if it has one, which is not
/// part of the payload.
///
/// Holds: `Ethernet2Slice::from_slice_without_fcs`, `Ethernet2Slice::from_slice_with_crc32_fcs`,
/// `Ethernet2Slice::slice`, `Ethernet2Slice::destination`, `Ethernet2Slice::source`, `Ethernet2Slice::ether_type`,
/// `Ethernet2Slice::fcs`, `Ethernet2Slice::header_slice`, `Ethernet2Slice::to_header`, `Ethernet2Slice::payload`,
/// `Ethernet2Slice::payload_slice`, `Ethernet2Slice::header_len`
#[test]
fn ethernet_views_show_their_bytes() {
    check((bytes(30), any::<bool>()), |(bytes, has_fcs)| {
        let (kind, view) = match has_fcs {
            true => (Kind::EthernetFcs, Ethernet2Slice::from_slice_with_crc32_fcs(&bytes)),
            false => (Kind::Ethernet, Ethernet2Slice::from_slice_without_fcs(&bytes)),
        };
        let Some((view, header)) = agreed(view, Header::read(kind, &bytes, Source::Frame), observed::short)? else {
            return Ok(());
        };
        let (Header::Ethernet(header) | Header::EthernetFcs(header)) = header else { panic!("{header:?}") };
        let end = bytes.len() - if has_fcs { Ethernet::FCS_LEN } else { 0 };
        prop_assert_eq!(observed::ethernet_view(&view), header.clone());
        prop_assert_eq!(&observed::ethernet(&view.to_header()), &header);
        prop_assert_eq!((view.slice(), view.header_slice()), (bytes.as_slice(), &bytes[..Ethernet::LEN]));
        prop_assert_eq!(view.header_len(), Ethernet::LEN);
        prop_assert_eq!(view.payload_slice(), &bytes[Ethernet::LEN..end]);
        prop_assert_eq!(view.payload(), announced(header.ether_type, &bytes[Ethernet::LEN..end]));
        prop_assert_eq!(view.fcs().map(|fcs| fcs.to_vec()), has_fcs.then(|| bytes[end..].to_vec()));
        Ok(())
    });
}

/// Views of Ethernet frames are equal if their bytes are, and either both or none has a frame check sequence.
///
/// Holds: `Ethernet2Slice::from_slice_without_fcs`, `Ethernet2Slice::from_slice_with_crc32_fcs`
#[test]
fn equal_ethernet_views_have_equal_bytes() {
    check(twins(vec(any::<u8>(), 18..24)), |(bytes, others)| {
        let without = Ethernet2Slice::from_slice_without_fcs;
        let with = Ethernet2Slice::from_slice_with_crc32_fcs;
        prop_assert_eq!(without(&bytes) == without(&others), bytes == others);
        prop_assert_eq!(with(&bytes) == with(&others), bytes == others);
        prop_assert!(with(&bytes) != without(&bytes));
        Ok(())
    });
}

/// A view of a VLAN tag is made of four bytes or more, and shows each field.
///
/// Holds: `SingleVlanHeaderSlice::from_slice`, `SingleVlanHeaderSlice::slice`,
/// `SingleVlanHeaderSlice::priority_code_point`, `SingleVlanHeaderSlice::drop_eligible_indicator`,
/// `SingleVlanHeaderSlice::vlan_identifier`, `SingleVlanHeaderSlice::ether_type`, `SingleVlanHeaderSlice::to_header`
#[test]
fn tag_header_views_show_their_bytes() {
    check(twins(bytes(8)), |(bytes, others)| {
        let wanted = Header::read(Kind::Vlan, &bytes, Source::Frame);
        let Some((view, header)) = agreed(SingleVlanHeaderSlice::from_slice(&bytes), wanted, observed::short)? else {
            return Ok(());
        };
        let shown = Tag {
            pcp: view.priority_code_point().value(),
            dei: view.drop_eligible_indicator(),
            vid: view.vlan_identifier().value(),
            ether_type: view.ether_type().0,
        };
        prop_assert_eq!(&Header::Vlan(shown), &header);
        prop_assert_eq!(&Header::Vlan(observed::tag(&view.to_header())), &header);
        prop_assert_eq!(view.slice(), &bytes[..Tag::LEN]);
        if let Ok(other) = SingleVlanHeaderSlice::from_slice(&others) {
            prop_assert_eq!(other == view, others[..Tag::LEN] == bytes[..Tag::LEN]);
        }
        Ok(())
    });
}

/// A view of a VLAN tag with its payload shows each field, and the payload that the ether type in the tag announces.
///
/// Holds: `SingleVlanSlice::from_slice`, `SingleVlanSlice::slice`, `SingleVlanSlice::header_slice`,
/// `SingleVlanSlice::priority_code_point`, `SingleVlanSlice::drop_eligible_indicator`,
/// `SingleVlanSlice::vlan_identifier`, `SingleVlanSlice::ether_type`, `SingleVlanSlice::to_header`,
/// `SingleVlanSlice::payload`, `SingleVlanSlice::payload_slice`, `SingleVlanSlice::header_len`
#[test]
fn tag_views_show_their_bytes() {
    check(twins(bytes(12)), |(bytes, others)| {
        let wanted = Header::read(Kind::Vlan, &bytes, Source::Frame);
        let Some((view, header)) = agreed(SingleVlanSlice::from_slice(&bytes), wanted, observed::short)? else {
            return Ok(());
        };
        prop_assert_eq!(&Header::Vlan(observed::tag_view(&view)), &header);
        prop_assert_eq!(&Header::Vlan(observed::tag(&view.to_header())), &header);
        let payload = &bytes[Tag::LEN..];
        prop_assert_eq!((view.slice(), view.header_slice()), (bytes.as_slice(), &bytes[..Tag::LEN]));
        prop_assert_eq!((view.header_len(), view.payload_slice()), (Tag::LEN, payload));
        prop_assert_eq!(view.payload(), announced(view.ether_type().0, payload));
        if let Ok(other) = SingleVlanSlice::from_slice(&others) {
            prop_assert_eq!(other == view, others == bytes);
        }
        Ok(())
    });
}

/// A view of two tags has the values of both, and the payload of the inner one. A view of one tag or two has the
/// values and the payload of that view.
///
/// Holds: `DoubleVlanSlice::to_header`, `DoubleVlanSlice::payload`, `DoubleVlanSlice::payload_slice`,
/// `VlanSlice::to_header`, `VlanSlice::payload`
#[test]
fn views_of_two_tags_show_both() {
    check((vec(any::<u8>(), 8..16), vec(any::<u8>(), 4..16)), |(bytes, others)| {
        let (Ok(outer), Ok(inner)) = (SingleVlanSlice::from_slice(&bytes), SingleVlanSlice::from_slice(&others)) else {
            panic!("four bytes are a tag");
        };
        let payload = announced(Tag::read(&others).ether_type, &others[Tag::LEN..]);
        let double = DoubleVlanSlice { outer: outer.clone(), inner };
        prop_assert_eq!(observed::tag(&double.to_header().outer), Tag::read(&bytes));
        prop_assert_eq!(observed::tag(&double.to_header().inner), Tag::read(&others));
        prop_assert_eq!((double.payload(), double.payload_slice()), (payload, payload.payload));

        let (single, both) = (VlanSlice::SingleVlan(outer.clone()), VlanSlice::DoubleVlan(double.clone()));
        prop_assert_eq!(single.to_header(), VlanHeader::Single(outer.to_header()));
        prop_assert_eq!(both.to_header(), VlanHeader::Double(double.to_header()));
        prop_assert_eq!(single.payload(), announced(Tag::read(&bytes).ether_type, &bytes[Tag::LEN..]));
        prop_assert_eq!(both.payload(), payload);
        Ok(())
    });
}

/// A view of a SecTag is made exactly of bytes that begin with one, whatever payload follows, and shows each field.
///
/// Holds: `MacsecHeaderSlice::from_slice`, `MacsecHeaderSlice::slice`, `MacsecHeaderSlice::tci_an_raw`,
/// `MacsecHeaderSlice::endstation_id`, `MacsecHeaderSlice::tci_scb`, `MacsecHeaderSlice::encrypted`,
/// `MacsecHeaderSlice::userdata_changed`, `MacsecHeaderSlice::is_unmodified`, `MacsecHeaderSlice::ptype`,
/// `MacsecHeaderSlice::an`, `MacsecHeaderSlice::short_len`, `MacsecHeaderSlice::packet_nr`,
/// `MacsecHeaderSlice::sci_present`, `MacsecHeaderSlice::sci`, `MacsecHeaderSlice::next_ether_type`,
/// `MacsecHeaderSlice::header_len`, `MacsecHeaderSlice::expected_payload_len`, `MacsecHeaderSlice::to_header`
#[test]
fn sec_tag_header_views_show_their_bytes() {
    check(sec_tag_bytes(), |bytes| {
        let wanted = SecTag::read(&bytes, Source::Frame);
        let found = MacsecHeaderSlice::from_slice(&bytes);
        let Some((view, tag)) = agreed(found, wanted, observed::sec_tag_breach)? else { return Ok(()) };
        prop_assert_eq!(&observed::sec_tag_view(&view), &tag);
        prop_assert_eq!(&observed::sec_tag(&view.to_header()), &tag);
        prop_assert_eq!(view.slice(), &bytes[..tag.tag_len()]);
        prop_assert_eq!((view.tci_an_raw(), view.header_len()), (bytes[0], tag.tag_len()));
        prop_assert_eq!((view.encrypted(), view.userdata_changed()), (tag.encrypted, tag.changed));
        prop_assert_eq!(view.is_unmodified(), !tag.encrypted && !tag.changed);
        prop_assert_eq!(view.sci_present(), tag.sci.is_some());
        prop_assert_eq!(view.next_ether_type().map(u16::from), tag.ether_type);
        prop_assert_eq!(view.expected_payload_len(), tag.named_payload());
        Ok(())
    });
}

/// The payload of a SecTag ends where the short length says, or with the slice; it has a type exactly if it is neither
/// encrypted nor changed. A slice that lacks bytes of the payload is refused, too.
///
/// Holds: `MacsecSlice::from_slice`, `MacsecSlice::ether_payload`, `MacsecSlice::next_ether_type`
#[test]
fn sec_tag_views_show_their_payload() {
    check(sec_tag_bytes(), |bytes| {
        let wanted = SecTag::read_with_payload(&bytes, Source::Frame);
        let Some((view, tag)) = agreed(MacsecSlice::from_slice(&bytes), wanted, observed::sec_tag_breach)? else {
            return Ok(());
        };
        let (end, len_source) = match tag.named_payload() {
            Some(len) => (tag.tag_len() + len, LenSource::MacsecShortLength),
            None => (bytes.len(), LenSource::Slice),
        };
        let payload = &bytes[tag.tag_len()..end];
        let typed = tag.ether_type.map(|number| EtherPayloadSlice { len_source, ..announced(number, payload) });
        prop_assert_eq!(view.header.slice(), &bytes[..tag.tag_len()]);
        let wanted = typed.map_or(MacsecPayloadSlice::Modified(payload), MacsecPayloadSlice::Unmodified);
        prop_assert_eq!(&view.payload, &wanted);
        prop_assert_eq!(view.ether_payload(), typed);
        prop_assert_eq!(view.next_ether_type().map(u16::from), tag.ether_type);

        let extension = LinkExtSlice::Macsec(view.clone());
        prop_assert_eq!((extension.header_len(), extension.ether_payload()), (tag.tag_len(), typed));
        let LinkExtHeader::Macsec(header) = extension.to_header() else { panic!("{extension:?}") };
        prop_assert_eq!(observed::sec_tag(&header), tag);
        Ok(())
    });
}

/// Views of SecTags are equal if the bytes of the tags are, and those of their payloads.
///
/// Holds: `MacsecHeaderSlice::from_slice`, `MacsecSlice::from_slice`
#[test]
fn equal_sec_tag_views_have_equal_bytes() {
    check(twins(sec_tag_bytes()), |(bytes, others)| {
        if let (Ok(view), Ok(other)) = (MacsecHeaderSlice::from_slice(&bytes), MacsecHeaderSlice::from_slice(&others)) {
            prop_assert_eq!(view == other, view.slice() == other.slice());
        }
        if let (Ok(view), Ok(other)) = (MacsecSlice::from_slice(&bytes), MacsecSlice::from_slice(&others)) {
            let end = |tag: &MacsecSlice<'_>, whole: usize| {
                let payload = tag.header.expected_payload_len();
                payload.map_or(whole, |len| tag.header.header_len() + len)
            };
            let (one, two) = (&bytes[..end(&view, bytes.len())], &others[..end(&other, others.len())]);
            prop_assert_eq!(view == other, one == two);
            prop_assert_eq!(LinkExtSlice::Macsec(view) == LinkExtSlice::Macsec(other), one == two);
        }
        Ok(())
    });
}

/// A view of a VLAN tag or SecTag has the length, the value and the payload of that tag.
///
/// Holds: `LinkExtSlice::header_len`, `LinkExtSlice::to_header`, `LinkExtSlice::ether_payload`
#[test]
fn extensions_are_their_tags() {
    check((twins(vec(any::<u8>(), 4..12)), sec_tag_bytes()), |((bytes, twin), others)| {
        let tag = SingleVlanSlice::from_slice(&bytes).expect("four bytes are a tag");
        let extension = LinkExtSlice::Vlan(tag.clone());
        prop_assert_eq!(extension.header_len(), Tag::LEN);
        prop_assert_eq!(extension.to_header(), LinkExtHeader::Vlan(tag.to_header()));
        let payload = announced(Tag::read(&bytes).ether_type, &bytes[Tag::LEN..]);
        prop_assert_eq!(extension.ether_payload(), Some(payload));
        let other = SingleVlanSlice::from_slice(&twin).expect("four bytes are a tag");
        prop_assert_eq!(extension == LinkExtSlice::Vlan(other), bytes == twin);
        if let Ok(secured) = MacsecSlice::from_slice(&others) {
            prop_assert!(extension != LinkExtSlice::Macsec(secured));
        }
        Ok(())
    });
}

/// The fields of a view of a header of cooked capture.
fn cooked_fields(view: &LinuxSllHeaderSlice<'_>) -> Cooked {
    Cooked {
        packet_type: view.packet_type_number(),
        hardware_type: view.arp_hardware_type().0,
        address_len: view.sender_address_valid_length(),
        address: view.sender_address_full().to_vec(),
        protocol: view.protocol_number(),
    }
}

/// A view of a header of cooked capture is made exactly of sixteen bytes or more with a packet type and a hardware type
/// that are supported, and shows each field. The protocol is read by the hardware type, and the valid part of the
/// address has at most eight bytes.
///
/// Holds: `LinuxSllHeaderSlice::from_slice`, `LinuxSllHeaderSlice::slice`, `LinuxSllHeaderSlice::packet_type`,
/// `LinuxSllHeaderSlice::packet_type_number`, `LinuxSllHeaderSlice::arp_hardware_type`,
/// `LinuxSllHeaderSlice::sender_address_valid_length`, `LinuxSllHeaderSlice::sender_address_full`,
/// `LinuxSllHeaderSlice::sender_address`, `LinuxSllHeaderSlice::protocol_type`,
/// `LinuxSllHeaderSlice::protocol_number`, `LinuxSllHeaderSlice::to_header`
#[test]
fn cooked_header_views_show_their_bytes() {
    check(twins(cooked_bytes()), |(bytes, others)| {
        let wanted = Cooked::read(&bytes, Source::Frame);
        let found = LinuxSllHeaderSlice::from_slice(&bytes);
        let Some((view, header)) = agreed(found, wanted, observed::cooked_breach)? else { return Ok(()) };
        prop_assert_eq!(&cooked_fields(&view), &header);
        prop_assert_eq!(&observed::cooked(&view.to_header()), &header);
        prop_assert_eq!(view.slice(), &bytes[..Cooked::LEN]);
        prop_assert_eq!(u16::from(view.packet_type()), header.packet_type);
        prop_assert_eq!(view.sender_address(), header.valid_address());
        prop_assert_eq!(observed::protocol(view.protocol_type()), header.meaning());
        prop_assert_eq!(view.to_header().protocol_type, view.protocol_type());
        if let Ok(other) = LinuxSllHeaderSlice::from_slice(&others) {
            prop_assert_eq!(other == view, others[..Cooked::LEN] == bytes[..Cooked::LEN]);
        }
        Ok(())
    });
}

/// A view of a packet of cooked capture shows each field of its header, and the payload after it.
///
/// Holds: `LinuxSllSlice::from_slice`, `LinuxSllSlice::slice`, `LinuxSllSlice::packet_type`,
/// `LinuxSllSlice::packet_type_number`, `LinuxSllSlice::arp_hardware_type`,
/// `LinuxSllSlice::sender_address_valid_length`, `LinuxSllSlice::sender_address_full`,
/// `LinuxSllSlice::sender_address`, `LinuxSllSlice::protocol_type`, `LinuxSllSlice::protocol_number`,
/// `LinuxSllSlice::header_slice`, `LinuxSllSlice::to_header`, `LinuxSllSlice::payload`,
/// `LinuxSllSlice::payload_slice`, `LinuxSllSlice::header_len`
#[test]
fn cooked_views_show_their_bytes() {
    check(twins(cooked_bytes()), |(bytes, others)| {
        let wanted = Cooked::read(&bytes, Source::Frame);
        let Some((view, header)) = agreed(LinuxSllSlice::from_slice(&bytes), wanted, observed::cooked_breach)? else {
            return Ok(());
        };
        let payload = &bytes[Cooked::LEN..];
        prop_assert_eq!(&observed::cooked_view(&view), &header);
        prop_assert_eq!(&observed::cooked(&view.to_header()), &header);
        prop_assert_eq!(view.packet_type_number(), header.packet_type);
        prop_assert_eq!(view.sender_address(), header.valid_address());
        prop_assert_eq!(observed::protocol(view.protocol_type()), header.meaning());
        prop_assert_eq!((view.slice(), view.header_slice()), (bytes.as_slice(), &bytes[..Cooked::LEN]));
        prop_assert_eq!((view.header_len(), view.payload_slice()), (Cooked::LEN, payload));
        let protocol_type = view.protocol_type();
        prop_assert_eq!(view.to_header().protocol_type, protocol_type);
        prop_assert_eq!(view.payload(), LinuxSllPayloadSlice { protocol_type, payload });
        if let Ok(other) = LinuxSllSlice::from_slice(&others) {
            prop_assert_eq!(other == view, others == bytes);
        }
        Ok(())
    });
}

/// A view of a link has the value of its header if it has one, and its payload in both forms: that of an ether type
/// exactly if the protocol has one.
///
/// Holds: `LinkSlice::to_header`, `LinkSlice::ether_payload`, `LinkSlice::sll_payload`
#[test]
fn links_are_their_views() {
    check((vec(any::<u8>(), 18..30), any::<bool>(), cooked_bytes()), |(bytes, has_fcs, others)| {
        let read =
            if has_fcs { Ethernet2Slice::from_slice_with_crc32_fcs } else { Ethernet2Slice::from_slice_without_fcs };
        let ethernet = read(&bytes).expect("eighteen bytes are a frame");
        let payload = ethernet.payload();
        let cooked = LinuxSllPayloadSlice {
            protocol_type: LinuxSllProtocolType::EtherType(payload.ether_type),
            payload: payload.payload,
        };
        let links = [LinkSlice::Ethernet2(ethernet.clone()), LinkSlice::EtherPayload(payload)];
        for link in &links {
            prop_assert_eq!((link.ether_payload(), link.sll_payload()), (Some(payload), cooked));
        }
        prop_assert_eq!(links[0].to_header(), Some(LinkHeader::Ethernet2(ethernet.to_header())));
        prop_assert_eq!(links[1].to_header(), None);
        match LinuxSllSlice::from_slice(&others) {
            Ok(view) => cooked_link(&view),
            Err(_) => Ok(()),
        }
    });
}

fn cooked_link(view: &LinuxSllSlice<'_>) -> Checked {
    let payload = view.payload();
    let typed = observed::protocol(view.protocol_type()).ether_type();
    let typed = typed.map(|number| announced(number, payload.payload));
    let links = [LinkSlice::LinuxSll(view.clone()), LinkSlice::LinuxSllPayload(payload)];
    for link in &links {
        prop_assert_eq!((link.ether_payload(), link.sll_payload()), (typed, payload));
    }
    prop_assert_eq!(links[0].to_header(), Some(LinkHeader::LinuxSll(view.to_header())));
    prop_assert_eq!(links[1].to_header(), None);
    Ok(())
}

/// A payload of an ether type becomes one of cooked capture, and that becomes a payload of an ether type exactly if its
/// protocol has one.
///
/// Holds: `LinkSlice::ether_payload`, `LinkSlice::sll_payload`
#[test]
fn payloads_are_converted() {
    check((hardware_type(), protocol(), bytes(8)), |(hardware_type, number, payload)| {
        let Ok(protocol_type) = LinuxSllProtocolType::try_from((hardware_type.into(), number)) else { return Ok(()) };
        let typed = observed::protocol(protocol_type).ether_type().map(|number| announced(number, &payload));
        let cooked = LinuxSllPayloadSlice { protocol_type, payload: &payload };
        prop_assert_eq!(EtherPayloadSlice::try_from(cooked).ok(), typed);
        let protocol_type = LinuxSllProtocolType::EtherType(number.into());
        let from_type = LinuxSllPayloadSlice::from(announced(number, &payload));
        prop_assert_eq!(from_type, LinuxSllPayloadSlice { protocol_type, payload: &payload });
        Ok(())
    });
}

/// A view of an ARP packet has exactly the packet, whatever follows, and shows each field.
///
/// Holds: `ArpPacketSlice::from_slice`, `ArpPacketSlice::slice`, `ArpPacketSlice::hw_addr_type`,
/// `ArpPacketSlice::proto_addr_type`, `ArpPacketSlice::hw_addr_size`, `ArpPacketSlice::proto_addr_size`,
/// `ArpPacketSlice::operation`, `ArpPacketSlice::sender_hw_addr`, `ArpPacketSlice::sender_protocol_addr`,
/// `ArpPacketSlice::target_hw_addr`, `ArpPacketSlice::target_protocol_addr`, `ArpPacketSlice::to_packet`
#[test]
fn arp_views_show_their_bytes() {
    check(twins(arp_bytes()), |(bytes, others)| {
        let wanted = Arp::read(&bytes, Source::Frame);
        let Some((view, packet)) = agreed(ArpPacketSlice::from_slice(&bytes), wanted, observed::short)? else {
            return Ok(());
        };
        prop_assert_eq!(&observed::arp_view(&view), &packet);
        prop_assert_eq!(&observed::arp(&view.to_packet()), &packet);
        prop_assert_eq!((view.hw_addr_size(), view.proto_addr_size()), (bytes[4], bytes[5]));
        prop_assert_eq!(view.slice(), &bytes[..packet.bytes().len()]);
        if let Ok(other) = ArpPacketSlice::from_slice(&others) {
            prop_assert_eq!(other == view, observed::arp_view(&other) == packet);
        }
        Ok(())
    });
}
