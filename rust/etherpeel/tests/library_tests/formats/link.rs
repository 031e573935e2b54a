//! Links of either kind: their headers, and their packets or payloads.
use super::{equal, ipv4};
use crate::test_frames::{COOKED, COOKED_GRE, COOKED_OUTGOING, FRAME};
use etherpeel::{
    ArpHardwareId, EtherPayloadSlice, EtherType, Ethernet2Header, Ethernet2Slice, LenSource,
    LinkHeader, LinkSlice, LinuxSllHeader, LinuxSllPacketType, LinuxSllPayloadSlice,
    LinuxSllProtocolType, LinuxSllSlice,
};
use crate::kit::Abort;
use crate::kit::Fail;

const NETLINK: LinuxSllHeader = LinuxSllHeader {
    packet_type: LinuxSllPacketType::OUTGOING,
    arp_hrd_type: ArpHardwareId::NETLINK,
    sender_address_valid_length: 0,
    sender_address: [0; 8],
    protocol_type: LinuxSllProtocolType::NetlinkProtocolType(1),
};

/// A payload of cooked capture: one byte, which is announced as a VLAN tag.
const VLAN: LinuxSllPayloadSlice<'static> = LinuxSllPayloadSlice {
    protocol_type: LinuxSllProtocolType::EtherType(EtherType(0x8100)),
    payload: &[0xAA],
};

/// A payload of cooked capture whose protocol is an ether type.
const fn sll(ether_type: EtherType, payload: &[u8]) -> LinuxSllPayloadSlice<'_> {
    LinuxSllPayloadSlice {
        protocol_type: LinuxSllProtocolType::EtherType(ether_type),
        payload,
    }
}

#[test]
fn a_link_header_lends_its_own_variant_alone() {
    let rt = crate::kit::HostRuntime;
    for ether_type in [EtherType::IPV4, EtherType(0x0806)] {
        let mut link = LinkHeader::Ethernet2(Ethernet2Header::default());
        let parts = (link.ethernet2(), link.linux_sll(), link.header_len());
        let lent = link.mut_linux_sll().is_some();
        if let Some(header) = link.mut_ethernet2() {
            header.ether_type = ether_type;
        }
        let changed = LinkHeader::Ethernet2(Ethernet2Header {
            ether_type,
            ..Ethernet2Header::default()
        });
        equal!(rt, "of a frame, and changed";
            parts => (Some(Ethernet2Header::default()), None, 14),
            lent => false,
            &link => &changed,
        );
    }
    let mut link = LinkHeader::LinuxSll(NETLINK);
    let parts = (link.ethernet2(), link.linux_sll(), link.header_len());
    let lent = link.mut_ethernet2().is_some();
    if let Some(header) = link.mut_linux_sll() {
        header.packet_type = LinuxSllPacketType::HOST;
    }
    let changed = LinkHeader::LinuxSll(LinuxSllHeader {
        packet_type: LinuxSllPacketType::HOST,
        ..NETLINK
    });
    equal!(rt, "of a packet of cooked capture, and changed";
        parts => (None, Some(NETLINK), 16),
        lent => false,
        &link => &changed,
    );
}

/// The link has this header, and the payload of both kinds.
fn is_link(
    rt: &impl Abort,
    name: &str,
    link: &LinkSlice<'_>,
    header: &Option<LinkHeader>,
    ether_payload: &Option<EtherPayloadSlice<'_>>,
    sll_payload: &LinuxSllPayloadSlice<'_>,
) {
    equal!(rt, name; link.to_header() => *header);
    equal!(rt, name; link.ether_payload() => *ether_payload);
    equal!(rt, name; link.sll_payload() => *sll_payload);
}

#[test]
fn a_link_has_the_header_and_the_payload_of_its_packet() -> Result<(), Fail> {
    let rt = crate::kit::HostRuntime;
    let frame = Ethernet2Slice::from_slice_without_fcs(&FRAME)?;
    let header = Some(LinkHeader::Ethernet2(frame.to_header()));
    let payload = &FRAME[14..];
    let link = LinkSlice::Ethernet2(frame);
    let sll_payload = sll(EtherType::IPV4, payload);
    is_link(
        &rt,
        "a frame",
        &link,
        &header,
        &Some(ipv4(payload)),
        &sll_payload,
    );
    let outgoing = LinuxSllSlice::from_slice(&COOKED_OUTGOING)?;
    let header = Some(LinkHeader::LinuxSll(outgoing.to_header()));
    let link = LinkSlice::LinuxSll(outgoing);
    let sll_payload = sll(EtherType::IPV4, &[0x45]);
    is_link(
        &rt,
        "the example",
        &link,
        &header,
        &Some(ipv4(&[0x45])),
        &sll_payload,
    );
    Ok(())
}

#[test]
fn a_packet_from_a_gre_tunnel_has_no_ether_payload() -> Result<(), Fail> {
    let rt = crate::kit::HostRuntime;
    let gre = LinuxSllSlice::from_slice(&COOKED_GRE)?;
    let header = Some(LinkHeader::LinuxSll(gre.to_header()));
    let sll_payload = LinuxSllPayloadSlice {
        protocol_type: LinuxSllProtocolType::GenericRoutingEncapsulationProtocolType(0x0800),
        payload: &[0x45],
    };
    let link = LinkSlice::LinuxSll(gre);
    is_link(
        &rt,
        "a packet from a GRE tunnel",
        &link,
        &header,
        &None,
        &sll_payload,
    );
    Ok(())
}

#[test]
fn a_payload_as_a_link_has_no_header() {
    let rt = crate::kit::HostRuntime;
    let named = EtherPayloadSlice {
        ether_type: EtherType(0x8100),
        len_source: LenSource::MacsecShortLength,
        payload: &[0xAA],
    };
    let unnamed = EtherPayloadSlice {
        len_source: LenSource::Slice,
        ..named
    };
    let ether = LinkSlice::EtherPayload(named);
    let cooked = LinkSlice::LinuxSllPayload(VLAN);
    is_link(
        &rt,
        "with its ether type",
        &ether,
        &None,
        &Some(named),
        &VLAN,
    );
    is_link(
        &rt,
        "of cooked capture",
        &cooked,
        &None,
        &Some(unnamed),
        &VLAN,
    );
}

/// Links of different variants differ, and so do packets with different bytes.
#[test]
fn links_differ_by_variant_and_by_bytes() -> Result<(), Fail> {
    let rt = crate::kit::HostRuntime;
    let frame = LinkSlice::Ethernet2(Ethernet2Slice::from_slice_without_fcs(&FRAME)?);
    let header = LinkSlice::Ethernet2(Ethernet2Slice::from_slice_without_fcs(&FRAME[..14])?);
    let gre = LinkSlice::LinuxSll(LinuxSllSlice::from_slice(&COOKED_GRE)?);
    let other = LinkSlice::LinuxSll(LinuxSllSlice::from_slice(&COOKED)?);
    let ether = LinkSlice::EtherPayload(ipv4(&[0x45]));
    let cooked = LinkSlice::LinuxSllPayload(sll(EtherType::IPV4, &[0x45]));
    equal!(rt, "links";
        [frame == header, gre == other, frame == gre, ether == cooked] => [false; 4],
    );
    Ok(())
}

#[test]
fn debug_shows_links() -> Result<(), Fail> {
    let rt = crate::kit::HostRuntime;
    let header = LinkHeader::LinuxSll(NETLINK);
    let payload = LinkSlice::LinuxSllPayload(VLAN);
    let shown = format!("{:?}", (header, payload));
    equal!(rt, "a header and a payload";
        shown.as_str()
            => "(LinuxSll(LinuxSllHeader { packet_type: 4 (Sent by us), arp_hrd_type: 824 (Netlink header), sender_address_valid_length: 0, sender_address: [0, 0, 0, 0, 0, 0, 0, 0], protocol_type: NetlinkProtocolType(1) }), \
LinuxSllPayload(LinuxSllPayloadSlice { protocol_type: EtherType(0x8100 (Customer VLAN Tag (C-TAG) as defined in IEEE Std 802.1Q)), payload: [170] }))",
    );
    Ok(())
}
