//! Headers of links of worked frames, replaced in place.
use super::frames::{
    CHECKED, COOKED_ARP_REQUEST, FOUR_TAGS, SECOND_TAG_CUT, TWICE_TAGGED_ARP_REQUEST,
};
use super::{equal, filled, put};
use etherpeel::ether_packet::{Difference, PacketSlice, ReplaceError, replace_link};
use etherpeel::ether_peel::Start;
use etherpeel::{
    ArpHardwareId, EtherType, Ethernet2Header, LinkHeader, LinuxNonstandardEtherType,
    LinuxSllHeader, LinuxSllPacketType, LinuxSllProtocolType,
};

/// A header: of Ethernet II, from 02:00:00:00:00:03 to 02:00:00:00:00:02; or [`HEADER`] except for one field.
enum Link {
    Ethernet2(EtherType),
    EtherType(EtherType),
    Dummy,
    NetlinkProtocol(u16),
    NetlinkDevice,
}

/// The header of the captured packet, as sent by its own host from 02:00:00:00:00:03.
const HEADER: LinuxSllHeader = LinuxSllHeader {
    packet_type: LinuxSllPacketType::OUTGOING,
    arp_hrd_type: ArpHardwareId::ETHERNET,
    sender_address_valid_length: 6,
    sender_address: [2, 0, 0, 0, 0, 3, 0, 0],
    protocol_type: LinuxSllProtocolType::EtherType(EtherType::ARP),
};

fn header(link: &Link) -> LinkHeader {
    let protocol_type = match link {
        Link::Ethernet2(ether_type) => {
            return LinkHeader::Ethernet2(Ethernet2Header {
                destination: [2, 0, 0, 0, 0, 2],
                source: [2, 0, 0, 0, 0, 3],
                ether_type: *ether_type,
            });
        }
        Link::NetlinkDevice => {
            return LinkHeader::LinuxSll(LinuxSllHeader {
                arp_hrd_type: ArpHardwareId::NETLINK,
                ..HEADER
            });
        }
        Link::EtherType(ether_type) => LinuxSllProtocolType::EtherType(*ether_type),
        Link::NetlinkProtocol(number) => LinuxSllProtocolType::NetlinkProtocolType(*number),
        Link::Dummy => {
            LinuxSllProtocolType::LinuxNonstandardEtherType(LinuxNonstandardEtherType::N802_3)
        }
    };
    LinkHeader::LinuxSll(LinuxSllHeader {
        protocol_type,
        ..HEADER
    })
}

const ETH: Start = Start::Ethernet2;

const FCS: Start = Start::Ethernet2Fcs;

const SLL: Start = Start::LinuxSll;

/// The addresses in the new headers, and the front of the cooked captures.
const ADDRESSES: &[u8] = &[2, 0, 0, 0, 0, 2, 2, 0, 0, 0, 0, 3];

const SENT: &[u8] = &[0, 4, 0, 1, 0, 6, 2, 0, 0, 0, 0, 3];

const EXAMPLE: &[u8] = &[
    0xFF, 0xFF, 0xFF, 0xFF, 0xFF, 0xFF, 0x02, 0x00, 0x00, 0x00, 0x00, 0x01, 0x81, 0x00, 0xB1, 0x23,
    0x08, 0x00, 0x45,
];

/// The captured packet with a packet type that is refused, and with the nonstandard number 1.
const REFUSED: &[u8] = &[
    0x00, 0x08, 0x00, 0x01, 0x00, 0x06, 0x02, 0x00, 0x5E, 0x10, 0x00, 0x01, 0x00, 0x00, 0x08, 0x06,
    0x00, 0x01, 0x08, 0x00, 0x06, 0x04, 0x00, 0x01, 0x02, 0x00, 0x5E, 0x10, 0x00, 0x01, 0xC0, 0x00,
    0x02, 0x01, 0x00, 0x00, 0x00, 0x00, 0x00, 0x00, 0xC0, 0x00, 0x02, 0x02,
];

const NONSTANDARD: &[u8] = &[
    0x00, 0x01, 0x00, 0x01, 0x00, 0x06, 0x02, 0x00, 0x5E, 0x10, 0x00, 0x01, 0x00, 0x00, 0x00, 0x01,
    0x00, 0x01, 0x08, 0x00, 0x06, 0x04, 0x00, 0x01, 0x02, 0x00, 0x5E, 0x10, 0x00, 0x01, 0xC0, 0x00,
    0x02, 0x01, 0x00, 0x00, 0x00, 0x00, 0x00, 0x00, 0xC0, 0x00, 0x02, 0x02,
];

const CUSTOMER: Link = Link::Ethernet2(EtherType::VLAN_TAGGED_FRAME);

const SERVICE: Link = Link::Ethernet2(EtherType::PROVIDER_BRIDGING);

const IPV4: Link = Link::Ethernet2(EtherType::IPV4);

const ARP: Link = Link::EtherType(EtherType::ARP);

/// The front of [`CHECKED`] without its ether type, and without its check sequence.
const THIRTEEN: &[u8] = &[0xFF, 0xFF, 0xFF, 0xFF, 0xFF, 0xFF, 2, 0, 0, 0, 0, 1, 0x08];

const SEVENTEEN: &[u8] = &[
    0xFF, 0xFF, 0xFF, 0xFF, 0xFF, 0xFF, 2, 0, 0, 0, 0, 1, 0x08, 0x00, 0x45, 0x11, 0x22,
];

/// A start, a frame, a header for it, and the bytes at its front afterwards.
type Row = (
    &'static str,
    Start,
    &'static [u8],
    Link,
    Result<&'static [u8], ReplaceError>,
);

static ROWS: [Row; 16] = [
    ("the example", ETH, EXAMPLE, CUSTOMER, Ok(ADDRESSES)),
    (
        "a captured frame",
        ETH,
        &TWICE_TAGGED_ARP_REQUEST,
        SERVICE,
        Ok(ADDRESSES),
    ),
    ("a check sequence stays", FCS, &CHECKED, IPV4, Ok(ADDRESSES)),
    ("a cooked capture", SLL, &COOKED_ARP_REQUEST, ARP, Ok(SENT)),
    (
        "before a tag that is cut short",
        ETH,
        &SECOND_TAG_CUT,
        SERVICE,
        Ok(ADDRESSES),
    ),
    (
        "a nonstandard number",
        SLL,
        NONSTANDARD,
        Link::Dummy,
        Ok(SENT),
    ),
    (
        "no link",
        Start::EtherType(EtherType::VLAN_TAGGED_FRAME),
        &FOUR_TAGS,
        IPV4,
        Err(ReplaceError::NoLink),
    ),
    (
        "a header that is cut short",
        ETH,
        THIRTEEN,
        IPV4,
        Err(ReplaceError::NoLink),
    ),
    (
        "a check sequence that is cut short",
        FCS,
        SEVENTEEN,
        IPV4,
        Err(ReplaceError::NoLink),
    ),
    (
        "a cooked capture that is refused",
        SLL,
        REFUSED,
        ARP,
        Err(ReplaceError::NoLink),
    ),
    (
        "a header of Ethernet II",
        SLL,
        &COOKED_ARP_REQUEST,
        Link::Ethernet2(EtherType::ARP),
        Err(ReplaceError::SaysOther(Difference::Kind)),
    ),
    (
        "another hardware type",
        SLL,
        &COOKED_ARP_REQUEST,
        Link::NetlinkDevice,
        Err(ReplaceError::SaysOther(Difference::HardwareType)),
    ),
    (
        "another protocol",
        SLL,
        &COOKED_ARP_REQUEST,
        Link::EtherType(EtherType::IPV4),
        Err(ReplaceError::SaysOther(Difference::ProtocolType)),
    ),
    (
        "a protocol of netlink",
        SLL,
        &COOKED_ARP_REQUEST,
        Link::NetlinkProtocol(0x0806),
        Err(ReplaceError::SaysOther(Difference::ProtocolType)),
    ),
    (
        "an ether type in place of a nonstandard number",
        SLL,
        NONSTANDARD,
        Link::EtherType(EtherType(1)),
        Err(ReplaceError::SaysOther(Difference::ProtocolType)),
    ),
    (
        "another ether type",
        ETH,
        &TWICE_TAGGED_ARP_REQUEST,
        CUSTOMER,
        Err(ReplaceError::SaysOther(Difference::EtherType)),
    ),
];

#[test]
fn the_link_is_replaced_or_the_frame_is_unchanged() {
    let rt = crate::kit::HostRuntime;
    for (name, start, frame, link, wanted) in &ROWS {
        let (mut changed, mut after) = (filled(frame), filled(frame));
        let replaced = replace_link(*start, &mut changed[..frame.len().min(96)], &header(link));
        if let Ok(front) = wanted {
            put(&mut after, 0, front);
        }
        let refused = wanted.as_ref().err();
        equal!(rt, name;
            replaced.as_ref().err() => refused,
            changed => after,
        );
    }
}

#[test]
fn a_frame_with_another_link_is_read_again() {
    let rt = crate::kit::HostRuntime;
    let mut frame = TWICE_TAGGED_ARP_REQUEST;
    let replaced = replace_link(ETH, &mut frame, &header(&SERVICE));
    let packet = PacketSlice::from_slice(ETH, &frame);
    equal!(rt, "two tags";
        replaced => Ok(()),
        packet.link_ext_count() => 2,
        packet.arp().is_some() => true,
        packet.is_complete() => true,
    );
}
