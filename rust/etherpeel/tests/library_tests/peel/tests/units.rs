//! The units of frames, with all their fields and what is left after them.
use super::{Walk, check, ends, equal, kind_of, put};
use crate::peel::plain::{PlainHeader, PlainKind};
use crate::peel::test_frames::{
    CHECKED, COOKED, COOKED_GRE, NAMED, PACKET, PADDED_ARP, SEALED, TAGGED,
};
use etherpeel::ether_peel::{Peel, PeelUnit, RestKind, Start, Summary, summary};
use etherpeel::{ArpOperation, EtherType};

const ETH: Start = Start::Ethernet2;

const SLL: Start = Start::LinuxSll;

const MACSEC: Start = with_type!(0x88E5);

const IPV4: PlainKind = ether_type!(0x0800);

/// The request as numbers.
const ASKED: PlainHeader<'static> = PlainHeader::Arp {
    hardware_type: 1,
    protocol_type: 0x0800,
    operation: 1,
    sender_hardware: &[2, 0, 0, 0, 0, 1],
    sender_protocol: &[10, 0, 0, 1],
    target_hardware: &[0; 6],
    target_protocol: &[10, 0, 0, 2],
};

/// The header of [`CHECKED`].
const WITH_SEQUENCE: PlainHeader<'static> = PlainHeader::Ethernet2Fcs {
    destination: 0xFFFF_FFFF_FFFF,
    source: 0x0200_0000_0001,
    ether_type: 0x0800,
    check_sequence: 0x1122_3344,
};

/// A SecTag with packet number 1 before a payload that can't be read.
macro_rules! sealed {
    ($encrypted:expr, $changed:expr, $short_len:expr, $sci:expr $(,)?) => {
        PlainHeader::Macsec {
            end_station: 0,
            single_copy_broadcast: 0,
            encrypted: $encrypted,
            changed: $changed,
            association_number: 0,
            short_len: $short_len,
            packet_number: 1,
            sci: $sci,
            ether_type: None,
        }
    };
}

macro_rules! cooked {
    ($packet_type:expr, $hardware_type:expr, $address_len:expr, $address:expr, $protocol:expr $(,)?) => {
        PlainHeader::LinuxSll {
            packet_type: $packet_type,
            hardware_type: $hardware_type,
            address_len: $address_len,
            address: $address,
            protocol: $protocol,
        }
    };
}

/// Two tags after an ether type of VLAN tags, and a byte of IPv6.
const TAGS: [u8; 9] = [0x00, 0x05, 0x91, 0x00, 0xE0, 0x00, 0x86, 0xDD, 0x60];

const BOTH_TAGS: &[PlainHeader<'static>] = &[vlan!(0, 0, 5, 0x9100), vlan!(7, 0, 0, 0x86DD)];

/// The outer tag names 14 bytes, the inner one names 4 of these, a VLAN tag. 2 bytes follow the inner payload, and 1
/// byte follows the outer one.
const IN_ONE_ANOTHER: [u8; 23] = [
    0x00, 0x10, 0x00, 0x00, 0x00, 0x01, 0x88, 0xE5, 0x00, 0x06, 0x00, 0x00, 0x00, 0x01, 0x81, 0x00,
    0x00, 0x07, 0x08, 0x00, 0xEE, 0xEE, 0xFF,
];

/// The inner tag names no length, so its payload reaches to the end of the outer one, and its window is closed too.
const UNNAMED: [u8; 19] = [
    0x00, 0x0C, 0x00, 0x00, 0x00, 0x01, 0x88, 0xE5, 0x00, 0x00, 0x00, 0x00, 0x00, 0x01, 0x08, 0x00,
    0x45, 0x00, 0xFF,
];

/// A cooked capture of an ARP request.
const COOKED_REQUEST: [u8; 44] = [
    0, 1, 0, 1, 0, 6, 2, 0, 0, 0, 0, 1, 0, 0, 0x08, 0x06, 0x00, 0x01, 0x08, 0x00, 0x06, 0x04, 0x00,
    0x01, 2, 0, 0, 0, 0, 1, 10, 0, 0, 1, 0, 0, 0, 0, 0, 0, 10, 0, 0, 2,
];

const GRE: PlainKind = PlainKind::Gre(0x0800);

/// A cooked capture with the protocol 0x0806 and a byte, on hardware of this number.
macro_rules! cooked_on {
    ($high:expr, $low:expr $(,)?) => {
        [0, 4, $high, $low, 0, 6, 1, 2, 3, 4, 5, 6, 7, 8, 0x08, 0x06, 0x00]
    };
}

const ON_NETLINK: [u8; 17] = cooked_on!(0x03, 0x38);

const ON_GRE: [u8; 17] = cooked_on!(0x03, 0x0A);

const ON_RADIOTAP: [u8; 17] = cooked_on!(0x03, 0x23);

const ON_FRAME_RELAY: [u8; 17] = cooked_on!(0x03, 0x02);

/// The header of such a capture.
macro_rules! on {
    ($hardware_type:expr $(,)?) => {
        &[cooked!(4, $hardware_type, 6, 0x0102_0304_0506_0708, 0x0806)]
    };
}

#[rustfmt::skip]
static WALKS: [Walk; 23] = [
    accepted!("a payload of another type is left", ETH, &PACKET, &[broadcast!(0x0800)], (14, 15), IPV4, false),
    accepted!("a VLAN tag", ETH, &TAGGED, &[broadcast!(0x8100), vlan!(5, 1, 0x123, 0x0800)], (18, 18), IPV4, false),
    accepted!("tags after 0x8100", with_type!(0x8100), &TAGS, BOTH_TAGS, (8, 9), ether_type!(0x86DD), false),
    accepted!("tags after 0x88A8", with_type!(0x88A8), &TAGS, BOTH_TAGS, (8, 9), ether_type!(0x86DD), false),
    accepted!("tags after 0x9100", with_type!(0x9100), &TAGS, BOTH_TAGS, (8, 9), ether_type!(0x86DD), false),
    accepted!("a check sequence", Start::Ethernet2Fcs, &CHECKED, &[WITH_SEQUENCE], (14, 14), IPV4, true),
    accepted!("no byte of IPv4", with_type!(0x0800), &[], &[], (0, 0), IPV4, false),
    accepted!("a named payload closes the window", MACSEC, &NAMED, &[readable!(6, 0x8100), vlan!(5, 0, 0xABB, 0xCCDD)], (12, 12), ether_type!(0xCCDD), true),
    accepted!("an encrypted payload ends the walk", MACSEC, &[0x0C, 1, 0, 0, 0, 1, 0xAA, 0xBB], &[sealed!(1, 1, 1, None)], (6, 7), PlainKind::Sealed, true),
    accepted!("an encrypted payload", MACSEC, &[0x0C, 0, 0, 0, 0, 1, 0x81, 0], &[sealed!(1, 1, 0, None)], (6, 8), PlainKind::Sealed, false),
    accepted!("an encrypted payload without the mark of a change", MACSEC, &[0x08, 0, 0, 0, 0, 1, 0x81, 0], &[sealed!(1, 0, 0, None)], (6, 8), PlainKind::Sealed, false),
    accepted!("a changed payload", MACSEC, &[0x04, 0, 0, 0, 0, 1, 0x81, 0], &[sealed!(0, 1, 0, None)], (6, 8), PlainKind::Sealed, false),
    accepted!("an SCI and no length", MACSEC, &SEALED, &[sealed!(1, 1, 0, Some(0x0011_2233_4455_6677))], (14, 15), PlainKind::Sealed, false),
    accepted!("a closed window in a closed window", MACSEC, &IN_ONE_ANOTHER, &[readable!(16, 0x88E5), readable!(6, 0x8100), vlan!(0, 0, 7, 0x0800)], (20, 20), IPV4, true),
    accepted!("an unnamed length in a closed window", MACSEC, &UNNAMED, &[readable!(12, 0x88E5), readable!(0, 0x0800)], (16, 18), IPV4, true),
    accepted!("a nonstandard number of a cooked capture", SLL, &COOKED, &[cooked!(0, 1, 255, 0x0200_0000_0001_0000, 1)], (16, 16), ether_type!(1), false),
    accepted!("a protocol of GRE is no ether type", SLL, &COOKED_GRE, &[cooked!(0, 778, 0, 0, 0x0800)], (16, 16), GRE, false),
    accepted!("netlink", SLL, &ON_NETLINK, on!(824), (16, 17), PlainKind::Netlink(0x0806), false),
    accepted!("GRE", SLL, &ON_GRE, on!(778), (16, 17), PlainKind::Gre(0x0806), false),
    accepted!("radiotap", SLL, &ON_RADIOTAP, on!(803), (16, 17), PlainKind::Ignored(0x0806), false),
    accepted!("frame relay", SLL, &ON_FRAME_RELAY, on!(770), (16, 17), PlainKind::Ignored(0x0806), false),
    accepted!("a cooked capture goes on with its ether type", SLL, &COOKED_REQUEST, &[cooked!(1, 1, 6, 0x0200_0000_0001_0000, 0x0806), ASKED], (44, 44), PlainKind::AfterArp, false),
    accepted!("the padding after an ARP packet", ETH, &PADDED_ARP, &[broadcast!(0x0806), ASKED], (42, 60), PlainKind::AfterArp, false),
];

#[test]
fn an_accepted_walk_has_all_headers_and_the_rest() {
    let rt = crate::kit::HostRuntime;
    for walk in &WALKS {
        check(&rt, walk);
    }
}

/// Ether types that announce nothing.
static UNREAD: [u16; 8] = [
    0x0000, 0x0026, 0x0800, 0x0807, 0x80FF, 0x88E4, 0x9101, 0xFFFF,
];

#[test]
fn an_ether_type_that_announces_nothing_ends_the_walk() {
    let rt = crate::kit::HostRuntime;
    for &unread in &UNREAD {
        let mut peel = Peel::new(with_type!(unread), &PACKET);
        let kind = kind_of(ether_type!(unread));
        ends(
            &rt,
            "nothing is announced",
            &mut peel,
            &(0, &PACKET, kind, false),
        );
    }
}

/// The sizes of the addresses, and the length of the packet.
static SIZES: [(&str, u8, usize); 2] = [("the greatest", 255, 1028), ("the least", 0, 8)];

#[test]
fn the_greatest_and_the_least_arp_packet_are_read() {
    let rt = crate::kit::HostRuntime;
    for &(name, size, len) in &SIZES {
        let mut bytes = [7; 1028];
        put(
            &mut bytes,
            0,
            &[0x00, 0x01, 0x08, 0x00, size, size, 0x00, 0x02],
        );
        let list = &bytes[..len.min(1028)];
        let mut peel = Peel::new(with_type!(0x0806), list);
        let Some(Ok(PeelUnit::Arp(packet))) = peel.next() else {
            panic!("an ARP packet");
        };
        equal!(rt, name;
            packet.slice() => list,
            packet.operation() => ArpOperation::REPLY,
            packet.proto_addr_type() => EtherType::IPV4,
            [
                packet.sender_hw_addr().len(),
                packet.sender_protocol_addr().len(),
                packet.target_hw_addr().len(),
                packet.target_protocol_addr().len(),
            ] => [usize::from(size); 4],
        );
        ends(&rt, name, &mut peel, &(len, &[], RestKind::AfterArp, false));
        let whole = Summary {
            units: 1,
            rest_start: len,
            rest_end: len,
            kind: RestKind::AfterArp,
            fault: None,
        };
        equal!(rt, name; summary(with_type!(0x0806), list) => whole);
    }
}
