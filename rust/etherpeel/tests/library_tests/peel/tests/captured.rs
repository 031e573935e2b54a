//! Captured frames, and worked examples of IEEE 802.1AE. The expected fields are those that tshark prints of each
//! frame.
use super::{Walk, check};
use crate::peel::plain::{PlainHeader, PlainKind, PlainRefusal};
use crate::peel::test_frames::{
    ARP_REPLY_FRAME, ARP_REQUEST_FRAME, CONFIDENTIALITY, COOKED_ARP_REQUEST, COOKED_LOOPBACK,
    COOKED_SPANNING_TREE, IN_A_VLAN, IN_A_VLAN_CHECKED, INTEGRITY, SPANNING_TREE,
    TAGGED_ARP_REQUEST, TWICE_TAGGED_ARP_REQUEST,
};
use etherpeel::ether_peel::Start;

macro_rules! ethernet {
    ($destination:expr, $source:expr, $ether_type:expr $(,)?) => {
        PlainHeader::Ethernet2 {
            destination: $destination,
            source: $source,
            ether_type: $ether_type,
        }
    };
}

const KERNEL: u64 = 0x0200_5E10_0001;

const ALL_STATIONS: u64 = 0xFFFF_FFFF_FFFF;

/// Who has 192.0.2.2, tell 192.0.2.1 at 02:00:5E:10:00:01.
const QUESTION: PlainHeader<'static> = PlainHeader::Arp {
    hardware_type: 1,
    protocol_type: 0x0800,
    operation: 1,
    sender_hardware: &[0x02, 0x00, 0x5E, 0x10, 0x00, 0x01],
    sender_protocol: &[192, 0, 2, 1],
    target_hardware: &[0; 6],
    target_protocol: &[192, 0, 2, 2],
};

const ANSWER: PlainHeader<'static> = PlainHeader::Arp {
    hardware_type: 1,
    protocol_type: 0x0800,
    operation: 2,
    sender_hardware: &[0x02, 0x00, 0x5E, 0x10, 0x00, 0x02],
    sender_protocol: &[192, 0, 2, 2],
    target_hardware: &[0x02, 0x00, 0x5E, 0x10, 0x00, 0x01],
    target_protocol: &[192, 0, 2, 1],
};

/// The SecTag of the frame with integrity protection.
const READABLE: PlainHeader<'static> = PlainHeader::Macsec {
    end_station: 0,
    single_copy_broadcast: 0,
    encrypted: 0,
    changed: 0,
    association_number: 2,
    short_len: 42,
    packet_number: 0xB2C2_8465,
    sci: Some(0x1215_3524_C089_5E81),
    ether_type: Some(0x0800),
};

/// The SecTag of the frame with confidentiality protection.
const ENCRYPTED: PlainHeader<'static> = PlainHeader::Macsec {
    end_station: 1,
    single_copy_broadcast: 0,
    encrypted: 1,
    changed: 1,
    association_number: 0,
    short_len: 42,
    packet_number: 0x76D4_57ED,
    sci: None,
    ether_type: None,
};

const CHECKED: PlainHeader<'static> = PlainHeader::Ethernet2Fcs {
    destination: 0x0010_DBFF_1000,
    source: 0x0015_2C9D_CC00,
    ether_type: 0x8100,
    check_sequence: 0x945D_D029,
};

macro_rules! cooked {
    ($packet_type:expr, $protocol:expr $(,)?) => {
        PlainHeader::LinuxSll {
            packet_type: $packet_type,
            hardware_type: 1,
            address_len: 6,
            address: 0x0200_5E10_0001_0000,
            protocol: $protocol,
        }
    };
}

const ETH: Start = Start::Ethernet2;

const SLL: Start = Start::LinuxSll;

const ARP: PlainKind = PlainKind::AfterArp;

macro_rules! to_all {
    ($ether_type:expr $(,)?) => {
        ethernet!(ALL_STATIONS, KERNEL, $ether_type)
    };
}

#[rustfmt::skip]
static WALKS: [Walk; 12] = [
    accepted!("an ARP request", ETH, &ARP_REQUEST_FRAME, &[to_all!(0x0806), QUESTION], (42, 42), ARP, false),
    accepted!("one with a tag", ETH, &TAGGED_ARP_REQUEST, &[to_all!(0x8100), vlan!(5, 1, 291, 0x0806), QUESTION], (46, 46), ARP, false),
    accepted!("one with two tags", ETH, &TWICE_TAGGED_ARP_REQUEST, &[to_all!(0x88A8), vlan!(0, 0, 10, 0x8100), vlan!(0, 0, 100, 0x0806), QUESTION], (50, 50), ARP, false),
    accepted!("an ARP reply with padding", ETH, &ARP_REPLY_FRAME, &[ethernet!(KERNEL, 0x0200_5E10_0002, 0x0806), ANSWER], (42, 60), ARP, false),
    accepted!("a length in the place of the type", ETH, &SPANNING_TREE, &[ethernet!(0x0180_C200_0000, KERNEL, 0x0026)], (14, 60), ether_type!(0x0026), false),
    // the ICV is the last 16 bytes, after the payload
    accepted!("integrity protection", ETH, &INTEGRITY, &[ethernet!(0xD609_B1F0_5663, 0x7A0D_46DF_998D, 0x88E5), READABLE], (30, 70), ether_type!(0x0800), true),
    accepted!("confidentiality protection", ETH, &CONFIDENTIALITY, &[ethernet!(0xE201_06D7_CD0D, 0xF076_1E8D_CD3D, 0x88E5), ENCRYPTED], (20, 62), PlainKind::Sealed, true),
    accepted!("a segment in a VLAN", ETH, &IN_A_VLAN, &[ethernet!(0x0010_DBFF_1000, 0x0015_2C9D_CC00, 0x8100), vlan!(0, 0, 503, 0x0800)], (18, 64), ether_type!(0x0800), false),
    accepted!("with its check sequence", Start::Ethernet2Fcs, &IN_A_VLAN_CHECKED, &[CHECKED, vlan!(0, 0, 503, 0x0800)], (18, 64), ether_type!(0x0800), true),
    accepted!("an ARP request in a cooked capture", SLL, &COOKED_ARP_REQUEST, &[cooked!(1, 0x0806), QUESTION], (44, 44), ARP, false),
    accepted!("an 802.2 frame in a cooked capture", SLL, &COOKED_SPANNING_TREE, &[cooked!(2, 4)], (16, 62), ether_type!(0x0004), false),
    refused!("the loopback device", SLL, &COOKED_LOOPBACK, &[], (0, 20), PlainKind::Start, false, PlainRefusal::HardwareType(772)),
];

#[test]
fn captured_frames_are_walked_as_tshark_shows_them() {
    let rt = crate::kit::HostRuntime;
    for walk in &WALKS {
        check(&rt, walk);
    }
}
