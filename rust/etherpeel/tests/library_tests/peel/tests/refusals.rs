//! Faults with all their fields, and the window that is left after them.
use super::{Walk, check, equal, fault_at, is_refused, put};
use crate::peel::plain::{PlainHeader, PlainKind, PlainRefusal};
use crate::peel::test_frames::{
    ADDRESSES, CHECKED, COOKED, COOKED_GRE, NAMED, SECOND_TAG_CUT, TAGGED,
};
use etherpeel::ether_peel::{Peel, Start};
use etherpeel::LenSource;
use etherpeel::err::Layer;

const SLICE: LenSource = LenSource::Slice;

const SHORT_LEN: LenSource = LenSource::MacsecShortLength;

const ADDRS: LenSource = LenSource::ArpAddrLengths;

const ETH: Start = Start::Ethernet2;

const FCS: Start = Start::Ethernet2Fcs;

const SLL: Start = Start::LinuxSll;

const MACSEC: Start = with_type!(0x88E5);

const ARP: Start = with_type!(0x0806);

/// A header with too few bytes, for each length from one up to another, and how many bytes it needs then.
struct Front {
    name: &'static str,
    start: Start,
    bytes: &'static [u8],
    lens: (usize, usize),
    required_len: usize,
    source: LenSource,
    layer: Layer,
}

macro_rules! front {
    ($name:expr, $start:expr, $bytes:expr, $lens:expr, $required_len:expr, $source:expr, $layer:expr $(,)?) => {
        Front {
            name: $name,
            start: $start,
            bytes: $bytes,
            lens: $lens,
            required_len: $required_len,
            source: $source,
            layer: $layer,
        }
    };
}

/// A SecTag of another version, which is refused once six bytes are there.
const VERSION: [u8; 6] = [0x80, 0x00, 0x00, 0x00, 0x00, 0x00];

/// An ARP packet without its addresses.
const SIZES: [u8; 8] = [0x00, 0x01, 0x08, 0x00, 0x06, 0x04, 0x00, 0x01];

#[rustfmt::skip]
static FRONTS: [Front; 10] = [
    front!("Ethernet II", ETH, &TAGGED, (0, 13), 14, SLICE, Layer::Ethernet2Header),
    front!("with a check sequence", FCS, &TAGGED, (0, 17), 18, SLICE, Layer::Ethernet2Header),
    front!("a cooked capture", SLL, &COOKED, (0, 15), 16, SLICE, Layer::LinuxSllHeader),
    front!("a SecTag", MACSEC, &VERSION, (0, 5), 6, SLICE, Layer::MacsecHeader),
    front!("without its ether type", MACSEC, &NAMED, (6, 7), 8, SLICE, Layer::MacsecHeader),
    // with an ether type the header has 16 bytes, without one 14
    front!("without its SCI", MACSEC, &[0x20, 0, 0, 0, 0, 1, 2, 3, 4, 5, 6, 7, 8], (13, 13), 16, SLICE, Layer::MacsecHeader),
    front!("encrypted, without its SCI", MACSEC, &[0x2C, 0, 0, 0, 0, 1, 2, 3, 4, 5, 6, 7, 8], (13, 13), 14, SLICE, Layer::MacsecHeader),
    front!("a named payload", MACSEC, &NAMED, (8, 11), 12, SHORT_LEN, Layer::MacsecPacket),
    front!("an ARP packet", ARP, &SIZES, (0, 7), 8, SLICE, Layer::Arp),
    front!("without its addresses", ARP, &SIZES, (8, 8), 28, ADDRS, Layer::Arp),
];

#[test]
fn every_front_of_a_header_is_too_short() {
    let rt = crate::kit::HostRuntime;
    for front in &FRONTS {
        let closed = front.start == FCS;
        let kind = match front.start {
            Start::EtherType(announced) => ether_type!(announced.0),
            _ => PlainKind::Start,
        };
        for len in front.lens.0..=front.lens.1 {
            let bytes = front.bytes.get(..len).unwrap_or(&[]);
            let refusal = too_short!(front.required_len, len, front.source, front.layer);
            let fault = fault_at(0, closed, refusal);
            is_refused(&rt, front.name, front.start, bytes, 0, fault, bytes, kind);
        }
    }
}

#[test]
fn the_greatest_arp_packet_needs_its_last_byte() {
    let rt = crate::kit::HostRuntime;
    let mut list = [0; 1027];
    put(
        &mut list,
        0,
        &[0x00, 0x01, 0x08, 0x00, 0xFF, 0xFF, 0x00, 0x01],
    );
    let fault = fault_at(0, false, too_short!(1028, 1027, ADDRS, Layer::Arp));
    let kind = ether_type!(0x0806);
    is_refused(&rt, "a byte less", ARP, &list, 0, fault, &list, kind);
}

/// A tag, and the first three bytes of a second one.
const WITH_08: [u8; 21] = [
    0xFF, 0xFF, 0xFF, 0xFF, 0xFF, 0xFF, 2, 0, 0, 0, 0, 1, 0x88, 0xA8, 0x00, 0x01, 0x81, 0x00, 0x00,
    0x02, 0x08,
];

/// A frame whose check sequence takes all bytes of its tag but one.
const TAG_BEFORE_SEQUENCE: [u8; 19] = [
    0xFF, 0xFF, 0xFF, 0xFF, 0xFF, 0xFF, 2, 0, 0, 0, 0, 1, 0x81, 0x00, 0xB1, 0x23, 0x08, 0x00, 0x81,
];

const HALF_A_TAG_BEFORE_SEQUENCE: [u8; 20] = [
    0xFF, 0xFF, 0xFF, 0xFF, 0xFF, 0xFF, 2, 0, 0, 0, 0, 1, 0x81, 0x00, 0x00, 0x01, 0x11, 0x22, 0x33,
    0x44,
];

/// A SecTag whose payload has half a tag, before a check sequence.
const SEC_TAG_BEFORE_SEQUENCE: [u8; 28] = [
    0xFF, 0xFF, 0xFF, 0xFF, 0xFF, 0xFF, 2, 0, 0, 0, 0, 1, 0x88, 0xE5, 0x00, 0x04, 0x00, 0x00, 0x00,
    0x01, 0x81, 0x00, 0xAA, 0xBB, 0x11, 0x22, 0x33, 0x44,
];

/// Packet types and hardware types that are not supported.
const PACKET_TYPE: [u8; 16] = [0, 8, 0, 1, 0, 0xFF, 2, 0, 0, 0, 0, 1, 0, 0, 0, 1];

const HARDWARE_TYPE: [u8; 16] = [0, 0, 1, 1, 0, 0, 0, 0, 0, 0, 0, 0, 0, 0, 0x08, 0x00];

const BOTH_TYPES: [u8; 16] = [1, 0, 1, 1, 0, 0, 0, 0, 0, 0, 0, 0, 0, 0, 0x08, 0x00];

macro_rules! with_sequence {
    ($ether_type:expr, $check_sequence:expr $(,)?) => {
        PlainHeader::Ethernet2Fcs {
            destination: 0xFFFF_FFFF_FFFF,
            source: 0x0200_0000_0001,
            ether_type: $ether_type,
            check_sequence: $check_sequence,
        }
    };
}

const TWO: &[PlainHeader<'static>] = &[broadcast!(0x88A8), vlan!(0, 0, 1, 0x8100)];

const TAG: PlainKind = ether_type!(0x8100);

#[rustfmt::skip]
static WALKS: [Walk; 14] = [
    refused!("the packet type", SLL, &PACKET_TYPE, &[], (0, 16), PlainKind::Start, false, PlainRefusal::PacketType(8)),
    refused!("the hardware type", SLL, &HARDWARE_TYPE, &[], (0, 16), PlainKind::Start, false, PlainRefusal::HardwareType(257)),
    refused!("the packet type before the hardware type", SLL, &BOTH_TYPES, &[], (0, 16), PlainKind::Start, false, PlainRefusal::PacketType(256)),
    refused!("no room for the ether type", MACSEC, &[0, 1, 0, 0, 0, 0], &[], (0, 6), ether_type!(0x88E5), false, PlainRefusal::ShortLen),
    refused!("a version", MACSEC, &VERSION, &[], (0, 6), ether_type!(0x88E5), false, PlainRefusal::Version),
    refused!("the second of two tags", ETH, &SECOND_TAG_CUT, TWO, (18, 20), TAG, false, too_short!(4, 2, SLICE, Layer::VlanHeader)),
    refused!("one byte more of it", ETH, &WITH_08, TWO, (18, 21), TAG, false, too_short!(4, 3, SLICE, Layer::VlanHeader)),
    refused!("a tag in a named payload", MACSEC, &[0, 4, 0, 0, 0, 1, 0x81, 0, 0xAA, 0xBB, 0xCC, 0xDD], &[readable!(4, 0x8100)], (8, 10), TAG, true, too_short!(4, 2, SHORT_LEN, Layer::VlanHeader)),
    refused!("a tag after an open SecTag", MACSEC, &[0, 0, 0, 0, 0, 1, 0x81, 0, 0xAA, 0xBB, 0xCC], &[readable!(0, 0x8100)], (8, 11), TAG, false, too_short!(4, 3, SLICE, Layer::VlanHeader)),
    refused!("an ARP packet in a named payload", MACSEC, &[0, 6, 0, 0, 0, 1, 8, 6, 0, 1, 8, 0], &[readable!(6, 0x0806)], (8, 12), ether_type!(0x0806), true, too_short!(8, 4, SHORT_LEN, Layer::Arp)),
    // the sizes in the packet itself say that the addresses are missing
    refused!("its addresses", MACSEC, &[0, 10, 0, 0, 0, 1, 8, 6, 0, 1, 8, 0, 6, 4, 0, 1], &[readable!(10, 0x0806)], (8, 16), ether_type!(0x0806), true, too_short!(28, 8, ADDRS, Layer::Arp)),
    // a check sequence closes a window, but does not bound it
    refused!("a byte of a tag before a check sequence", FCS, &TAG_BEFORE_SEQUENCE, &[with_sequence!(0x8100, 0x2308_0081)], (14, 15), TAG, true, too_short!(4, 1, SLICE, Layer::VlanHeader)),
    refused!("half a tag before a check sequence", FCS, &HALF_A_TAG_BEFORE_SEQUENCE, &[with_sequence!(0x8100, 0x1122_3344)], (14, 16), TAG, true, too_short!(4, 2, SLICE, Layer::VlanHeader)),
    refused!("half a tag in a named payload before one", FCS, &SEC_TAG_BEFORE_SEQUENCE, &[with_sequence!(0x88E5, 0x1122_3344), readable!(4, 0x8100)], (22, 24), TAG, true, too_short!(4, 2, SHORT_LEN, Layer::VlanHeader)),
];

#[test]
fn a_refused_walk_keeps_the_headers_before_its_fault() {
    let rt = crate::kit::HostRuntime;
    for walk in &WALKS {
        check(&rt, walk);
    }
}

/// The ether type of a unit, its bytes, and why it is refused.
type Refused = (&'static str, [u8; 2], &'static [u8], PlainRefusal);

#[rustfmt::skip]
static IN_PAYLOADS: [Refused; 11] = [
    ("three bytes of a tag", [0x81, 0x00], &[0; 3], too_short!(4, 3, SHORT_LEN, Layer::VlanHeader)),
    ("one byte of a tag", [0x88, 0xA8], &[0], too_short!(4, 1, SHORT_LEN, Layer::VlanHeader)),
    ("no byte of a tag", [0x91, 0x00], &[], too_short!(4, 0, SHORT_LEN, Layer::VlanHeader)),
    ("five bytes of a SecTag", [0x88, 0xE5], &[0; 5], too_short!(6, 5, SHORT_LEN, Layer::MacsecHeader)),
    ("a byte of its ether type", [0x88, 0xE5], &[0; 7], too_short!(8, 7, SHORT_LEN, Layer::MacsecHeader)),
    ("its payload", [0x88, 0xE5], &[0x0C, 3, 0, 0, 0, 1, 0xAA, 0xBB], too_short!(9, 8, SHORT_LEN, Layer::MacsecPacket)),
    ("seven bytes of an ARP packet", [0x08, 0x06], &[0; 7], too_short!(8, 7, SHORT_LEN, Layer::Arp)),
    ("its addresses", [0x08, 0x06], &[0, 1, 8, 0, 1, 2, 0, 1, 0xAA], too_short!(14, 9, ADDRS, Layer::Arp)),
    ("an SCI", [0x88, 0xE5], &[0x2C, 0, 0, 0, 0, 1, 0, 1, 2, 3, 4, 5, 6], too_short!(14, 13, SHORT_LEN, Layer::MacsecHeader)),
    ("a version", [0x88, 0xE5], &[0x80, 1, 0, 0, 0, 1], PlainRefusal::Version),
    ("a short length", [0x88, 0xE5], &[0x00, 1, 0, 0, 0, 1], PlainRefusal::ShortLen),
];

/// The bytes of each row follow two units, in a closed window that begins at byte 22, and 2 bytes follow them.
#[test]
fn each_refusal_in_a_named_payload_is_closed() {
    let rt = crate::kit::HostRuntime;
    for &(name, announced, unit, refusal) in &IN_PAYLOADS {
        let short_len = (unit.len() % 62) as u8 + 2;
        let mut frame = [0xEE; 64];
        put(&mut frame, 0, &ADDRESSES);
        put(
            &mut frame,
            12,
            &[0x88, 0xE5, 0x00, short_len, 0x00, 0x00, 0x00, 0x01],
        );
        put(&mut frame, 20, &announced);
        put(&mut frame, 22, unit);
        let bytes = &frame[..unit.len().saturating_add(24).min(64)];
        let fault = fault_at(22, true, refusal);
        let kind = ether_type!(u16::from_be_bytes(announced));
        is_refused(&rt, name, Start::Ethernet2, bytes, 2, fault, unit, kind);
    }
}
