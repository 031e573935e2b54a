//! Frames that were cut short, and the bytes that complete them.
use super::{equal, kind_of, put};
use crate::peel::plain::PlainKind;
use crate::peel::test_frames::{
    ADDRESSES, ARP_REQUEST, CHECKED, NAMED, PACKET, SEALED, SECOND_TAG_CUT, TAGGED,
};
use etherpeel::ether_peel::{Peel, RestKind, Start, Summary, completion, summary};
use etherpeel::EtherType;
use crate::kit::Fail;

const MACSEC: Start = Start::EtherType(EtherType::MACSEC);

const ARP: Start = Start::EtherType(EtherType::ARP);

/// What announces the rest of a frame followed by these bytes, or nothing if the frame is refused.
fn kind_after(start: Start, frame: &[u8], fill: &[u8]) -> Option<RestKind> {
    let mut bytes = [0; 1100];
    put(&mut bytes, 0, frame);
    put(&mut bytes, frame.len(), fill);
    let len = frame.len().saturating_add(fill.len()).min(1100);
    let found = summary(start, &bytes[..len]);
    match found.fault {
        None => Some(found.kind),
        Some(_) => None,
    }
}

/// A frame, how many bytes complete it, the first of these (all others are 0), and the kind of the rest after them.
struct Completed {
    start: Start,
    frame: &'static [u8],
    first: u8,
    len: usize,
    kind: PlainKind,
}

macro_rules! row {
    ($start:expr, $frame:expr, $first:expr, $len:expr, $kind:expr $(,)?) => {
        Completed {
            start: $start,
            frame: $frame,
            first: $first,
            len: $len,
            kind: $kind,
        }
    };
}

const ETH: Start = Start::Ethernet2;

const VLAN: Start = Start::EtherType(EtherType::VLAN_TAGGED_FRAME);

const ZERO: PlainKind = ether_type!(0);

/// An Ethernet II header, and the first bytes of an ARP packet with hardware addresses of one byte and protocol
/// addresses of two.
const EXAMPLE: [u8; 20] = [
    0xFF, 0xFF, 0xFF, 0xFF, 0xFF, 0xFF, 0x02, 0x00, 0x00, 0x00, 0x00, 0x01, 0x08, 0x06, 0x00, 0x01,
    0x08, 0x00, 0x01, 0x02,
];

/// A tag, and three bytes of it.
const NESTED: [u8; 17] = [
    0xFF, 0xFF, 0xFF, 0xFF, 0xFF, 0xFF, 2, 0, 0, 0, 0, 1, 0x81, 0x00, 0x00, 0x02, 0x91,
];

#[rustfmt::skip]
static ROWS: [Completed; 38] = [
    row!(ETH, &EXAMPLE, 0, 8, PlainKind::AfterArp),
    row!(ETH, &[], 0, 14, ZERO),
    row!(ETH, &ADDRESSES, 0, 2, ZERO),
    // addresses that end like an ether type
    row!(ETH, &[0x81; 11], 0, 3, ZERO),
    row!(ETH, &[0x91; 12], 0, 2, ZERO),
    row!(VLAN, &[], 0, 4, ZERO),
    row!(VLAN, &[0x81], 0, 3, ZERO),
    row!(VLAN, &[0x00, 0x81], 0, 2, ZERO),
    row!(VLAN, &[0x00, 0x02, 0x91], 1, 1, ether_type!(0x9101)),
    row!(VLAN, &[0x00, 0x02, 0x88], 0, 1, ether_type!(0x8800)),
    row!(ETH, &NESTED, 1, 1, ether_type!(0x9101)),
    row!(ETH, &SECOND_TAG_CUT, 0, 2, ZERO),
    // with an SCI and an ether type, of unknown length; with an ether type and a payload of four bytes
    row!(MACSEC, &[0x20, 0, 0, 0, 0, 1], 0, 10, ZERO),
    row!(MACSEC, &[0x00, 6, 0, 0, 0, 1], 0, 6, ZERO),
    row!(MACSEC, &[0x00, 6, 0, 0, 0, 1, 0x81], 1, 5, ether_type!(0x8101)),
    row!(MACSEC, &[0x00, 6, 0, 0, 0, 1, 0x88], 0, 5, ether_type!(0x8800)),
    // with an SCI and an encrypted payload of five bytes
    row!(MACSEC, &[0x2C, 5, 0, 0, 0, 1], 0, 13, PlainKind::Sealed),
    row!(MACSEC, &[0x2C, 5, 0, 0, 0, 1, 0x81], 0, 12, PlainKind::Sealed),
    // an SCI whose bytes look like an ether type, and an ether type after it
    row!(MACSEC, &[0x20, 0, 0, 0, 0, 1, 0x81], 0, 9, ZERO),
    row!(MACSEC, &[0x20, 0, 0, 0, 0, 1, 0x81, 0x81, 0x81, 0x81, 0x81, 0x81, 0x81, 0x81], 0, 2, ZERO),
    row!(MACSEC, &[0x20, 0, 0, 0, 0, 1, 0x81, 0x81, 0x81, 0x81, 0x81, 0x81, 0x81, 0x81, 0x91], 1, 1, ether_type!(0x9101)),
    row!(MACSEC, &[0x20, 0, 0, 0, 0, 1, 0x81, 0x81, 0x81, 0x81, 0x81, 0x81, 0x81, 0x81, 0x92], 0, 1, ether_type!(0x9200)),
    // short length 0 names no length, 2 an empty payload, 63 the longest
    row!(MACSEC, &[0x00, 0, 0, 0, 0, 1, 0x08], 0, 1, ether_type!(0x0800)),
    row!(MACSEC, &[0x00, 2, 0, 0, 0, 1], 0, 2, ZERO),
    row!(MACSEC, &[0x00, 63, 0, 0, 0, 1], 0, 63, ZERO),
    row!(MACSEC, &[0x2C, 63, 0, 0, 0, 1], 0, 71, PlainKind::Sealed),
    row!(ARP, &[], 0, 8, PlainKind::AfterArp),
    row!(ARP, &[0x00, 0x01, 0x81], 0, 5, PlainKind::AfterArp),
    row!(ARP, &[0x00, 0x01, 0x08, 0x00], 0, 4, PlainKind::AfterArp),
    row!(ARP, &[0x00, 0x01, 0x08, 0x00, 0x06], 0, 15, PlainKind::AfterArp),
    row!(ARP, &[0x00, 0x01, 0x08, 0x00, 0xFF, 0xFF], 0, 1022, PlainKind::AfterArp),
    row!(ARP, &[0x00, 0x01, 0x08, 0x00, 0x06, 0x04, 0x00], 0, 21, PlainKind::AfterArp),
    row!(ARP, &[0x00, 0x01, 0x08, 0x00, 0x06, 0x04, 0x00, 0x01], 0, 20, PlainKind::AfterArp),
    // ether types that begin with a byte after two addresses; a zero would make 81 and 91 announce a tag
    row!(ETH, &[0xFF, 0xFF, 0xFF, 0xFF, 0xFF, 0xFF, 2, 0, 0, 0, 0, 1, 0x88], 0, 1, ether_type!(0x8800)),
    row!(ETH, &[0xFF, 0xFF, 0xFF, 0xFF, 0xFF, 0xFF, 2, 0, 0, 0, 0, 1, 0x08], 0, 1, ether_type!(0x0800)),
    row!(ETH, &[0xFF, 0xFF, 0xFF, 0xFF, 0xFF, 0xFF, 2, 0, 0, 0, 0, 1, 0x81], 1, 1, ether_type!(0x8101)),
    row!(ETH, &[0xFF, 0xFF, 0xFF, 0xFF, 0xFF, 0xFF, 2, 0, 0, 0, 0, 1, 0x91], 1, 1, ether_type!(0x9101)),
    row!(ETH, &[0xFF, 0xFF, 0xFF, 0xFF, 0xFF, 0xFF, 2, 0, 0, 0, 0, 1, 0x90], 0, 1, ether_type!(0x9000)),
];

/// The bytes of each row complete its frame.
#[test]
fn the_planned_bytes_complete_a_frame() -> Result<(), Fail> {
    let rt = crate::kit::HostRuntime;
    for row in &ROWS {
        let fill = completion(row.start, row.frame).ok_or("bytes that complete it")?;
        let fill = fill.as_slice();
        let first = fill.first().copied();
        let is_zero = fill.iter().skip(1).all(|byte| *byte == 0);
        let kind = kind_after(row.start, row.frame, fill);
        equal!(rt, format_args!("{:?} {:?}", row.start, row.frame);
            fill.len() => row.len,
            first => Some(row.first),
            is_zero => true,
            kind => Some(kind_of(row.kind)),
        );
    }
    Ok(())
}

#[test]
fn a_walk_ends_at_a_sealed_payload() {
    let rt = crate::kit::HostRuntime;
    let mut bytes = [0; 19];
    bytes[0] = 0x2C;
    bytes[1] = 5;
    bytes[5] = 1;
    let found = summary(MACSEC, &bytes);
    let wanted = Summary {
        units: 1,
        rest_start: 14,
        rest_end: 19,
        kind: RestKind::Sealed,
        fault: None,
    };
    let mut peel = Peel::new(MACSEC, &bytes);
    let is_unit = matches!(peel.next(), Some(Ok(_)));
    equal!(rt, "a sealed payload of five bytes";
        found => wanted,
        is_unit => true,
        peel.closed() => true,
    );
}

/// A frame, and how many of its first bytes are there.
#[rustfmt::skip]
static INCOMPLETE: [(&str, Start, &[u8], usize); 16] = [
    ("no byte of IPv4", Start::EtherType(EtherType::IPV4), &[], 0),
    ("an accepted frame", ETH, &PACKET, 15),
    ("an accepted tag", ETH, &TAGGED, 18),
    ("an accepted SecTag", MACSEC, &NAMED, 14),
    ("an accepted encrypted payload", MACSEC, &SEALED, 15),
    ("an accepted ARP packet", ARP, &ARP_REQUEST, 28),
    ("no byte of a cooked capture", Start::LinuxSll, &[], 0),
    ("a cooked capture", Start::LinuxSll, &[0; 15], 15),
    ("a payload that is cut short", MACSEC, &[0, 6, 0, 0, 0, 1, 0x81, 0x00, 0xAA, 0xBB], 10),
    ("a tag in a closed window", MACSEC, &[0, 4, 0, 0, 0, 1, 0x81, 0x00, 0xAA, 0xBB, 0xCC, 0xDD], 12),
    ("no room for the ether type", MACSEC, &[0, 1, 0, 0, 0, 0], 6),
    ("no byte of a SecTag", MACSEC, &[], 0),
    ("less than six bytes of a SecTag", MACSEC, &[0x80, 0, 0, 0, 0], 5),
    ("another version", MACSEC, &[0x80, 0, 0, 0, 0, 0], 6),
    ("a check sequence that is cut", Start::Ethernet2Fcs, &CHECKED, 17),
    ("a check sequence", Start::Ethernet2Fcs, &CHECKED, 18),
];

#[test]
fn frames_that_no_bytes_complete_have_no_completion() {
    let rt = crate::kit::HostRuntime;
    for &(name, start, frame, len) in &INCOMPLETE {
        let found = completion(start, frame.get(..len).unwrap_or(&[]));
        equal!(rt, name; found.is_none() => true);
    }
}
