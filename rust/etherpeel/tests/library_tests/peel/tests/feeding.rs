//! What a walk that receives a frame piece by piece asks for.
use super::{equal, fault_at};
use crate::peel::plain::PlainRefusal;
use crate::peel::test_frames::{CHECKED, NAMED, NESTED, PADDED_ARP, SECOND_TAG_CUT};
use etherpeel::ether_peel::{Feed, Start, feed};
use etherpeel::LenSource;
use etherpeel::err::Layer;

const ETH: Start = Start::Ethernet2;

const MACSEC: Start = with_type!(0x88E5);

const EXAMPLE: [u8; 19] = [
    0xFF, 0xFF, 0xFF, 0xFF, 0xFF, 0xFF, 0x02, 0x00, 0x00, 0x00, 0x00, 0x01, 0x81, 0x00, 0xB1, 0x23,
    0x08, 0x00, 0x45,
];

const SEC_TAG: [u8; 28] = [
    0xFF, 0xFF, 0xFF, 0xFF, 0xFF, 0xFF, 0x02, 0x00, 0x00, 0x00, 0x00, 0x01, 0x88, 0xE5, 0x00, 0x06,
    0x00, 0x00, 0x00, 0x01, 0x81, 0x00, 0xAA, 0xBB, 0xCC, 0xDD, 0xEE, 0xEE,
];

/// A tag cut short in a closed window.
const CLOSED: [u8; 12] = [
    0x00, 0x04, 0x00, 0x00, 0x00, 0x01, 0x81, 0x00, 0xAA, 0xBB, 0xCC, 0xDD,
];

const SLICE: LenSource = LenSource::Slice;

/// A frame, how often bytes are asked for and how many, and of the fault the offset, whether its window is closed, and
/// the reason.
type Row = (
    &'static str,
    Start,
    &'static [u8],
    usize,
    usize,
    Option<(usize, bool, PlainRefusal)>,
);

#[rustfmt::skip]
static ROWS: [Row; 11] = [
    ("the example", ETH, &EXAMPLE, 2, 18, None),
    // 14, 20, 22 and 26 bytes: the Ethernet header, the SecTag's first six bytes, its ether type, and the payload that
    // it names
    ("a SecTag with its payload", ETH, &SEC_TAG, 4, 26, None),
    ("after the ether type of MACsec", MACSEC, &NAMED, 3, 12, None),
    ("a tag that is cut short", ETH, &SECOND_TAG_CUT, 2, 18, Some((18, false, too_short!(4, 0, SLICE, Layer::VlanHeader)))),
    ("an ARP request with padding", ETH, &PADDED_ARP, 3, 42, None),
    ("a tag cut short in a closed window", MACSEC, &CLOSED, 3, 10, Some((8, true, too_short!(4, 2, LenSource::MacsecShortLength, Layer::VlanHeader)))),
    ("nothing in a closed window", MACSEC, &NESTED, 3, 32, None),
    ("a content that is refused", MACSEC, &[0x80, 0, 0, 0, 0, 0], 1, 6, Some((0, false, PlainRefusal::Version))),
    ("a check sequence", Start::Ethernet2Fcs, &CHECKED, 0, 0, Some((0, true, too_short!(18, 0, SLICE, Layer::Ethernet2Header)))),
    ("no byte of IPv4", with_type!(0x0800), &[], 0, 0, None),
    ("no byte of Ethernet", ETH, &[], 0, 0, Some((0, false, too_short!(14, 0, SLICE, Layer::Ethernet2Header)))),
];

#[test]
fn feeding_counts_the_refusals_and_takes_the_bytes_asked_for() {
    let rt = crate::kit::HostRuntime;
    for &(name, start, frame, refusals, taken, fault) in &ROWS {
        let expected = Feed {
            refusals,
            taken,
            fault: fault.map(|(offset, closed, refusal)| fault_at(offset, closed, refusal)),
        };
        equal!(rt, name; feed(start, frame) => expected);
    }
}
