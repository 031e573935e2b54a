//! Frames written back to targets that are long enough or too short.
use super::{equal, put};
use crate::peel::test_frames::{CHECKED, PADDED_ARP, SEALED};
use etherpeel::ether_peel::{Start, write_back};
use etherpeel::err::{Layer, SliceWriteSpaceError};

/// What a target holds before it is written to.
const OLD: u8 = 0x55;

/// A SecTag with a reserved bit set, which names four bytes of payload: a VLAN tag. Two bytes follow it.
const TAG_IN_A_CLOSED_WINDOW: [u8; 14] = [
    0x00, 0x46, 0x00, 0x00, 0x00, 0x01, 0x81, 0x00, 0xAA, 0xBB, 0xCC, 0xDD, 0xEE, 0xEE,
];

/// The example as it is written: without its reserved bit, and up to the end of the last window.
const CLEARED: [u8; 12] = [
    0x00, 0x06, 0x00, 0x00, 0x00, 0x01, 0x81, 0x00, 0xAA, 0xBB, 0xCC, 0xDD,
];

/// A VLAN tag that a closed window cuts short.
const CUT: [u8; 12] = [
    0x00, 0x04, 0x00, 0x00, 0x00, 0x01, 0x81, 0x00, 0xAA, 0xBB, 0xCC, 0xDD,
];

/// [`SEALED`] without its reserved bits.
const SEALED_CLEARED: [u8; 15] = [
    0x2C, 0x00, 0x00, 0x00, 0x00, 0x01, 0x00, 0x11, 0x22, 0x33, 0x44, 0x55, 0x66, 0x77, 0x99,
];

const TWO_TAGS: [u8; 24] = [
    0xFF, 0xFF, 0xFF, 0xFF, 0xFF, 0xFF, 0x02, 0x00, 0x00, 0x00, 0x00, 0x01, 0x88, 0xA8, // Ethernet II
    0x00, 0x01, 0x81, 0x00, // VLAN
    0xB1, 0x23, 0x08, 0x00, // VLAN
    0x45, 0x00,
];

/// The header says that the sender's address has 255 bytes, though it holds only 8.
const LONG_ADDRESS: [u8; 17] = [
    0x00, 0x00, 0x00, 0x01, 0x00, 0xFF, 0x02, 0x00, 0x00, 0x00, 0x00, 0x01, 0x00, 0x00, 0x00, 0x01,
    0x45,
];

const ETH: Start = Start::Ethernet2;

const MACSEC: Start = with_type!(0x88E5);

/// A frame, the length of its target, and the bytes that are written to the front of the target, with their number.
type Row = (
    &'static str,
    Start,
    &'static [u8],
    usize,
    &'static [u8],
    usize,
);

#[rustfmt::skip]
static ROWS: [Row; 11] = [
    ("the example", MACSEC, &TAG_IN_A_CLOSED_WINDOW, 13, &CLEARED, 12),
    ("what follows a closed window is not written", MACSEC, &TAG_IN_A_CLOSED_WINDOW, 14, &CLEARED, 12),
    ("just the room that is required", MACSEC, &TAG_IN_A_CLOSED_WINDOW, 12, &CLEARED, 12),
    ("a VLAN tag cut short by a closed window", MACSEC, &CUT, 12, &CUT, 10),
    ("a frame that is refused at once", ETH, &[0xFF; 13], 14, &[0xFF; 13], 13),
    ("a check sequence is not written", Start::Ethernet2Fcs, &CHECKED, 18, &CHECKED, 14),
    ("the reserved bits are cleared", MACSEC, &SEALED, 15, &SEALED_CLEARED, 15),
    ("an ARP packet and its padding", ETH, &PADDED_ARP, 60, &PADDED_ARP, 60),
    ("two VLAN tags and a payload", ETH, &TWO_TAGS, 24, &TWO_TAGS, 24),
    ("a long address", Start::LinuxSll, &LONG_ADDRESS, 17, &LONG_ADDRESS, 17),
    ("no byte of IPv4", with_type!(0x0800), &[], 0, &[], 0),
];

#[test]
fn headers_are_written_back_before_the_rest() {
    let rt = crate::kit::HostRuntime;
    for &(name, start, frame, room, wanted, len) in &ROWS {
        let (mut target, mut after) = ([OLD; 64], [OLD; 64]);
        let end = write_back(start, frame, &mut target[..room.min(64)]).ok();
        put(&mut after, 0, wanted.get(..len).unwrap_or(&[]));
        equal!(rt, name;
            end => Some(len),
            target => after,
        );
    }
}

#[test]
fn a_target_that_is_a_byte_too_short_is_unchanged() {
    let rt = crate::kit::HostRuntime;
    let mut target = [OLD; 11];
    let result = write_back(with_type!(0x88E5), &TAG_IN_A_CLOSED_WINDOW, &mut target);
    let error = SliceWriteSpaceError {
        required_len: 12,
        len: 11,
        layer: Layer::EtherPayload,
        layer_start_offset: 0,
    };
    equal!(rt, "eleven bytes";
        result => Err(error),
        target => [OLD; 11],
    );
}
