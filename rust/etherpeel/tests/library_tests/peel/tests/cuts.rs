//! Cuts and extensions of worked examples, by `summary`, `snap` and `missing`.
use super::{equal, fault_at, is_refused, put};
use crate::peel::plain::PlainRefusal;
use crate::peel::test_frames::{NAMED, NESTED, PADDED_ARP, SECOND_TAG_CUT};
use etherpeel::ether_peel::{Peel, PeelError, PeelFault, PeelUnit, RestKind, Start, Summary, snap, summary};
use etherpeel::err::{Layer, LenError};
use etherpeel::{EtherType, LenSource};
use crate::kit::Abort;

/// A start, and a list of bytes.
type Worked = (Start, &'static [u8]);

/// Lists that are accepted, and lists that are refused in each way.
#[rustfmt::skip]
static WORKED: [Worked; 24] = [
    // An Ethernet II header and one byte of IPv4.
    (Start::Ethernet2, &[0xFF, 0xFF, 0xFF, 0xFF, 0xFF, 0xFF, 0x02, 0x00, 0x00, 0x00, 0x00, 0x01, 0x08, 0x00, 0x45]),
    // Nothing.
    (Start::Ethernet2, &[]),
    // An Ethernet II header cut short.
    (Start::Ethernet2, &[0xFF, 0xFF, 0xFF, 0xFF, 0xFF, 0xFF, 0x02, 0x00, 0x00, 0x00, 0x00, 0x01, 0x81]),
    // A VLAN tag.
    (Start::Ethernet2, &[0xFF, 0xFF, 0xFF, 0xFF, 0xFF, 0xFF, 0x02, 0x00, 0x00, 0x00, 0x00, 0x01, 0x81, 0x00, 0xB1, 0x23, 0x08, 0x00]),
    // A second VLAN tag cut short.
    (Start::Ethernet2, &[0xFF, 0xFF, 0xFF, 0xFF, 0xFF, 0xFF, 0x02, 0x00, 0x00, 0x00, 0x00, 0x01, 0x88, 0xA8, 0x00, 0x01, 0x81, 0x00, 0x00, 0x02]),
    // A named MACsec payload cut short.
    (Start::EtherType(EtherType::MACSEC), &[0x00, 0x06, 0x00, 0x00, 0x00, 0x01, 0x81, 0x00, 0xAA, 0xBB]),
    // A VLAN tag in a closed MACsec window, and 2 bytes after it.
    (Start::EtherType(EtherType::MACSEC), &[0x00, 0x06, 0x00, 0x00, 0x00, 0x01, 0x81, 0x00, 0xAA, 0xBB, 0xCC, 0xDD, 0xEE, 0xEE]),
    // A VLAN tag cut short in a closed MACsec window.
    (Start::EtherType(EtherType::MACSEC), &[0x00, 0x04, 0x00, 0x00, 0x00, 0x01, 0x81, 0x00, 0xAA, 0xBB, 0xCC, 0xDD]),
    // A short length without room for the ether type.
    (Start::EtherType(EtherType::MACSEC), &[0x00, 0x01, 0x00, 0x00, 0x00, 0x00]),
    // A SecTag of version 1 cut short.
    (Start::EtherType(EtherType::MACSEC), &[0x80, 0x00, 0x00, 0x00, 0x00]),
    // A SecTag of version 1.
    (Start::EtherType(EtherType::MACSEC), &[0x80, 0x00, 0x00, 0x00, 0x00, 0x00]),
    // An encrypted payload of one byte, and one after it.
    (Start::EtherType(EtherType::MACSEC), &[0x0C, 0x01, 0x00, 0x00, 0x00, 0x01, 0xAA, 0xBB]),
    // A SecTag with an SCI and a payload of unknown length.
    (Start::EtherType(EtherType::MACSEC), &[0x2C, 0xC0, 0x00, 0x00, 0x00, 0x01, 0x00, 0x11, 0x22, 0x33, 0x44, 0x55, 0x66, 0x77, 0x99]),
    // A SecTag cut short in its ether type.
    (Start::EtherType(EtherType::MACSEC), &[0x00, 0x06, 0x00, 0x00, 0x00, 0x01, 0x81]),
    // A cooked capture of an 802.3 frame.
    (Start::LinuxSll, &[0x00, 0x00, 0x00, 0x01, 0x00, 0xFF, 0x02, 0x00, 0x00, 0x00, 0x00, 0x01, 0x00, 0x00, 0x00, 0x01]),
    // A cooked capture with an unknown packet type.
    (Start::LinuxSll, &[0x00, 0x08, 0x00, 0x01, 0x00, 0xFF, 0x02, 0x00, 0x00, 0x00, 0x00, 0x01, 0x00, 0x00, 0x00, 0x01]),
    // A cooked capture of a GRE tunnel.
    (Start::LinuxSll, &[0x00, 0x00, 0x03, 0x0A, 0x00, 0x00, 0x00, 0x00, 0x00, 0x00, 0x00, 0x00, 0x00, 0x00, 0x08, 0x00]),
    // A cooked capture of an unknown hardware type.
    (Start::LinuxSll, &[0x00, 0x00, 0x01, 0x01, 0x00, 0x00, 0x00, 0x00, 0x00, 0x00, 0x00, 0x00, 0x00, 0x00, 0x08, 0x00]),
    // An ARP packet cut short.
    (Start::EtherType(EtherType::ARP), &[0x00, 0x01, 0x08, 0x00, 0x06, 0x04, 0x00, 0x01]),
    // An ARP packet without addresses.
    (Start::EtherType(EtherType::ARP), &[0x00, 0x01, 0x08, 0x00, 0x00, 0x00, 0x00, 0x01]),
    // An ARP request in Ethernet II with padding.
    (Start::Ethernet2, &[0xFF, 0xFF, 0xFF, 0xFF, 0xFF, 0xFF, 0x02, 0x00, 0x00, 0x00, 0x00, 0x01, 0x08, 0x06, 0x00, 0x01, 0x08, 0x00, 0x06, 0x04, 0x00, 0x01, 0x02, 0x00, 0x00, 0x00, 0x00, 0x01, 0x0A, 0x00, 0x00, 0x01, 0x00, 0x00, 0x00, 0x00, 0x00, 0x00, 0x0A, 0x00, 0x00, 0x02, 0x00, 0x00, 0x00, 0x00, 0x00, 0x00, 0x00, 0x00, 0x00, 0x00, 0x00, 0x00, 0x00, 0x00, 0x00, 0x00, 0x00, 0x00]),
    // A frame with a check sequence cut short.
    (Start::Ethernet2Fcs, &[0xFF, 0xFF, 0xFF, 0xFF, 0xFF, 0xFF, 0x02, 0x00, 0x00, 0x00, 0x00, 0x01, 0x08, 0x00, 0x11, 0x22, 0x33]),
    // A frame with a check sequence.
    (Start::Ethernet2Fcs, &[0xFF, 0xFF, 0xFF, 0xFF, 0xFF, 0xFF, 0x02, 0x00, 0x00, 0x00, 0x00, 0x01, 0x08, 0x00, 0x11, 0x22, 0x33, 0x44]),
    // Nothing after the ether type of IPv4.
    (Start::EtherType(EtherType::IPV4), &[]),
];

const MACSEC: Start = Start::EtherType(EtherType::MACSEC);

const ARP: Start = Start::EtherType(EtherType::ARP);

fn len_error(required_len: usize, len: usize, layer: Layer, at: usize) -> LenError {
    LenError {
        required_len,
        len,
        len_source: LenSource::Slice,
        layer,
        layer_start_offset: at,
    }
}

/// The fault of a length in an open window.
fn open(error: LenError) -> Option<PeelFault> {
    Some(PeelFault {
        offset: error.layer_start_offset,
        error: PeelError::Len(error),
        closed: false,
    })
}

#[test]
fn a_cut_is_the_summary_of_the_first_bytes() {
    let rt = crate::kit::HostRuntime;
    for &(start, list) in &WORKED {
        for n in 0..=list.len() {
            let first = summary(start, &list[..n]);
            equal!(rt, format_args!("{n} bytes of {list:?}"); snap(start, list, n) => first);
        }
    }
}

/// A cut in an ARP packet of `required_len` bytes that begins at `at`: `len` bytes are left.
fn cut_arp(required_len: usize, len: usize, at: usize) -> Option<PeelFault> {
    if len < 8 {
        return open(len_error(8, len, Layer::Arp, at));
    }
    open(LenError {
        len_source: LenSource::ArpAddrLengths,
        ..len_error(required_len, len, Layer::Arp, at)
    })
}

/// Every cut of a VLAN tag in a closed MACsec window.
#[test]
fn every_cut_of_a_closed_window_names_its_fault() {
    let rt = crate::kit::HostRuntime;
    for n in 0..=14 {
        let named = LenError {
            len_source: LenSource::MacsecShortLength,
            ..len_error(12, n, Layer::MacsecPacket, 0)
        };
        let (units, (rest_start, rest_end), number, fault) = match n {
            0..6 => (
                0,
                (0, n),
                0x88E5,
                open(len_error(6, n, Layer::MacsecHeader, 0)),
            ),
            6..8 => (
                0,
                (0, n),
                0x88E5,
                open(len_error(8, n, Layer::MacsecHeader, 0)),
            ),
            8..12 => (0, (0, n), 0x88E5, open(named)),
            _ => (2, (12, 12), 0xCCDD, None),
        };
        let wanted = Summary {
            units,
            rest_start,
            rest_end,
            kind: RestKind::EtherType(EtherType(number)),
            fault,
        };
        equal!(rt, format_args!("{n} bytes"); snap(MACSEC, &NAMED, n) => wanted);
    }
}

/// Every cut of a frame after the place at which an ARP packet of `required_len` bytes begins.
fn cuts_of_arp(
    rt: &impl Abort,
    start: Start,
    frame: &[u8],
    at: usize,
    before: usize,
    required_len: usize,
) {
    for n in at..=frame.len() {
        let (cut, first) = (snap(start, frame, n), summary(start, &frame[..n]));
        let len = n.saturating_sub(at);
        let (units, rest_start, kind, fault) = if len < required_len {
            let kind = RestKind::EtherType(EtherType::ARP);
            (before, at, kind, cut_arp(required_len, len, at))
        } else {
            let end = at.saturating_add(required_len);
            (before.saturating_add(1), end, RestKind::AfterArp, None)
        };
        let wanted = Summary {
            units,
            rest_start,
            rest_end: n,
            kind,
            fault,
        };
        equal!(rt, format_args!("{n} bytes");
            cut => wanted,
            cut => first,
        );
    }
}

/// Every cut of an ARP request with padding, and of the greatest ARP packet.
#[test]
fn every_cut_of_an_arp_packet_names_its_fault() {
    let rt = crate::kit::HostRuntime;
    cuts_of_arp(&rt, Start::Ethernet2, &PADDED_ARP, 14, 1, 28);
    let mut greatest = [0; 1030];
    put(
        &mut greatest,
        0,
        &[0x00, 0x01, 0x08, 0x00, 0xFF, 0xFF, 0x00, 0x01],
    );
    cuts_of_arp(&rt, ARP, &greatest, 0, 0, 1028);
}

/// Where the payload of each of four SecTags begins, and its length.
static WINDOWS: [(usize, usize); 4] = [(8, 24), (16, 16), (24, 8), (32, 0)];

#[test]
fn nested_closed_windows_bound_what_is_left() {
    let rt = crate::kit::HostRuntime;
    let mut peel = Peel::new(MACSEC, &NESTED);
    for &(start, len) in &WINDOWS {
        let is_tag = matches!(peel.next(), Some(Ok(PeelUnit::Macsec(_))));
        equal!(rt, format_args!("at byte {start}");
            is_tag => true,
            peel.offset() => start,
            peel.rest().len() => len,
            peel.closed() => true,
        );
    }
    let whole = Summary {
        units: 4,
        rest_start: 32,
        rest_end: 32,
        kind: RestKind::EtherType(EtherType(0x0800)),
        fault: None,
    };
    equal!(rt, "no more";
        peel.next().is_none() => true,
        summary(MACSEC, &NESTED) => whole,
    );
}

/// The place of a byte of the nested tags, what replaces it, the number of units before the fault, the fault's window,
/// and why it is refused.
type Changed = (&'static str, usize, u8, usize, (usize, usize), PlainRefusal);

/// A payload longer than its window.
macro_rules! longer {
    ($required_len:expr, $len:expr $(,)?) => {
        too_short!($required_len, $len, LenSource::MacsecShortLength, Layer::MacsecPacket)
    };
}

#[rustfmt::skip]
static CHANGED: [Changed; 3] = [
    ("a payload longer than the window", 25, 0x03, 3, (24, 32), longer!(9, 8)),
    ("no room for the ether type", 25, 0x01, 3, (24, 32), PlainRefusal::ShortLen),
    ("a payload longer than a window in a window", 9, 0x11, 2, (16, 31), longer!(16, 15)),
];

/// The nested tags in which a byte was replaced have the same fault, whether bytes follow them or not.
#[test]
fn bytes_after_a_closed_window_change_nothing() {
    let rt = crate::kit::HostRuntime;
    for &(name, place, byte, units, (start, end), refusal) in &CHANGED {
        let mut bytes = [0xFF; 1032];
        put(&mut bytes, 0, &NESTED);
        put(&mut bytes, place, &[byte]);
        let rest = bytes.get(start..end).unwrap_or(&[]);
        for len in [32, 33, 64, 1032] {
            let fault = fault_at(start, true, refusal);
            is_refused(
                &rt,
                name,
                MACSEC,
                &bytes[..len],
                units,
                fault,
                rest,
                ether_type!(0x88E5),
            );
        }
    }
}

/// A tag, and the first three bytes of a second one.
const WITH_08: [u8; 21] = [
    0xFF, 0xFF, 0xFF, 0xFF, 0xFF, 0xFF, 2, 0, 0, 0, 0, 1, 0x88, 0xA8, 0x00, 0x01, 0x81, 0x00, 0x00,
    0x02, 0x08,
];

/// A frame, how many of its first bytes are there, and how many are missing.
#[rustfmt::skip]
static MISSING: [(&str, Start, &[u8], usize, Option<usize>); 11] = [
    ("an Ethernet header", Start::Ethernet2, &[], 0, Some(14)),
    ("a named payload", MACSEC, &NAMED, 10, Some(2)),
    ("its last byte", MACSEC, &NAMED, 11, Some(1)),
    ("nothing in a closed window", MACSEC, &[0x00, 0x04, 0, 0, 0, 1, 0x81, 0x00, 0xAA, 0xBB, 0xCC, 0xDD], 12, None),
    ("a SecTag of version 1", MACSEC, &[0x80, 0, 0, 0, 0], 5, Some(1)),
    ("nothing of a content", MACSEC, &[0x80, 0, 0, 0, 0, 0], 6, None),
    ("the addresses of an ARP packet", ARP, &[0, 1, 8, 0, 6, 4, 0, 1], 8, Some(20)),
    ("nothing before a check sequence", Start::Ethernet2Fcs, &PADDED_ARP, 17, None),
    ("nothing of an accepted frame", Start::Ethernet2, &PADDED_ARP, 60, None),
    ("the second of two tags", Start::Ethernet2, &SECOND_TAG_CUT, 20, Some(2)),
    ("its last byte", Start::Ethernet2, &WITH_08, 21, Some(1)),
];

#[test]
fn a_cut_frame_names_the_missing_bytes() {
    let rt = crate::kit::HostRuntime;
    for &(name, start, list, len, wanted) in &MISSING {
        let found = summary(start, list.get(..len).unwrap_or(&[]));
        let missing = found.fault.as_ref().and_then(|fault| fault.missing());
        equal!(rt, name; missing => wanted);
    }
}

/// The required length, the length, whether the window is closed, and the number of missing bytes.
static LENS: [(&str, usize, usize, bool, Option<usize>); 4] = [
    ("too many bytes", 3, 5, false, None),
    ("just enough", 5, 5, false, None),
    ("too few in a closed window", 5, 3, true, None),
    ("too few", 5, 3, false, Some(2)),
];

#[test]
fn only_an_open_fault_names_missing_bytes() {
    let rt = crate::kit::HostRuntime;
    for &(name, required_len, len, closed, wanted) in &LENS {
        let fault = PeelFault {
            offset: 0,
            error: PeelError::Len(len_error(required_len, len, Layer::Arp, 0)),
            closed,
        };
        equal!(rt, name; fault.missing() => wanted);
    }
}

#[test]
fn an_open_refusal_waits_for_its_length() {
    let rt = crate::kit::HostRuntime;
    let mut frame = [
        0xFF, 0xFF, 0xFF, 0xFF, 0xFF, 0xFF, 2, 0, 0, 0, 0, 1, 0x88, 0xA8, 0x00, 0x01, 0x81, 0x00,
        0x00, 0x02, 0x08, 0x00,
    ];
    let waiting = open(len_error(4, 3, Layer::VlanHeader, 18));
    let found = summary(Start::Ethernet2, &frame[..21]).fault;
    let first = summary(Start::Ethernet2, &frame);
    frame[20] = 0x86;
    let second = summary(Start::Ethernet2, &frame);
    let whole = |number| Summary {
        units: 3,
        rest_start: 22,
        rest_end: 22,
        kind: RestKind::EtherType(EtherType(number)),
        fault: None,
    };
    equal!(rt, "a tag";
        found => waiting,
        first => whole(0x0800),
        second => whole(0x8600),
    );
}
