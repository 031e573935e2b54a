//! The examples of walks and summaries, units that outlive the walker, what bounds a window, and the greatest number
//! of calls.
use super::{equal, shown};
use crate::peel::test_frames::{NAMED, TAGGED};
use etherpeel::ether_peel::{Peel, PeelUnit, RestKind, Start, Summary, snap, summary};
use etherpeel::{EtherType, LenSource};

const IPV4: RestKind = RestKind::EtherType(EtherType::IPV4);

/// An Ethernet II header, a VLAN tag and the first byte of an IPv4 packet.
const EXAMPLE: [u8; 19] = [
    0xFF, 0xFF, 0xFF, 0xFF, 0xFF, 0xFF, 0x02, 0x00, 0x00, 0x00, 0x00, 0x01, 0x81, 0x00, 0xB1, 0x23,
    0x08, 0x00, 0x45,
];

#[test]
fn a_summary_agrees_with_its_walk() {
    let rt = crate::kit::HostRuntime;
    let mut vlan_id = 0;
    let mut peel = Peel::new(Start::Ethernet2, &EXAMPLE);
    while let Some(Ok(unit)) = peel.next() {
        if let PeelUnit::Vlan(tag) = unit {
            vlan_id = tag.vlan_identifier().value();
        }
    }
    let whole = Summary {
        units: 2,
        rest_start: 18,
        rest_end: 19,
        kind: IPV4,
        fault: None,
    };
    let cut = snap(Start::Ethernet2, &EXAMPLE[..18], 16);
    let missing = cut.fault.as_ref().and_then(|fault| fault.missing());
    equal!(rt, "a frame with a tag";
        vlan_id => 0x123,
        peel.offset() => 18,
        peel.kind() => IPV4,
        peel.rest() => [0x45].as_slice(),
        summary(Start::Ethernet2, &EXAMPLE) => whole,
        cut.units => 1,
        missing => Some(2),
    );
}

#[test]
fn units_outlive_the_walker() {
    let rt = crate::kit::HostRuntime;
    let mut peel = Peel::new(Start::Ethernet2, &TAGGED);
    let (Some(Ok(frame)), Some(Ok(tag))) = (peel.next(), peel.next()) else {
        panic!("two units");
    };
    let rest = peel.rest();
    drop(peel);
    equal!(rt, "a frame with a tag";
        shown(&frame) => broadcast!(0x8100),
        shown(&tag) => vlan!(5, 1, 0x123, 0x0800),
        rest => [].as_slice(),
    );
}

/// SecTags with a payload of known and of unknown length, and the source of the length of what is left after each.
static BOUNDS: [(&str, &[u8], LenSource); 2] = [
    ("a named payload", &NAMED, LenSource::MacsecShortLength),
    (
        "an unnamed payload",
        &[0x00, 0x00, 0x00, 0x00, 0x00, 0x01, 0x81, 0x00, 0xAA],
        LenSource::Slice,
    ),
];

/// What bounds the window that is left, after each unit.
#[test]
fn a_payload_length_bounds_what_is_left() {
    let rt = crate::kit::HostRuntime;
    for &(name, frame, source) in &BOUNDS {
        let mut peel = Peel::new(with_type!(0x88E5), frame);
        let first = peel.bound();
        peel.next();
        let second = peel.bound();
        peel.next();
        equal!(rt, name; [first, second, peel.bound()] => [LenSource::Slice, source, source]);
    }
}

/// A walk through tags that ends in one cut short takes the greatest number of calls that its length allows.
#[test]
fn each_call_of_a_walk_takes_four_bytes_but_the_last() {
    let rt = crate::kit::HostRuntime;
    let cut = [0, 0, 0x81, 0, 0, 0, 0x81, 0, 0, 0, 0x81, 0, 0];
    for len in 0..=cut.len() {
        let peel = Peel::new(with_type!(0x8100), &cut[..len]);
        equal!(rt, format_args!("{len} bytes"); peel.count() => len / 4 + 1);
    }
}
