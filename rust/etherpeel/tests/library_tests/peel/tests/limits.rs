//! Walks that read no more VLAN tags and SecTags than a limit.
use super::limited::{completed, fed, snapped, walker, written};
use super::{Walk, check, equal};
use crate::peel::plain::{PlainHeader, PlainKind};
use crate::peel::test_frames::{
    NAMED, NESTED, PADDED_ARP, SEALED, SECOND_TAG_CUT, TAGGED, TWICE_TAGGED_ARP_REQUEST,
};
use etherpeel::ether_peel::{Feed, PeelUnit, RestKind, Start};
use etherpeel::err::Layer;
use etherpeel::{EtherType, LenSource};

/// A walk with a limit, which ends accepted.
macro_rules! limited {
    ($start:expr, $frame:expr, $limit:expr, $headers:expr, $rest:expr, $kind:expr, $closed:expr $(,)?) => {
        Walk {
            name: "a walk with a limit",
            start: $start,
            limit: Some($limit),
            frame: $frame,
            headers: $headers,
            rest: $rest,
            kind: $kind,
            closed: $closed,
            refusal: None,
        }
    };
}

const ETH: Start = Start::Ethernet2;

const MACSEC: Start = with_type!(0x88E5);

const VLAN: PlainKind = ether_type!(0x8100);

/// The second of the nested tags.
const SECOND: PlainHeader<'static> = PlainHeader::Macsec {
    end_station: 0,
    single_copy_broadcast: 0,
    encrypted: 0,
    changed: 0,
    association_number: 0,
    short_len: 18,
    packet_number: 2,
    sci: None,
    ether_type: Some(0x88E5),
};

const CUT: &[PlainHeader<'static>] = &[broadcast!(0x88A8), vlan!(0, 0, 1, 0x8100)];

/// The second of two tags. The limit allows both to be read.
const SECOND_OF_TWO: Walk = Walk {
    name: "a fault within the limit",
    start: ETH,
    limit: Some(2),
    frame: &SECOND_TAG_CUT,
    headers: CUT,
    rest: (18, 20),
    kind: VLAN,
    closed: false,
    refusal: Some(too_short!(4, 2, LenSource::Slice, Layer::VlanHeader)),
};

/// Who has 10.0.0.2, tell 10.0.0.1.
const ASKED: PlainHeader<'static> = PlainHeader::Arp {
    hardware_type: 1,
    protocol_type: 0x0800,
    operation: 1,
    sender_hardware: &[2, 0, 0, 0, 0, 1],
    sender_protocol: &[10, 0, 0, 1],
    target_hardware: &[0; 6],
    target_protocol: &[10, 0, 0, 2],
};

/// Who has 192.0.2.2, tell 192.0.2.1.
const QUESTION: PlainHeader<'static> = PlainHeader::Arp {
    hardware_type: 1,
    protocol_type: 0x0800,
    operation: 1,
    sender_hardware: &[2, 0, 0x5E, 0x10, 0, 1],
    sender_protocol: &[192, 0, 2, 1],
    target_hardware: &[0; 6],
    target_protocol: &[192, 0, 2, 2],
};

const KERNEL: PlainHeader<'static> = PlainHeader::Ethernet2 {
    destination: 0xFFFF_FFFF_FFFF,
    source: 0x0200_5E10_0001,
    ether_type: 0x88A8,
};

#[rustfmt::skip]
static WALKS: [Walk; 11] = [
    // the Ethernet header doesn't count, nor does an ARP packet
    limited!(ETH, &TAGGED, 0, &[broadcast!(0x8100)], (14, 18), VLAN, false),
    limited!(ETH, &EXAMPLE, 0, &[broadcast!(0x8100)], (14, 19), VLAN, false),
    limited!(ETH, &TAGGED, 1, &[broadcast!(0x8100), vlan!(5, 1, 0x123, 0x0800)], (18, 18), ether_type!(0x0800), false),
    limited!(ETH, &SECOND_TAG_CUT, 1, CUT, (18, 20), VLAN, false),
    SECOND_OF_TWO,
    limited!(MACSEC, &NAMED, 0, &[], (0, 14), ether_type!(0x88E5), false),
    limited!(MACSEC, &NAMED, 1, &[readable!(6, 0x8100)], (8, 12), VLAN, true),
    limited!(MACSEC, &NESTED, 2, &[readable!(26, 0x88E5), SECOND], (16, 32), ether_type!(0x88E5), true),
    limited!(ETH, &PADDED_ARP, 0, &[broadcast!(0x0806), ASKED], (42, 60), PlainKind::AfterArp, false),
    limited!(ETH, &TWICE_TAGGED_ARP_REQUEST, 1, &[KERNEL, vlan!(0, 0, 10, 0x8100)], (18, 50), VLAN, false),
    limited!(ETH, &TWICE_TAGGED_ARP_REQUEST, 2, &[KERNEL, vlan!(0, 0, 10, 0x8100), vlan!(0, 0, 100, 0x0806), QUESTION], (50, 50), PlainKind::AfterArp, false),
];

#[test]
fn a_limited_walk_reads_no_tag_beyond_its_limit() {
    let rt = crate::kit::HostRuntime;
    for walk in &WALKS {
        check(&rt, walk);
    }
}

/// An Ethernet II header and a VLAN tag, and a byte after them, as in the examples of the calls.
const EXAMPLE: [u8; 19] = [
    0xFF, 0xFF, 0xFF, 0xFF, 0xFF, 0xFF, 0x02, 0x00, 0x00, 0x00, 0x00, 0x01, 0x81, 0x00, 0xB1, 0x23,
    0x08, 0x00, 0x45,
];

#[test]
fn a_tag_beyond_the_limit_is_left_over() {
    let rt = crate::kit::HostRuntime;
    let tags = [0x00, 0x01, 0x81, 0x00, 0x00, 0x02, 0x08, 0x00, 0x45];
    let mut peel = walker(
        Start::EtherType(EtherType::PROVIDER_BRIDGING),
        &tags,
        Some(1),
    );
    let is_tag = matches!(peel.next(), Some(Ok(PeelUnit::Vlan(_))));
    let is_over = peel.next().is_none();
    equal!(rt, "a tag after a tag";
        is_tag => true,
        is_over => true,
        peel.offset() => 4,
        peel.kind() => RestKind::EtherType(EtherType::VLAN_TAGGED_FRAME),
    );
    let missing = [0, 1].map(|limit| {
        let found = snapped(Start::Ethernet2, &EXAMPLE, 16, Some(limit));
        found.fault.as_ref().and_then(|fault| fault.missing())
    });
    equal!(rt, "a cut"; missing => [None, Some(2)]);
}

/// An Ethernet II header and a SecTag with its payload, and two bytes after it.
const IN_SEC_TAG: [u8; 28] = [
    0xFF, 0xFF, 0xFF, 0xFF, 0xFF, 0xFF, 2, 0, 0, 0, 0, 1, 0x88, 0xE5, // Ethernet II
    0x00, 0x06, 0x00, 0x00, 0x00, 0x01, 0x81, 0x00, // SecTag
    0xAA, 0xBB, 0xCC, 0xDD, 0xEE, 0xEE,
];

/// A frame, the limit, how often bytes are asked for, and how many.
static FEEDS: [(&str, &[u8], usize, usize, usize); 3] = [
    ("a SecTag beyond the limit", &IN_SEC_TAG, 0, 1, 14),
    ("a SecTag within the limit", &IN_SEC_TAG, 1, 4, 26),
    ("a VLAN tag beyond the limit", &EXAMPLE, 0, 1, 14),
];

#[test]
fn no_byte_of_a_tag_beyond_the_limit_is_asked_for() {
    let rt = crate::kit::HostRuntime;
    for &(name, frame, limit, refusals, taken) in &FEEDS {
        let expected = Feed {
            refusals,
            taken,
            fault: None,
        };
        let found = fed(Start::Ethernet2, frame, Some(limit));
        equal!(rt, name; found => expected);
    }
}

#[test]
fn a_tag_beyond_the_limit_is_written_as_it_is() {
    let rt = crate::kit::HostRuntime;
    let mut cleared = SEALED;
    cleared[1] = 0;
    let found = [0, 1].map(|limit| {
        let mut target = [0; 15];
        let end = written(with_type!(0x88E5), &SEALED, &mut target, Some(limit)).ok();
        (end, target)
    });
    equal!(rt, "a SecTag"; found => [(Some(15), SEALED), (Some(15), cleared)]);
}

/// A frame and how many of its first bytes are there, a limit, and the bytes that complete them.
static COMPLETIONS: [(&str, &[u8], usize, Option<usize>, Option<&[u8]>); 5] = [
    (
        "a tag within the limit",
        &EXAMPLE,
        16,
        Some(1),
        Some(&[0, 0]),
    ),
    ("a tag beyond it", &EXAMPLE, 16, Some(0), None),
    ("no limit", &SECOND_TAG_CUT, 17, None, Some(&[0x01])),
    (
        "a first tag within the limit",
        &SECOND_TAG_CUT,
        17,
        Some(1),
        Some(&[0x01]),
    ),
    ("a first tag beyond it", &SECOND_TAG_CUT, 17, Some(0), None),
];

#[test]
fn a_completion_ends_at_the_limit() {
    let rt = crate::kit::HostRuntime;
    for &(name, frame, len, limit, wanted) in &COMPLETIONS {
        let fill = completed(Start::Ethernet2, frame.get(..len).unwrap_or(&[]), limit);
        let found = fill.as_ref().map(|fill| fill.as_slice());
        equal!(rt, name; found => wanted);
    }
}

#[test]
fn a_cut_beyond_the_limit_is_accepted() {
    let rt = crate::kit::HostRuntime;
    let eth = Start::Ethernet2;
    for n in 14..=18 {
        let found = snapped(eth, &TAGGED, n, Some(0));
        equal!(rt, format_args!("{n} bytes");
            found.units => 1,
            found.rest_end => n,
            found.fault => None,
        );
    }
    let (limited, plain) = (
        snapped(eth, &TAGGED, 16, Some(1)),
        snapped(eth, &TAGGED, 16, None),
    );
    equal!(rt, "within the limit"; limited => plain);
}
