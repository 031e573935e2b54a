//! The headers of packets, the rest and the fault, and the least length to which a frame can be cut.
use super::equal;
use super::frames::{
    CHECKED, CONFIDENTIALITY, COOKED_ARP_REQUEST, FOUR_TAGS, INTEGRITY, PADDED_ARP, SECOND_TAG_CUT,
    TAG_IN_SEC_TAG, TWICE_TAGGED_ARP_REQUEST,
};
use etherpeel::ether_packet::{PacketExt, PacketSlice, min_snap_len};
use etherpeel::ether_peel::{PeelError, PeelFault, RestKind, Start};
use etherpeel::err::{Layer, LenError};
use etherpeel::{
    ArpPacketSlice, DoubleVlanSlice, EtherPayloadSlice, EtherType, Ethernet2Slice, LenSource,
    LinkExtSlice, LinkSlice, LinuxSllSlice, MacsecSlice, SingleVlanSlice, VlanSlice,
};
use crate::kit::Abort;
use crate::kit::Fail;

/// The length fault of a VLAN tag or an Ethernet II header at an offset.
fn short(offset: usize, required_len: usize, len: usize, layer: Layer) -> PeelFault {
    PeelFault {
        offset,
        error: PeelError::Len(LenError {
            required_len,
            len,
            len_source: LenSource::Slice,
            layer,
            layer_start_offset: offset,
        }),
        closed: false,
    }
}

const MACSEC: Start = Start::EtherType(EtherType::MACSEC);

/// What the rest is announced as, except for a protocol of a cooked capture.
enum Kind {
    Start,
    EtherType(EtherType),
    Sealed,
    AfterArp,
}

fn rest_kind(kind: &Kind) -> RestKind {
    match kind {
        Kind::Start => RestKind::Start,
        Kind::EtherType(ether_type) => RestKind::EtherType(*ether_type),
        Kind::Sealed => RestKind::Sealed,
        Kind::AfterArp => RestKind::AfterArp,
    }
}

/// What is left of a frame, and how its walk ends: the identifiers of the tags; the offsets at which the rest starts
/// and ends, and its kind; the offset, the required length, the length and the layer of a fault; and the least length
/// to which the frame can be cut.
struct Left {
    name: &'static str,
    start: Start,
    frame: &'static [u8],
    ids: &'static [u16],
    rest: (usize, usize),
    kind: Kind,
    fault: Option<(usize, usize, usize, Layer)>,
    least: usize,
}

macro_rules! left {
    ($name:expr, $start:expr, $frame:expr, $ids:expr, $rest:expr, $kind:expr, $fault:expr, $least:expr $(,)?) => {
        Left {
            name: $name,
            start: $start,
            frame: $frame,
            ids: $ids,
            rest: $rest,
            kind: $kind,
            fault: $fault,
            least: $least,
        }
    };
}

const ETH: Start = Start::Ethernet2;

const IPV4: Kind = Kind::EtherType(EtherType::IPV4);

const VLAN: Kind = Kind::EtherType(EtherType::VLAN_TAGGED_FRAME);

const EXAMPLE: [u8; 23] = [
    0xFF, 0xFF, 0xFF, 0xFF, 0xFF, 0xFF, 0x02, 0x00, 0x00, 0x00, 0x00, 0x01, 0x88, 0xA8, 0x00, 0x0A,
    0x81, 0x00, 0x00, 0x64, 0x08, 0x00, 0x45,
];

const ONE_TAG: [u8; 19] = [
    0xFF, 0xFF, 0xFF, 0xFF, 0xFF, 0xFF, 0x02, 0x00, 0x00, 0x00, 0x00, 0x01, 0x81, 0x00, 0xB1, 0x23,
    0x08, 0x00, 0x45,
];

const THIRTEEN: [u8; 13] = [0xFF, 0xFF, 0xFF, 0xFF, 0xFF, 0xFF, 2, 0, 0, 0, 0, 1, 0x81];

#[rustfmt::skip]
static ROWS: [Left; 12] = [
    left!("the example", ETH, &EXAMPLE, &[10, 100], (22, 23), IPV4, None, 22),
    left!("the example of a cut", ETH, &ONE_TAG, &[0x123], (18, 19), IPV4, None, 18),
    left!("two tags and an ARP packet", ETH, &TWICE_TAGGED_ARP_REQUEST, &[10, 100], (50, 50), Kind::AfterArp, None, 50),
    left!("a cooked capture", Start::LinuxSll, &COOKED_ARP_REQUEST, &[], (44, 44), Kind::AfterArp, None, 44),
    left!("padding after an ARP packet", ETH, &PADDED_ARP, &[], (42, 60), Kind::AfterArp, None, 42),
    left!("a readable payload", ETH, &INTEGRITY, &[], (30, 70), IPV4, None, 70),
    left!("a sealed payload", ETH, &CONFIDENTIALITY, &[], (20, 62), Kind::Sealed, None, 62),
    left!("a tag in a SecTag", MACSEC, &TAG_IN_SEC_TAG, &[0xABB], (12, 12), Kind::EtherType(EtherType(0xCCDD)), None, 12),
    left!("the fourth tag is left", Start::EtherType(EtherType::VLAN_TAGGED_FRAME), &FOUR_TAGS, &[1, 2, 3], (12, 16), VLAN, None, 12),
    left!("a fault keeps the headers before it", ETH, &SECOND_TAG_CUT, &[1], (18, 20), VLAN, Some((18, 4, 2, Layer::VlanHeader)), 18),
    left!("a refused link", ETH, &THIRTEEN, &[], (0, 13), Kind::Start, Some((0, 14, 13, Layer::Ethernet2Header)), 0),
    left!("no link after an ether type", Start::EtherType(EtherType::IPV4), &[0x45], &[], (0, 1), IPV4, None, 0),
];

/// Tests that the packet of a row's frame has these identifiers, this rest, this fault and this least length.
fn is_left(rt: &impl Abort, row: &Left) {
    let packet = PacketSlice::from_slice(row.start, row.frame);
    let mut numbers = [0; 3];
    for (number, id) in numbers.iter_mut().zip(packet.vlan_ids()) {
        *number = id.value();
    }
    let (start, end) = row.rest;
    // a fourth tag follows three tags, and the frame ends with it
    let least_of_all = if row.ids.len() == 3 {
        row.frame.len()
    } else {
        row.least
    };
    let fault = row.fault.map(|(offset, required_len, len, layer)| {
        short(offset, required_len, len, layer)
    });
    equal!(rt, row.name;
        numbers.get(..packet.vlan_ids().len()) => Some(row.ids),
        Some(packet.rest) => row.frame.get(start..end),
        packet.rest_offset => start,
        packet.rest_kind => rest_kind(&row.kind),
        packet.is_complete() => row.fault.is_none(),
        [packet.min_snap_len(), min_snap_len(row.start, row.frame)] => [row.least, least_of_all],
        packet.fault => fault,
    );
}

#[test]
fn a_packet_has_its_rest_its_fault_and_its_least_cut() {
    let rt = crate::kit::HostRuntime;
    for row in &ROWS {
        is_left(&rt, row);
    }
}

#[test]
fn a_packet_shows_link_tags_and_arp_packet() -> Result<(), Fail> {
    let rt = crate::kit::HostRuntime;
    let frame = TWICE_TAGGED_ARP_REQUEST;
    let packet = PacketSlice::from_slice(Start::Ethernet2, &frame);
    let tags = DoubleVlanSlice {
        outer: SingleVlanSlice::from_slice(&frame[14..])?,
        inner: SingleVlanSlice::from_slice(&frame[18..])?,
    };
    let link = Ethernet2Slice::from_slice_without_fcs(&frame)?;
    let arp = ArpPacketSlice::from_slice(&frame[22..])?;
    equal!(rt, "a frame with two tags";
        packet.link() => Some(LinkSlice::Ethernet2(link)),
        packet.vlan() => Some(VlanSlice::DoubleVlan(tags)),
        packet.arp() => Some(arp),
        packet.arp_offset() => Some(22),
    );
    Ok(())
}

#[test]
fn a_packet_shows_its_sec_tags() -> Result<(), Fail> {
    let rt = crate::kit::HostRuntime;
    let packet = PacketSlice::from_slice(MACSEC, &TAG_IN_SEC_TAG);
    let tag = SingleVlanSlice::from_slice(&TAG_IN_SEC_TAG[8..12])?;
    let first = PacketExt {
        offset: 0,
        slice: LinkExtSlice::Macsec(MacsecSlice::from_slice(&TAG_IN_SEC_TAG)?),
    };
    let last = PacketExt {
        offset: 8,
        slice: LinkExtSlice::Vlan(tag.clone()),
    };
    let integrity = PacketSlice::from_slice(Start::Ethernet2, &INTEGRITY);
    let fields = integrity
        .macsec()
        .map(|tag| (tag.header.packet_nr(), tag.header.sci()));
    let exts = packet.link_exts();
    equal!(rt, "a tag in a SecTag, and integrity protection";
        exts.len() => 2,
        exts.first() => Some(&first),
        exts.last() => Some(&last),
        packet.vlan() => Some(VlanSlice::SingleVlan(tag)),
        fields => Some((0xB2C2_8465, Some(0x1215_3524_C089_5E81))),
        integrity.vlan() => None,
    );
    Ok(())
}

#[test]
fn a_packet_shows_its_link_of_either_kind() -> Result<(), Fail> {
    let rt = crate::kit::HostRuntime;
    let checked = PacketSlice::from_slice(Start::Ethernet2Fcs, &CHECKED);
    let frame = Ethernet2Slice::from_slice_with_crc32_fcs(&CHECKED)?;
    let cooked = PacketSlice::from_slice(Start::LinuxSll, &COOKED_ARP_REQUEST);
    let capture = LinuxSllSlice::from_slice(&COOKED_ARP_REQUEST)?;
    let payload = PacketSlice::from_slice(Start::EtherType(EtherType::IPV4), &[0x45]);
    equal!(rt, "a check sequence, a cooked capture, and no link";
        [checked.link(), cooked.link(), payload.link()]
            => [Some(LinkSlice::Ethernet2(frame)), Some(LinkSlice::LinuxSll(capture)), None],
        checked.rest => [0x45].as_slice(),
        cooked.link_exts().is_empty() => true,
        cooked.macsec() => None,
    );
    Ok(())
}

/// A start, a frame, and the ether type, the length source and the place of its payload.
type Payload = (
    &'static str,
    Start,
    &'static [u8],
    Option<(EtherType, LenSource, usize, usize)>,
);

static PAYLOADS: [Payload; 4] = [
    (
        "a readable payload",
        Start::Ethernet2,
        &INTEGRITY,
        Some((EtherType::IPV4, LenSource::MacsecShortLength, 30, 70)),
    ),
    ("a sealed payload", Start::Ethernet2, &CONFIDENTIALITY, None),
    (
        "a cooked capture",
        Start::LinuxSll,
        &COOKED_ARP_REQUEST,
        Some((EtherType::ARP, LenSource::Slice, 16, 44)),
    ),
    (
        "no header",
        Start::EtherType(EtherType::IPV4),
        &[0x45],
        None,
    ),
];

#[test]
fn a_payload_has_its_ether_type_and_the_source_of_its_length() {
    let rt = crate::kit::HostRuntime;
    for &(name, start, frame, wanted) in &PAYLOADS {
        let payload = wanted.map(|(ether_type, len_source, from, to)| EtherPayloadSlice {
            ether_type,
            len_source,
            payload: frame.get(from..to).unwrap_or(&[]),
        });
        equal!(rt, name; PacketSlice::from_slice(start, frame).ether_payload() => payload);
    }
}

/// `Debug` shows the bytes of a packet once, with the frame, and not again with each tag.
#[test]
fn debug_shows_the_bytes_of_a_packet_once() -> Result<(), Fail> {
    let rt = crate::kit::HostRuntime;
    let tag = [0x00, 0x0A, 0x08, 0x00, 0x45];
    let packet = PacketSlice::from_slice(Start::EtherType(EtherType::PROVIDER_BRIDGING), &tag);
    let shown = format!("{packet:?}");
    equal!(rt, "a tag";
        shown.as_str()
            => "PacketSlice { read: PacketUnits { frame: [0, 10, 8, 0, 69], link: Missing, exts: ExtPlaces { first: \
Some(ExtPlace { kind: Vlan, place: FrameWindow { start: 0, len: 5 } }), second: None, third: None }, arp: None }, \
rest: [69], rest_offset: 4, rest_kind: EtherType(0x0800 (Internet Protocol version 4 (IPv4))), fault: None }",
    );
    Ok(())
}
