//! Tags of worked frames, replaced in place.
use super::frames::{
    CONFIDENTIALITY, FOUR_TAGS, INTEGRITY, SECOND_TAG_CUT, TWICE_TAGGED_ARP_REQUEST,
};
use super::{equal, ext, filled, put};
use etherpeel::ether_packet::{Difference, PacketSlice, ReplaceError, replace_link_ext};
use etherpeel::ether_peel::Start;
use etherpeel::{EtherType, LinkExtHeader, SingleVlanHeader};
use crate::kit::AllocError;
use crate::kit::Fail;

const ETH: Start = Start::Ethernet2;

/// A start, a frame, the index of a tag, the bytes of a header for it, and the bytes that change, with the offset of
/// the first.
type Row = (
    &'static str,
    Start,
    &'static [u8],
    usize,
    &'static [u8],
    Result<(usize, &'static [u8]), ReplaceError>,
);

const EXAMPLE: &[u8] = &[
    0xFF, 0xFF, 0xFF, 0xFF, 0xFF, 0xFF, 0x02, 0x00, 0x00, 0x00, 0x00, 0x01, 0x88, 0xA8, 0x00, 0x0A,
    0x81, 0x00, 0x00, 0x64, 0x08, 0x00, 0x45,
];

/// A frame with a tag and a check sequence.
const CHECKED: &[u8] = &[
    0xFF, 0xFF, 0xFF, 0xFF, 0xFF, 0xFF, 0x02, 0x00, 0x00, 0x00, 0x00, 0x01, 0x81, 0x00, 0x00, 0x0A,
    0x08, 0x00, 0x45, 0x11, 0x22, 0x33, 0x44,
];

/// The SecTag of the frame with integrity protection, with the next packet number, and with packet number 1.
const NUMBERED: &[u8] = &[
    0x22, 0x2A, 0xB2, 0xC2, 0x84, 0x66, 0x12, 0x15, 0x35, 0x24, 0xC0, 0x89, 0x5E, 0x81, 0x08, 0x00,
];

const FIRST: &[u8] = &[
    0x22, 0x2A, 0, 0, 0, 1, 0x12, 0x15, 0x35, 0x24, 0xC0, 0x89, 0x5E, 0x81, 0x08, 0x00,
];

/// The second of these: for IPv6, encrypted, without a short length, and without an SCI.
const OF_IPV6: &[u8] = &[
    0x22, 0x2A, 0, 0, 0, 1, 0x12, 0x15, 0x35, 0x24, 0xC0, 0x89, 0x5E, 0x81, 0x86, 0xDD,
];

const ENCRYPTED: &[u8] = &[
    0x2E, 0x2A, 0, 0, 0, 1, 0x12, 0x15, 0x35, 0x24, 0xC0, 0x89, 0x5E, 0x81,
];

const UNNAMED: &[u8] = &[
    0x22, 0x00, 0, 0, 0, 1, 0x12, 0x15, 0x35, 0x24, 0xC0, 0x89, 0x5E, 0x81, 0x08, 0x00,
];

const NO_SCI: &[u8] = &[0x02, 0x2A, 0, 0, 0, 1, 0x08, 0x00];

static ROWS: [Row; 15] = [
    (
        "the example",
        ETH,
        EXAMPLE,
        1,
        &[0xB1, 0x23, 0x08, 0x00],
        Ok((18, &[0xB1, 0x23])),
    ),
    (
        "the inner of two tags",
        ETH,
        &TWICE_TAGGED_ARP_REQUEST,
        1,
        &[0x61, 0x23, 0x08, 0x06],
        Ok((18, &[0x61, 0x23])),
    ),
    (
        "the packet number of a SecTag",
        ETH,
        &INTEGRITY,
        0,
        NUMBERED,
        Ok((19, &[0x66])),
    ),
    (
        "a check sequence stays",
        Start::Ethernet2Fcs,
        CHECKED,
        0,
        &[0x00, 0x0B, 0x08, 0x00],
        Ok((15, &[0x0B])),
    ),
    (
        "before a tag that is cut short",
        ETH,
        &SECOND_TAG_CUT,
        0,
        &[0xEF, 0xFF, 0x81, 0x00],
        Ok((14, &[0xEF, 0xFF])),
    ),
    (
        "no tag at the index",
        ETH,
        &TWICE_TAGGED_ARP_REQUEST,
        2,
        &[0, 5, 0x08, 0x00],
        Err(ReplaceError::NoLinkExt(2)),
    ),
    (
        "a fourth tag",
        Start::EtherType(EtherType::VLAN_TAGGED_FRAME),
        &FOUR_TAGS,
        3,
        &[0, 5, 0x08, 0x00],
        Ok((13, &[5])),
    ),
    (
        "a fifth tag",
        Start::EtherType(EtherType::VLAN_TAGGED_FRAME),
        &FOUR_TAGS,
        4,
        &[0, 5, 0x08, 0x00],
        Err(ReplaceError::NoLinkExt(4)),
    ),
    (
        "another ether type",
        ETH,
        &TWICE_TAGGED_ARP_REQUEST,
        0,
        &[0, 10, 0x88, 0xA8],
        Err(ReplaceError::SaysOther(Difference::EtherType)),
    ),
    (
        "a VLAN tag for a SecTag",
        ETH,
        &INTEGRITY,
        0,
        &[0, 1, 0x08, 0x00],
        Err(ReplaceError::SaysOther(Difference::Kind)),
    ),
    (
        "another ether type in a SecTag",
        ETH,
        &INTEGRITY,
        0,
        OF_IPV6,
        Err(ReplaceError::SaysOther(Difference::PayloadType)),
    ),
    (
        "an encrypted payload",
        ETH,
        &INTEGRITY,
        0,
        ENCRYPTED,
        Err(ReplaceError::SaysOther(Difference::PayloadType)),
    ),
    (
        "another short length",
        ETH,
        &INTEGRITY,
        0,
        UNNAMED,
        Err(ReplaceError::SaysOther(Difference::ShortLen)),
    ),
    (
        "no SCI",
        ETH,
        &INTEGRITY,
        0,
        NO_SCI,
        Err(ReplaceError::SaysOther(Difference::Sci)),
    ),
    (
        "a readable payload",
        ETH,
        &CONFIDENTIALITY,
        0,
        FIRST,
        Err(ReplaceError::SaysOther(Difference::PayloadType)),
    ),
];

#[test]
fn the_tag_at_an_index_is_replaced_or_the_frame_is_unchanged() -> Result<(), Fail> {
    let rt = crate::kit::HostRuntime;
    for (name, start, frame, index, header, wanted) in &ROWS {
        let (mut changed, mut after) = (filled(frame), filled(frame));
        let header = ext(header)?;
        let replaced = replace_link_ext(
            *start,
            &mut changed[..frame.len().min(96)],
            *index,
            &header,
        );
        if let Ok((place, bytes)) = wanted {
            put(&mut after, *place, bytes);
        }
        let refused = wanted.as_ref().err();
        equal!(rt, name;
            replaced.as_ref().err() => refused,
            changed => after,
        );
    }
    Ok(())
}

#[test]
fn a_replaced_tag_is_read_again() {
    let rt = crate::kit::HostRuntime;
    let mut frame = TWICE_TAGGED_ARP_REQUEST;
    let inner = LinkExtHeader::Vlan(SingleVlanHeader::from_bytes([0x61, 0x23, 0x08, 0x06]));
    let replaced = replace_link_ext(ETH, &mut frame, 1, &inner);
    let packet = PacketSlice::from_slice(ETH, &frame);
    let ids = packet.vlan_ids();
    let numbers = [ids.first(), ids.last()].map(|id| id.map(|id| id.value()));
    equal!(rt, "the inner of two tags";
        replaced => Ok(()),
        ids.len() => 2,
        numbers => [Some(10), Some(0x123)],
        packet.rest_offset => 50,
    );
}

/// An error, and its text.
static TEXTS: [(ReplaceError, &str); 4] = [
    (
        ReplaceError::NoLink,
        "The frame does not begin with the header of a link.",
    ),
    (
        ReplaceError::NoLinkExt(2),
        "There is no VLAN tag or SecTag at this index: the frame has 2.",
    ),
    (ReplaceError::NoArp, "The frame has no ARP packet."),
    (
        ReplaceError::SaysOther(Difference::ShortLen),
        "The header in the frame is another one in this: the short length.",
    ),
];

#[test]
fn a_replace_error_names_the_cause() -> Result<(), AllocError> {
    let rt = crate::kit::HostRuntime;
    for (error, text) in &TEXTS {
        let shown = format!("{error}");
        equal!(rt, text; shown.as_str() => *text);
    }
    Ok(())
}
