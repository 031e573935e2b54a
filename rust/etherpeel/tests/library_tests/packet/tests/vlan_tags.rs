//! VLAN tags that are taken off, put in and changed in place. scapy 2.5.0 wrote the frames with and without a tag.
use super::frames::{CONFIDENTIALITY, FOUR_TAGS, INTEGRITY, SECOND_TAG_CUT, TAG_IN_SEC_TAG};
use super::{equal, filled, put};
use etherpeel::ether_packet::{
    TagError, find_vlan, pop_vlan, push_vlan, replace_vlan_id, set_tpid, set_vlan_id, set_vlan_tag,
};
use etherpeel::ether_peel::Start;
use etherpeel::{ArpHardwareId, EtherType, SingleVlanHeader, VlanId, VlanPcp};
use crate::kit::AllocError;
use crate::kit::Fail;

const ETH: Start = Start::Ethernet2;

const FCS: Start = Start::Ethernet2Fcs;

const SLL: Start = Start::LinuxSll;

const MACSEC: Start = Start::EtherType(EtherType::MACSEC);

/// After the ether type of a VLAN tag.
const TAG: Start = Start::EtherType(EtherType::VLAN_TAGGED_FRAME);

const CUSTOMER: EtherType = EtherType(0x8100);

const SERVICE: EtherType = EtherType(0x88A8);

const ONE: &[u8] = &[
    0xFF, 0xFF, 0xFF, 0xFF, 0xFF, 0xFF, 0x02, 0x00, 0x00, 0x00, 0x00, 0x01, 0x81, 0x00, 0xB1, 0x23,
    0x08, 0x00, 0x45, 0x00, 0x01, 0x02, 0x03, 0x04,
];

const ONE_OFF: &[u8] = &[
    0xFF, 0xFF, 0xFF, 0xFF, 0xFF, 0xFF, 0x02, 0x00, 0x00, 0x00, 0x00, 0x01, 0x08, 0x00, 0x45, 0x00,
    0x01, 0x02, 0x03, 0x04,
];

const TWO: &[u8] = &[
    0xFF, 0xFF, 0xFF, 0xFF, 0xFF, 0xFF, 0x02, 0x00, 0x00, 0x00, 0x00, 0x01, 0x88, 0xA8, 0x60, 0x0A,
    0x81, 0x00, 0x00, 0x64, 0x86, 0xDD, 0x45, 0x00, 0x01, 0x02, 0x03, 0x04,
];

const TWO_OFF: &[u8] = &[
    0xFF, 0xFF, 0xFF, 0xFF, 0xFF, 0xFF, 0x02, 0x00, 0x00, 0x00, 0x00, 0x01, 0x81, 0x00, 0x00, 0x64,
    0x86, 0xDD, 0x45, 0x00, 0x01, 0x02, 0x03, 0x04,
];

const CAPTURED: &[u8] = &[
    0x00, 0x04, 0x00, 0x01, 0x00, 0x06, 0x02, 0x00, 0x00, 0x00, 0x00, 0x01, 0x00, 0x00, 0x81, 0x00,
    0xFF, 0xFE, 0x08, 0x06, 0x00, 0x01, 0x08, 0x00, 0x06, 0x04, 0x00, 0x01, 0x02, 0x00, 0x00, 0x00,
    0x00, 0x01, 0x0A, 0x00, 0x00, 0x01, 0x00, 0x00, 0x00, 0x00, 0x00, 0x00, 0x0A, 0x00, 0x00, 0x02,
];

const CAPTURED_OFF: &[u8] = &[
    0x00, 0x04, 0x00, 0x01, 0x00, 0x06, 0x02, 0x00, 0x00, 0x00, 0x00, 0x01, 0x00, 0x00, 0x08, 0x06,
    0x00, 0x01, 0x08, 0x00, 0x06, 0x04, 0x00, 0x01, 0x02, 0x00, 0x00, 0x00, 0x00, 0x01, 0x0A, 0x00,
    0x00, 0x01, 0x00, 0x00, 0x00, 0x00, 0x00, 0x00, 0x0A, 0x00, 0x00, 0x02,
];

/// A start, a frame with a tag and the same frame without it, and the tag with its TPID.
type BothWays = (
    &'static str,
    Start,
    &'static [u8],
    &'static [u8],
    EtherType,
    [u8; 4],
);

static BOTH_WAYS: [BothWays; 4] = [
    (
        "one tag",
        ETH,
        ONE,
        ONE_OFF,
        CUSTOMER,
        [0xB1, 0x23, 0x08, 0x00],
    ),
    (
        "with an FCS",
        FCS,
        ONE,
        ONE_OFF,
        CUSTOMER,
        [0xB1, 0x23, 0x08, 0x00],
    ),
    (
        "two tags",
        ETH,
        TWO,
        TWO_OFF,
        SERVICE,
        [0x60, 0x0A, 0x81, 0x00],
    ),
    (
        "cooked capture",
        SLL,
        CAPTURED,
        CAPTURED_OFF,
        CUSTOMER,
        [0xFF, 0xFE, 0x08, 0x06],
    ),
];

/// Taking the tag off one frame gives the other, and putting it in again gives the first.
#[test]
fn popping_and_pushing_a_tag_undo_one_another() {
    let rt = crate::kit::HostRuntime;
    for &(name, start, tagged, untagged, tpid, tag) in &BOTH_WAYS {
        let mut buffer = filled(tagged);
        let len = tagged.len().min(96);
        let tag = SingleVlanHeader::from_bytes(tag);
        let ignored = SingleVlanHeader {
            ether_type: EtherType(0x1234),
            ..tag
        };
        let popped = pop_vlan(start, &mut buffer[..len]);
        equal!(rt, name;
            popped => Ok(tag),
            buffer.get(len.min(4)..len) => Some(untagged),
        );
        let pushed = push_vlan(start, &mut buffer[..len], ignored, tpid);
        equal!(rt, name;
            pushed => Ok(()),
            buffer.get(..len) => Some(tagged),
        );
    }
}

/// Frames of a length from which no tag is taken off.
static KEPT: [(&str, Start, &[u8], usize, TagError); 6] = [
    ("no tag", ETH, ONE_OFF, 20, TagError::NoVlan),
    ("a SecTag", ETH, &INTEGRITY, 86, TagError::NoVlan),
    ("no link", ETH, ONE, 13, TagError::NoLink),
    ("a cut tag", ETH, ONE, 17, TagError::CutVlan),
    ("a tag cut by the FCS", FCS, ONE, 21, TagError::CutVlan),
    (
        "a start after the link",
        TAG,
        &[0xB1, 0x23, 0x08, 0x00, 0x45, 0x00, 0x01, 0x02, 0x03, 0x04],
        10,
        TagError::NoLink,
    ),
];

/// The frame is unchanged.
#[test]
fn a_frame_without_a_tag_to_pop_is_unchanged() {
    let rt = crate::kit::HostRuntime;
    for (name, start, frame, len, error) in &KEPT {
        let mut buffer = filled(frame);
        let found = pop_vlan(*start, &mut buffer[..(*len).min(96)]).err();
        equal!(rt, name;
            found.as_ref() => Some(error),
            buffer => filled(frame),
        );
    }
}

/// Buffers of a length into which no tag is put.
static FULL: [(&str, Start, &[u8], usize, EtherType, TagError); 5] = [
    (
        "another TPID",
        ETH,
        ONE,
        24,
        EtherType::IPV4,
        TagError::Tpid(EtherType::IPV4),
    ),
    ("no room", ETH, ONE, 3, SERVICE, TagError::NoRoom),
    ("no link", ETH, ONE, 17, SERVICE, TagError::NoLink),
    ("no FCS", FCS, ONE, 21, SERVICE, TagError::NoLink),
    (
        "netlink",
        SLL,
        &[
            0, 0, 0, 0, 0x00, 0x04, 0x03, 0x38, 0x00, 0x00, 0, 0, 0, 0, 0, 0, 0, 0, 0x00, 0x00,
        ],
        20,
        CUSTOMER,
        TagError::HardwareType(ArpHardwareId(824)),
    ),
];

/// The buffer is unchanged.
#[test]
fn a_buffer_that_no_tag_is_pushed_to_is_unchanged() {
    let rt = crate::kit::HostRuntime;
    for (name, start, bytes, len, tpid, error) in &FULL {
        let mut buffer = filled(bytes);
        let tag = SingleVlanHeader::default();
        let found = push_vlan(*start, &mut buffer[..(*len).min(96)], tag, *tpid).err();
        equal!(rt, name;
            found.as_ref() => Some(error),
            buffer => filled(bytes),
        );
    }
}

/// What is set: the VLAN identifier 0xABC; or that, PCP 7 and DEI; or a TPID.
enum Change {
    VlanId,
    Tag(bool),
    Tpid(EtherType),
}

/// A start, a frame, the index of a tag, what is set, and the two bytes that change, with the offset of the first.
type Set = (
    &'static str,
    Start,
    &'static [u8],
    usize,
    Change,
    Result<(usize, &'static [u8]), TagError>,
);

static SETS: [Set; 15] = [
    (
        "before a cut",
        ETH,
        &SECOND_TAG_CUT,
        0,
        Change::VlanId,
        Ok((14, &[0x0A, 0xBC])),
    ),
    (
        "the third",
        TAG,
        &FOUR_TAGS,
        2,
        Change::VlanId,
        Ok((8, &[0x0A, 0xBC])),
    ),
    (
        "the fourth",
        TAG,
        &FOUR_TAGS,
        3,
        Change::Tag(false),
        Ok((12, &[0xEA, 0xBC])),
    ),
    (
        "past the fourth",
        TAG,
        &FOUR_TAGS,
        4,
        Change::VlanId,
        Err(TagError::NoLinkExt(4)),
    ),
    (
        "in a SecTag",
        MACSEC,
        &TAG_IN_SEC_TAG,
        1,
        Change::VlanId,
        Ok((8, &[0xAA, 0xBC])),
    ),
    (
        "all fields",
        ETH,
        &SECOND_TAG_CUT,
        0,
        Change::Tag(true),
        Ok((14, &[0xFA, 0xBC])),
    ),
    (
        "no DEI",
        MACSEC,
        &TAG_IN_SEC_TAG,
        1,
        Change::Tag(false),
        Ok((8, &[0xEA, 0xBC])),
    ),
    (
        "of a link",
        ETH,
        &SECOND_TAG_CUT,
        0,
        Change::Tpid(EtherType(0x9100)),
        Ok((12, &[0x91, 0x00])),
    ),
    (
        "of a tag",
        TAG,
        &FOUR_TAGS,
        1,
        Change::Tpid(SERVICE),
        Ok((2, &[0x88, 0xA8])),
    ),
    (
        "of a SecTag",
        MACSEC,
        &TAG_IN_SEC_TAG,
        1,
        Change::Tpid(SERVICE),
        Ok((6, &[0x88, 0xA8])),
    ),
    (
        "the cut one",
        ETH,
        &SECOND_TAG_CUT,
        1,
        Change::VlanId,
        Err(TagError::NoLinkExt(1)),
    ),
    (
        "a SecTag",
        ETH,
        &INTEGRITY,
        0,
        Change::VlanId,
        Err(TagError::NoVlan),
    ),
    (
        "sealed",
        ETH,
        &CONFIDENTIALITY,
        0,
        Change::Tpid(EtherType(0x9100)),
        Err(TagError::NoVlan),
    ),
    (
        "another TPID",
        ETH,
        &SECOND_TAG_CUT,
        0,
        Change::Tpid(EtherType::IPV6),
        Err(TagError::Tpid(EtherType::IPV6)),
    ),
    (
        "no header",
        TAG,
        &FOUR_TAGS,
        0,
        Change::Tpid(EtherType(0x9100)),
        Err(TagError::Unannounced),
    ),
];

#[test]
fn the_fields_of_the_tag_at_an_index_are_set_alone() -> Result<(), Fail> {
    let rt = crate::kit::HostRuntime;
    let (id, pcp) = (VlanId::try_new(0xABC)?, VlanPcp::try_new(7)?);
    for (name, start, frame, index, change, wanted) in &SETS {
        let (mut changed, mut after) = (filled(frame), filled(frame));
        let part = &mut changed[..frame.len().min(96)];
        let set = match change {
            Change::VlanId => set_vlan_id(*start, part, *index, id),
            Change::Tag(dei) => set_vlan_tag(*start, part, *index, pcp, *dei, id),
            Change::Tpid(tpid) => set_tpid(*start, part, *index, *tpid),
        };
        if let Ok((place, bytes)) = wanted {
            put(&mut after, *place, bytes);
        }
        let refused = wanted.as_ref().err();
        equal!(rt, name;
            set.as_ref().err() => refused,
            changed => after,
        );
    }
    Ok(())
}

/// A start, a frame, an identifier, the index of the outermost tag that has it, and the two bytes that change, with
/// the offset of the first, if the tag gets the identifier 0xABC.
type Found = (
    &'static str,
    Start,
    &'static [u8],
    u16,
    Option<(usize, usize, &'static [u8])>,
);

/// VLAN 100 in a service tag, and VLAN 5 in a customer tag.
const IN_SERVICE: &[u8] = &[
    0xFF, 0xFF, 0xFF, 0xFF, 0xFF, 0xFF, 0x02, 0x00, 0x00, 0x00, 0x00, 0x01, 0x88, 0xA8, 0x00, 0x64,
    0x81, 0x00, 0xB0, 0x05, 0x08, 0x00, 0x45,
];

static FOUND: [Found; 8] = [
    ("customer", ETH, IN_SERVICE, 5, Some((1, 18, &[0xBA, 0xBC]))),
    (
        "service",
        ETH,
        IN_SERVICE,
        100,
        Some((0, 14, &[0x0A, 0xBC])),
    ),
    (
        "equal",
        TAG,
        &[0x20, 0x05, 0x81, 0x00, 0x40, 0x05, 0x08, 0x00],
        5,
        Some((0, 0, &[0x2A, 0xBC])),
    ),
    ("fourth", TAG, &FOUR_TAGS, 4, Some((3, 12, &[0x0A, 0xBC]))),
    (
        "in a SecTag",
        MACSEC,
        &TAG_IN_SEC_TAG,
        0xABB,
        Some((1, 8, &[0xAA, 0xBC])),
    ),
    ("absent", ETH, IN_SERVICE, 2, None),
    ("cut", ETH, &SECOND_TAG_CUT, 2, None),
    ("a SecTag", ETH, &INTEGRITY, 2, None),
];

#[test]
fn the_first_tag_with_an_identifier_is_found() -> Result<(), Fail> {
    let rt = crate::kit::HostRuntime;
    let to = VlanId::try_new(0xABC)?;
    for &(name, start, frame, from, wanted) in &FOUND {
        let (mut changed, mut after) = (filled(frame), filled(frame));
        let from = VlanId::try_new(from)?;
        let part = &mut changed[..frame.len().min(96)];
        let found = [
            find_vlan(start, part, from),
            replace_vlan_id(start, part, from, to),
        ];
        let mut index = None;
        if let Some((at, place, bytes)) = wanted {
            put(&mut after, place, bytes);
            index = Some(at);
        }
        equal!(rt, name;
            found => [index; 2],
            changed => after,
        );
    }
    Ok(())
}

/// An error, and its text.
static TEXTS: [(TagError, &str); 8] = [
    (
        TagError::Tpid(EtherType::IPV4),
        "No VLAN tag is announced by the ether type 2048.",
    ),
    (TagError::NoRoom, "The buffer has no room for a VLAN tag."),
    (
        TagError::NoLink,
        "The frame does not begin with the header of a link.",
    ),
    (
        TagError::HardwareType(ArpHardwareId(824)),
        "No ether type can follow a header of cooked capture of hardware type 824.",
    ),
    (
        TagError::NoLinkExt(2),
        "There is no VLAN tag or SecTag at this index: the frame has 2.",
    ),
    (TagError::NoVlan, "There is no VLAN tag."),
    (TagError::CutVlan, "The VLAN tag is cut short."),
    (TagError::Unannounced, "The frame begins with the VLAN tag."),
];

#[test]
fn a_tag_error_names_the_cause() -> Result<(), AllocError> {
    let rt = crate::kit::HostRuntime;
    for (error, text) in &TEXTS {
        let shown = format!("{error}");
        equal!(rt, text; shown.as_str() => *text);
    }
    Ok(())
}
