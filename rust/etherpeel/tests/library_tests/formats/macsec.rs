//! SecTags of IEEE 802.1AE, and their payloads.
use super::equal;
use crate::test_frames::{CONFIDENTIALITY, INTEGRITY, NAMED, SEALED};
use etherpeel::err::macsec::{HeaderError, HeaderSliceError};
use etherpeel::err::{Layer, LenError};
use etherpeel::{
    EtherPayloadSlice, EtherType, LenSource, MacsecAn, MacsecHeader, MacsecHeaderSlice,
    MacsecPType, MacsecPayloadSlice, MacsecShortLen, MacsecSlice,
};
use crate::kit::Fail;

/// A SecTag with these numbers, without an SCI.
fn tag(ptype: MacsecPType, an: u8, short_len: u8, packet_nr: u32) -> Result<MacsecHeader, Fail> {
    Ok(MacsecHeader {
        ptype,
        endstation_id: false,
        scb: false,
        an: MacsecAn::try_new(an)?,
        short_len: MacsecShortLen::try_from_u8(short_len)?,
        packet_nr,
        sci: None,
    })
}

/// The tag 76 05 01020304 1122334455667788.
fn changed() -> Result<MacsecHeader, Fail> {
    Ok(MacsecHeader {
        endstation_id: true,
        scb: true,
        sci: Some(0x1122_3344_5566_7788),
        ..tag(MacsecPType::Modified, 2, 5, 0x0102_0304)?
    })
}

const READABLE: MacsecPType = MacsecPType::Unmodified(EtherType::IPV4);

/// A tag: its payload type, the bits ES and SCB, its numbers and its SCI; and a frame, with the places where the tag
/// begins and ends.
struct Row {
    name: &'static str,
    ptype: MacsecPType,
    bits: (bool, bool),
    an: u8,
    short_len: u8,
    packet_nr: u32,
    sci: Option<u64>,
    frame: &'static [u8],
    from: usize,
    to: usize,
}

/// A readable payload without an SCI.
const EXAMPLE: Row = Row {
    name: "the example",
    ptype: READABLE,
    bits: (false, false),
    an: 2,
    short_len: 42,
    packet_nr: 7,
    sci: None,
    frame: &[0x02, 42, 0, 0, 0, 7, 0x08, 0x00],
    from: 0,
    to: 8,
};

static TAGS: [Row; 5] = [
    EXAMPLE,
    Row {
        name: "integrity protection",
        packet_nr: 2_999_092_325,
        sci: Some(0x1215_3524_C089_5E81),
        frame: &INTEGRITY,
        from: 14,
        to: 30,
        ..EXAMPLE
    },
    Row {
        name: "confidentiality protection",
        ptype: MacsecPType::Encrypted,
        bits: (true, false),
        an: 0,
        packet_nr: 1_993_627_629,
        frame: &CONFIDENTIALITY,
        from: 14,
        to: 20,
        ..EXAMPLE
    },
    Row {
        name: "a changed payload",
        ptype: MacsecPType::Modified,
        bits: (true, true),
        short_len: 5,
        packet_nr: 0x0102_0304,
        sci: Some(0x1122_3344_5566_7788),
        frame: &[
            0x76, 5, 1, 2, 3, 4, 0x11, 0x22, 0x33, 0x44, 0x55, 0x66, 0x77, 0x88,
        ],
        to: 14,
        ..EXAMPLE
    },
    Row {
        name: "a named payload",
        ptype: MacsecPType::Unmodified(EtherType(0x8100)),
        an: 0,
        short_len: 6,
        packet_nr: 1,
        frame: &NAMED,
        ..EXAMPLE
    },
];

/// Each tag is written, and read back as the same tag.
#[test]
fn a_sec_tag_is_written_and_read_alike() -> Result<(), Fail> {
    let rt = crate::kit::HostRuntime;
    for row in &TAGS {
        let (endstation_id, scb) = row.bits;
        let header = MacsecHeader {
            endstation_id,
            scb,
            sci: row.sci,
            ..tag(row.ptype, row.an, row.short_len, row.packet_nr)?
        };
        let bytes = row.frame.get(row.from..row.to).unwrap_or(&[]);
        let written = header.to_bytes();
        equal!(rt, row.name;
            written.as_slice() => bytes,
            header.header_len() => bytes.len(),
            MacsecHeader::from_slice(bytes) => Ok(header),
        );
    }
    Ok(())
}

#[test]
fn a_sec_tag_without_room_for_its_ether_type_is_refused() -> Result<(), Fail> {
    let rt = crate::kit::HostRuntime;
    let too_short = tag(READABLE, 0, 1, 1)?;
    let written = too_short.to_bytes();
    let refused = HeaderSliceError::Content(HeaderError::InvalidUnmodifiedShortLen);
    equal!(rt, "no room for the ether type";
        written.as_slice() => [0, 1, 0, 0, 0, 1, 8, 0].as_slice(),
        MacsecHeader::from_slice(written.as_slice()) => Err(refused),
        too_short.expected_payload_len() => None,
        MacsecHeader::MIN_LEN => 6,
        MacsecHeader::MAX_LEN => 16,
    );
    Ok(())
}

/// A payload type, whether it is encrypted and whether it is changed, and the ether type.
static PAYLOAD_TYPES: [(&str, MacsecPType, bool, bool, Option<EtherType>); 4] = [
    ("changed", MacsecPType::Modified, false, true, None),
    (
        "encrypted and changed",
        MacsecPType::Encrypted,
        true,
        true,
        None,
    ),
    (
        "encrypted",
        MacsecPType::EncryptedUnmodified,
        true,
        false,
        None,
    ),
    (
        "ARP",
        MacsecPType::Unmodified(EtherType::ARP),
        false,
        false,
        Some(EtherType::ARP),
    ),
];

#[test]
fn the_bits_and_the_ether_type_follow_the_payload_type() -> Result<(), Fail> {
    let rt = crate::kit::HostRuntime;
    for &(name, ptype, encrypted, changed, ether_type) in &PAYLOAD_TYPES {
        let header = tag(ptype, 0, 0, 1)?;
        let written = header.to_bytes();
        let read = MacsecHeaderSlice::from_slice(written.as_slice())?.ptype();
        equal!(rt, name;
            header.encrypted() => encrypted,
            header.userdata_changed() => changed,
            header.next_ether_type() => ether_type,
            read => ptype,
        );
    }
    Ok(())
}

/// A payload's type and length, the short length that names it, and the length that this names.
static LENS: [(&str, MacsecPType, usize, u8, Option<usize>); 7] = [
    ("the example", READABLE, 40, 42, Some(40)),
    ("nothing", READABLE, 0, 2, Some(0)),
    ("61 bytes", READABLE, 61, 63, Some(61)),
    ("62 bytes", READABLE, 62, 0, None),
    ("nothing, encrypted", MacsecPType::Encrypted, 0, 0, None),
    (
        "63 bytes, encrypted",
        MacsecPType::Encrypted,
        63,
        63,
        Some(63),
    ),
    ("64 bytes, encrypted", MacsecPType::Encrypted, 64, 0, None),
];

#[test]
fn the_short_length_follows_the_payload_length() -> Result<(), Fail> {
    let rt = crate::kit::HostRuntime;
    for &(name, ptype, len, short_len, expected) in &LENS {
        let mut header = tag(ptype, 0, 1, 1)?;
        header.set_payload_len(len);
        let found = (header.short_len.value(), header.expected_payload_len());
        equal!(rt, name; found => (short_len, expected));
    }
    Ok(())
}

/// A SecTag of a readable payload with the bits ES and SCB set and the association number 3, and a byte after it.
const NUMBERED: [u8; 9] = [0x53, 0x2A, 1, 2, 3, 4, 0x08, 0x00, 0x45];

/// The SecTag of [`SEALED`] without its reserved bits.
const CLEARED: [u8; 14] = [
    0x2C, 0x00, 0x00, 0x00, 0x00, 0x01, 0x00, 0x11, 0x22, 0x33, 0x44, 0x55, 0x66, 0x77,
];

/// A view of a header: its first byte and the bits of that, the other fields, its length and its payload's, the
/// payload's type, and the bytes that are written back.
struct View {
    name: &'static str,
    bytes: &'static [u8],
    tci_an: u8,
    bits: [bool; 6],
    numbers: (u8, u8, u32, Option<u64>),
    lens: (usize, Option<usize>),
    ptype: MacsecPType,
    ether_type: Option<EtherType>,
    written: &'static [u8],
}

static VIEWS: [View; 2] = [
    View {
        name: "an encrypted payload",
        bytes: &SEALED,
        tci_an: 0x2C,
        bits: [false, true, false, true, true, false],
        numbers: (0, 0, 1, Some(0x0011_2233_4455_6677)),
        lens: (14, None),
        ptype: MacsecPType::Encrypted,
        ether_type: None,
        written: &CLEARED,
    },
    View {
        name: "a readable payload",
        bytes: &NUMBERED,
        tci_an: 0x53,
        bits: [true, false, true, false, false, true],
        numbers: (3, 42, 0x0102_0304, None),
        lens: (8, Some(40)),
        ptype: READABLE,
        ether_type: Some(EtherType::IPV4),
        written: &[0x53, 0x2A, 1, 2, 3, 4, 0x08, 0x00],
    },
];

#[test]
fn a_sec_tag_view_shows_bits_numbers_and_lengths() -> Result<(), Fail> {
    let rt = crate::kit::HostRuntime;
    for row in &VIEWS {
        let tag = MacsecHeaderSlice::from_slice(row.bytes)?;
        let written = tag.to_header().to_bytes();
        let bits = [
            tag.endstation_id(),
            tag.sci_present(),
            tag.tci_scb(),
            tag.encrypted(),
            tag.userdata_changed(),
            tag.is_unmodified(),
        ];
        equal!(rt, row.name;
            tag.tci_an_raw() => row.tci_an,
            bits => row.bits,
            tag.ptype() => row.ptype,
            tag.next_ether_type() => row.ether_type,
            (tag.an().value(), tag.short_len().value(), tag.packet_nr(), tag.sci()) => row.numbers,
            (tag.header_len(), tag.expected_payload_len()) => row.lens,
            Some(tag.slice()) => row.bytes.get(..tag.header_len()),
            written.as_slice() => row.written,
        );
    }
    Ok(())
}

/// A frame, where the SecTag begins, the payload's place, and its ether type if it can be read.
type Payload = (
    &'static str,
    &'static [u8],
    usize,
    usize,
    usize,
    Option<EtherType>,
);

static PAYLOADS: [Payload; 7] = [
    (
        "the example",
        &[0x00, 0x03, 0, 0, 0, 1, 0x08, 0x00, 0x45, 0xEE],
        0,
        8,
        9,
        Some(EtherType::IPV4),
    ),
    (
        "integrity protection",
        &INTEGRITY,
        14,
        30,
        70,
        Some(EtherType::IPV4),
    ),
    (
        "confidentiality protection",
        &CONFIDENTIALITY,
        14,
        20,
        62,
        None,
    ),
    ("a named payload", &NAMED, 0, 8, 12, Some(EtherType(0x8100))),
    (
        "an encrypted payload runs to the end",
        &SEALED,
        0,
        14,
        15,
        None,
    ),
    (
        "an encrypted payload of named length",
        &[0x0C, 1, 0, 0, 0, 1, 0xAA, 0xBB],
        0,
        6,
        7,
        None,
    ),
    (
        "the example of encrypted payloads",
        &[0x0C, 0x00, 0, 0, 0, 1, 0xAA],
        0,
        6,
        7,
        None,
    ),
];

#[test]
fn the_payload_of_a_sec_tag_is_readable_or_modified() -> Result<(), Fail> {
    let rt = crate::kit::HostRuntime;
    for &(name, frame, start, from, to, ether_type) in &PAYLOADS {
        let packet = MacsecSlice::from_slice(frame.get(start..).unwrap_or(&[]))?;
        let payload = frame.get(from..to).unwrap_or(&[]);
        let readable = ether_type.map(|ether_type| EtherPayloadSlice {
            ether_type,
            len_source: LenSource::MacsecShortLength,
            payload,
        });
        let either = match readable {
            Some(readable) => MacsecPayloadSlice::Unmodified(readable),
            None => MacsecPayloadSlice::Modified(payload),
        };
        equal!(rt, name;
            packet.payload => either,
            packet.ether_payload() => readable,
            packet.next_ether_type() => ether_type,
            Some(packet.header.slice()) => frame.get(start..from),
        );
    }
    Ok(())
}

/// Refusals for a length: of the tag, and of the payload whose length the tag names.
macro_rules! cut {
    ($required_len:expr, $len:expr $(,)?) => {
        Some(HeaderSliceError::Len(cut_short!($required_len, $len, Layer::MacsecHeader)))
    };
}

macro_rules! named {
    ($required_len:expr, $len:expr $(,)?) => {
        Some(HeaderSliceError::Len(LenError {
            len_source: LenSource::MacsecShortLength,
            ..cut_short!($required_len, $len, Layer::MacsecPacket)
        }))
    };
}

const VERSION: Option<HeaderSliceError> = Some(HeaderSliceError::Content(
    HeaderError::UnexpectedVersion,
));

const SHORT_LEN: Option<HeaderSliceError> = Some(HeaderSliceError::Content(
    HeaderError::InvalidUnmodifiedShortLen,
));

static REFUSALS: [(&str, &[u8], Option<HeaderSliceError>); 12] = [
    (
        "a payload that is cut short",
        &[0x00, 0x06, 0x00, 0x00, 0x00, 0x01, 0x81, 0x00, 0xAA, 0xBB],
        named!(12, 10),
    ),
    ("a changed payload", &[0x04, 1, 0, 0, 0, 0], named!(7, 6)),
    (
        "an encrypted payload",
        &[0x08, 0x3F, 0, 0, 0, 0],
        named!(69, 6),
    ),
    (
        "a tag without its ether type",
        &[0x00, 0x06, 0x00, 0x00, 0x00, 0x01],
        cut!(8, 6),
    ),
    ("five bytes", &[0x80, 0, 0, 0, 0], cut!(6, 5)),
    ("a tag without its SCI", &[0x24, 1, 0, 0, 0, 0], cut!(14, 6)),
    ("a version", &[0x80, 0, 0, 0, 0, 0], VERSION),
    (
        "a short length without room for the ether type",
        &[0, 1, 0, 0, 0, 0],
        SHORT_LEN,
    ),
    // a tag with version 1 and short length 1
    ("the length first", &[0x80, 1, 0, 0, 0], cut!(6, 5)),
    ("then the version", &[0x80, 1, 0, 0, 0, 0], VERSION),
    // SCI and ether type are missing too; the second row has a reserved bit
    (
        "then the short length",
        &[0x20, 0x01, 0, 0, 0, 0],
        SHORT_LEN,
    ),
    (
        "and with a reserved bit",
        &[0x20, 0x41, 0, 0, 0, 0],
        SHORT_LEN,
    ),
];

#[test]
fn a_refused_sec_tag_names_the_cause() {
    let rt = crate::kit::HostRuntime;
    for (name, bytes, wanted) in &REFUSALS {
        equal!(rt, name; MacsecSlice::from_slice(bytes).err() => *wanted);
    }
}

#[test]
fn debug_shows_sec_tags() -> Result<(), Fail> {
    let rt = crate::kit::HostRuntime;
    let tag = MacsecHeaderSlice::from_slice(&SEALED)?;
    let packet = MacsecSlice::from_slice(&NAMED)?;
    let shown = format!("{:?}", (changed()?, tag, packet));
    equal!(rt, "a tag, a view and one with its payload";
        shown.as_str()
            => "(MacsecHeader { ptype: Modified, endstation_id: true, scb: true, an: MacsecAn(2), short_len: MacsecShortLen(5), packet_nr: 16909060, sci: Some(1234605616436508552) }, \
MacsecHeaderSlice { slice: [44, 192, 0, 0, 0, 1, 0, 17, 34, 51, 68, 85, 102, 119] }, \
MacsecSlice { header: MacsecHeaderSlice { slice: [0, 6, 0, 0, 0, 1, 129, 0] }, payload: Unmodified(EtherPayloadSlice { ether_type: 0x8100 (Customer VLAN Tag (C-TAG) as defined in IEEE Std 802.1Q), len_source: MacsecShortLength, payload: [170, 187, 204, 221] }) })",
    );
    Ok(())
}
