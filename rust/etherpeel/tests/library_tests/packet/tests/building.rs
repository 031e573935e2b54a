//! Packets that are built, compared with captured and composed frames.
use super::frames::TWICE_TAGGED_ARP_REQUEST;
use super::{equal, ext, put};
use etherpeel::ether_packet::{BuildError, PacketBuilder, PacketContent};
use etherpeel::err::{Layer, SliceWriteSpaceError};
use etherpeel::{
    ArpHardwareId, ArpPacket, EtherType, Ethernet2Header, LinkExtHeader, LinkHeader,
    LinuxSllHeader, SingleVlanHeader,
};
use crate::kit::AllocError;
use crate::kit::Abort;
use crate::kit::Fail;

/// A packet by the bytes of its headers, the length of the target, and the bytes at the front of the target
/// afterwards, or why nothing is written.
struct Row {
    name: &'static str,
    link: &'static [u8],
    exts: &'static [&'static [u8]],
    /// The payload; `None` for the ARP request with two tags.
    payload: Option<(EtherType, &'static [u8])>,
    room: usize,
    wanted: Result<&'static [u8], BuildError>,
}

macro_rules! row {
    ($name:expr, $link:expr, $exts:expr, $payload:expr, $room:expr, $wanted:expr $(,)?) => {
        Row {
            name: $name,
            link: $link,
            exts: $exts,
            payload: $payload,
            room: $room,
            wanted: $wanted,
        }
    };
}

/// Two tags of these ether types after the addresses, and a byte of IPv4.
macro_rules! tags {
    ($a:expr, $b:expr, $c:expr, $d:expr $(,)?) => {
        Ok(&[
            0xFF, 0xFF, 0xFF, 0xFF, 0xFF, 0xFF, 2, 0, 0, 0, 0, 1, $a, $b, 0, 10, $c, $d, 0, 100, 0x08, 0x00, 0x45,
        ])
    };
}

/// Headers to all stations, with an ether type of 0, of VLAN tags, or of MACsec.
const BROADCAST: &[u8] = &[
    0xFF, 0xFF, 0xFF, 0xFF, 0xFF, 0xFF, 2, 0, 0x5E, 0x10, 0, 1, 0, 0,
];

const CUSTOMER: &[u8] = &[
    0xFF, 0xFF, 0xFF, 0xFF, 0xFF, 0xFF, 2, 0, 0, 0, 0, 1, 0x81, 0x00,
];

const SERVICE: &[u8] = &[
    0xFF, 0xFF, 0xFF, 0xFF, 0xFF, 0xFF, 2, 0, 0, 0, 0, 1, 0x88, 0xA8,
];

const DOUBLE: &[u8] = &[
    0xFF, 0xFF, 0xFF, 0xFF, 0xFF, 0xFF, 2, 0, 0, 0, 0, 1, 0x91, 0x00,
];

const NAMELESS: &[u8] = &[
    0xFF, 0xFF, 0xFF, 0xFF, 0xFF, 0xFF, 2, 0, 0, 0, 0, 1, 0x00, 0x00,
];

const SECURED: &[u8] = &[
    0xFF, 0xFF, 0xFF, 0xFF, 0xFF, 0xFF, 2, 0, 0, 0, 0, 1, 0x88, 0xE5,
];

/// Cooked captures that were sent to us: of Ethernet, with the ether type of a service tag, and of netlink.
const COOKED: &[u8] = &[0, 0, 0, 1, 0, 6, 2, 0, 0, 0, 0, 1, 0, 0, 0, 0];

const COOKED_SERVICE: &[u8] = &[0, 0, 0, 1, 0, 6, 2, 0, 0, 0, 0, 1, 0, 0, 0x88, 0xA8];

const NETLINK: &[u8] = &[0, 0, 3, 0x38, 0, 6, 2, 0, 0, 0, 0, 1, 0, 0, 0, 0];

/// SecTags with the packet number 1: before readable payloads, with the ether types 0 and 0x9100, and before
/// unreadable ones.
const READABLE: &[u8] = &[0, 0, 0, 0, 0, 1, 0, 0];

const READABLE_DOUBLE: &[u8] = &[0, 0, 0, 0, 0, 1, 0x91, 0x00];

const SEALED: &[u8] = &[0x0C, 0, 0, 0, 0, 1];

/// One byte of IPv4.
const BYTE: Option<(EtherType, &[u8])> = Some((EtherType::IPV4, &[0x45]));

const SPACE: SliceWriteSpaceError = SliceWriteSpaceError {
    required_len: 15,
    len: 14,
    layer: Layer::EtherPayload,
    layer_start_offset: 0,
};

/// The headers in the rows have ether types and short lengths that fit other payloads: those that are written differ.
#[rustfmt::skip]
static ROWS: [Row; 16] = [
    row!("the example", &[0; 14], &[&[0, 0x64, 0, 0]], BYTE, 19,
        Ok(&[0, 0, 0, 0, 0, 0, 0, 0, 0, 0, 0, 0, 0x81, 0x00, 0x00, 0x64, 0x08, 0x00, 0x45])),
    row!("an ARP request with two tags", BROADCAST, &[&[0, 10, 0, 0], &[0, 100, 0, 0]], None, 52, Ok(&TWICE_TAGGED_ARP_REQUEST)),
    row!("a SecTag names a length", COOKED, &[READABLE, &[0xAA, 0xBB, 0, 0]], Some((EtherType(0xCCDD), &[0x45])), 29,
        Ok(&[
            0, 0, 0, 1, 0, 6, 2, 0, 0, 0, 0, 1, 0, 0, 0x88, 0xE5, // cooked capture
            0x00, 0x07, 0, 0, 0, 1, 0x81, 0x00, // SecTag: an ether type, four bytes and one
            0xAA, 0xBB, 0xCC, 0xDD, 0x45,
        ])),
    row!("an encrypted payload", BROADCAST, &[SEALED], Some((EtherType::IPV4, &[0x11, 0x22])), 22,
        Ok(&[0xFF, 0xFF, 0xFF, 0xFF, 0xFF, 0xFF, 2, 0, 0x5E, 0x10, 0, 1, 0x88, 0xE5, 0x0C, 0x02, 0, 0, 0, 1, 0x11, 0x22])),
    row!("a header after it", BROADCAST, &[&[0, 1, 0, 0], SEALED, &[0, 2, 0, 0]], Some((EtherType::IPV4, &[])), 40,
        Err(BuildError::Sealed(1))),
    row!("a target that is too short", BROADCAST, &[], BYTE, 14, Err(BuildError::Space(SPACE))),
    row!("a capture of another link", NETLINK, &[], Some((EtherType::IPV4, &[])), 16,
        Err(BuildError::HardwareType(ArpHardwareId(824)))),
    // ether types that announce a VLAN tag are kept before one; no others are
    row!("no ether types", NAMELESS, &[&[0, 10, 0, 0], &[0, 100, 0x91, 0x00]], BYTE, 23, tags!(0x88, 0xA8, 0x81, 0x00)),
    row!("customer tags", CUSTOMER, &[&[0, 10, 0x81, 0x00], &[0, 100, 0x91, 0x00]], BYTE, 23, tags!(0x81, 0x00, 0x81, 0x00)),
    row!("service tags", SERVICE, &[&[0, 10, 0x88, 0xA8], &[0, 100, 0x91, 0x00]], BYTE, 23, tags!(0x88, 0xA8, 0x88, 0xA8)),
    row!("double tags", DOUBLE, &[&[0, 10, 0x91, 0x00], &[0, 100, 0x91, 0x00]], BYTE, 23, tags!(0x91, 0x00, 0x91, 0x00)),
    row!("IPv4 before a tag", DOUBLE, &[&[0, 10, 0x08, 0x00], &[0, 100, 0x91, 0x00]], BYTE, 23, tags!(0x91, 0x00, 0x81, 0x00)),
    row!("MACsec before a tag", SECURED, &[&[0, 10, 0x88, 0xA8], &[0, 100, 0x91, 0x00]], BYTE, 23, tags!(0x88, 0xA8, 0x88, 0xA8)),
    row!("a service tag in a cooked capture", COOKED_SERVICE, &[&[0, 10, 0, 0]], BYTE, 21,
        Ok(&[0, 0, 0, 1, 0, 6, 2, 0, 0, 0, 0, 1, 0, 0, 0x88, 0xA8, 0, 10, 0x08, 0x00, 0x45])),
    row!("0x9100 before a tag in a SecTag, after 0x8100", CUSTOMER, &[READABLE_DOUBLE, &[0, 10, 0, 0]], BYTE, 27,
        Ok(&[
            0xFF, 0xFF, 0xFF, 0xFF, 0xFF, 0xFF, 2, 0, 0, 0, 0, 1, 0x88, 0xE5, // Ethernet II
            0x00, 0x07, 0, 0, 0, 1, 0x91, 0x00, // SecTag: an ether type, four bytes and one
            0, 10, 0x08, 0x00, 0x45,
        ])),
    row!("0x8100 before ARP", CUSTOMER, &[], None, 42,
        Ok(&[
            0xFF, 0xFF, 0xFF, 0xFF, 0xFF, 0xFF, 2, 0, 0, 0, 0, 1, 0x08, 0x06, // Ethernet II
            0x00, 0x01, 0x08, 0x00, 0x06, 0x04, 0x00, 0x01, 0x02, 0x00, 0x5E, 0x10, 0x00, 0x01, // ARP
            0xC0, 0x00, 0x02, 0x01, 0x00, 0x00, 0x00, 0x00, 0x00, 0x00, 0xC0, 0x00, 0x02, 0x02,
        ])),
];

/// The header of Ethernet II if there are 14 bytes, else that of a cooked capture.
fn link(bytes: &[u8]) -> Result<LinkHeader, Fail> {
    if let Ok((header, [])) = Ethernet2Header::from_slice(bytes) {
        return Ok(LinkHeader::Ethernet2(header));
    }
    match LinuxSllHeader::from_slice(bytes) {
        Ok((header, _)) => Ok(LinkHeader::LinuxSll(header)),
        Err(error) => Err(error.into()),
    }
}

/// Up to three VLAN tags or SecTags, padded with default tags.
fn exts(list: &[&[u8]]) -> Result<[LinkExtHeader; 3], Fail> {
    let mut headers = [LinkExtHeader::Vlan(SingleVlanHeader::default()); 3];
    for (header, bytes) in headers.iter_mut().zip(list) {
        *header = ext(bytes)?;
    }
    Ok(headers)
}

/// Writes a packet to a target of bytes 0xAA.
fn writes(rt: &impl Abort, row: &Row, packet: &PacketBuilder<'_, '_>) {
    let (mut target, mut after) = ([0xAA; 64], [0xAA; 64]);
    let written = packet.write(&mut target[..row.room.min(64)]);
    let size = packet.size();
    match (&written, &row.wanted) {
        (Ok(len), Ok(front)) => {
            put(&mut after, 0, front);
            equal!(rt, row.name;
                *len => front.len(),
                size => front.len(),
            );
        }
        (Err(error), Err(wanted)) => equal!(rt, row.name; error => wanted),
        _ => equal!(rt, row.name; written.is_ok() => row.wanted.is_ok()),
    }
    equal!(rt, row.name; target => after);
}

#[test]
fn built_packets_are_the_captured_frames() -> Result<(), Fail> {
    let rt = crate::kit::HostRuntime;
    let arp = ArpPacket::from_slice(&TWICE_TAGGED_ARP_REQUEST[22..])?;
    for row in &ROWS {
        let content = match row.payload {
            Some((ether_type, payload)) => PacketContent::Payload(ether_type, payload),
            None => PacketContent::Arp(&arp),
        };
        let link_exts = exts(row.exts)?;
        let packet = PacketBuilder {
            link: link(row.link)?,
            link_exts: link_exts.get(..row.exts.len()).ok_or("three headers")?,
            content,
        };
        writes(&rt, row, &packet);
    }
    Ok(())
}

#[test]
fn each_tag_gets_the_ether_type_that_announces_it() {
    let rt = crate::kit::HostRuntime;
    let tags = [LinkExtHeader::Vlan(SingleVlanHeader::from_bytes([0x00, 0x64, 0x00, 0x00]))];
    let packet = PacketBuilder {
        link: LinkHeader::Ethernet2(Ethernet2Header::default()),
        link_exts: &tags,
        content: PacketContent::Payload(EtherType::IPV4, &[0x45]),
    };
    let (mut target, mut service) = ([0; 19], [0; 19]);
    let written = packet.write(&mut target);
    let service_tag = PacketBuilder {
        link: LinkHeader::Ethernet2(Ethernet2Header {
            ether_type: EtherType::PROVIDER_BRIDGING,
            ..Ethernet2Header::default()
        }),
        ..packet
    };
    let service_written = service_tag.write(&mut service);
    let customer = [0x81, 0x00, 0x00, 0x64, 0x08, 0x00, 0x45];
    let provider = [0x88, 0xA8, 0x00, 0x64, 0x08, 0x00, 0x45];
    equal!(rt, "the example";
        written => Ok(19),
        target.get(12..) => Some(customer.as_slice()),
        service_written => Ok(19),
        service.get(12..) => Some(provider.as_slice()),
    );
}

/// An error, and its text.
static TEXTS: [(BuildError, &str); 3] = [
    (
        BuildError::HardwareType(ArpHardwareId(824)),
        "No ether type can follow a header of cooked capture of hardware type 824.",
    ),
    (
        BuildError::Sealed(1),
        "A header follows the SecTag at index 1, whose payload is encrypted or changed.",
    ),
    (
        BuildError::Space(SPACE),
        "Not enough space to write Ether type payload to slice. Needed 15 byte(s), but only 14 byte(s) were available.",
    ),
];

#[test]
fn a_build_error_names_the_cause() -> Result<(), AllocError> {
    let rt = crate::kit::HostRuntime;
    for (error, text) in &TEXTS {
        let shown = format!("{error}");
        equal!(rt, text; shown.as_str() => *text);
    }
    Ok(())
}
