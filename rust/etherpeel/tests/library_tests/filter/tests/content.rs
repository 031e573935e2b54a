//! The part of a captured packet that is walked, and the examples of `ether_content`.
use crate::checks::equal;
use etherpeel::ether_content::{Content, NoRoom, PacketEdit, edit_packet, headers_len, is_cut, selects};
use etherpeel::ether_filter::Filter;
use etherpeel::ether_pcap::{CapturedPacket, LinkType};
use etherpeel::ether_peel::Start;
use etherpeel::{ArpHardwareId, EtherType, VlanId};
use crate::kit::AllocError;
use crate::kit::Fail;

/// A header of cooked capture v2 that announces an ARP packet, without that packet (LINKTYPE_LINUX_SLL2).
const LINUX_SLL2: [u8; 20] = [
    0x08, 0x06, 0x00, 0x00, 0x00, 0x00, 0x00, 0x03, 0x00, 0x01, 0x00, 0x06, 0x02, 0x00, 0x00, 0x00,
    0x00, 0x01, 0x00, 0x00,
];

fn packet(
    link_type: u16,
    fcs_len: Option<u8>,
    original_len: u32,
    packet: &[u8],
) -> CapturedPacket<'_> {
    CapturedPacket {
        time: None,
        interface: None,
        direction: None,
        comment: None,
        original_len,
        link_type: LinkType(link_type),
        snap_len: 262_144,
        fcs_len,
        packet,
    }
}

/// Two bytes of IPv4 after a header of cooked capture v1 on the loopback device, hardware type 772
/// (LINKTYPE_LINUX_SLL).
const LOOPBACK: [u8; 18] = [
    0x00, 0x00, 0x03, 0x04, 0x00, 0x06, 0x00, 0x00, 0x00, 0x00, 0x00, 0x00, 0x00, 0x00, 0x08, 0x00,
    0x45, 0x00,
];

const BYTES: [u8; 18] = [0xFF; 18];

/// A link type, the length of a check sequence, the original length, the bytes, and the frame in them that is walked.
type Framed = (
    &'static str,
    u16,
    Option<u8>,
    u32,
    &'static [u8],
    Option<(Start, usize)>,
);

#[rustfmt::skip]
static FRAMES: [Framed; 9] = [
    ("Ethernet", 1, None, 18, &BYTES, Some((Start::Ethernet2, 18))),
    ("with its check sequence", 1, Some(4), 18, &BYTES, Some((Start::Ethernet2Fcs, 18))),
    ("cut within it", 1, Some(4), 20, &BYTES, Some((Start::Ethernet2, 16))),
    ("cut before it", 1, Some(4), 60, &BYTES, Some((Start::Ethernet2, 18))),
    ("of two bytes", 1, Some(2), 18, &BYTES, Some((Start::Ethernet2, 16))),
    ("cooked capture v1", 113, None, 18, &BYTES, Some((Start::LinuxSll, 18))),
    ("the loopback device", 113, None, 18, &LOOPBACK, Some((Start::EtherType(EtherType::IPV4), 2))),
    ("raw IP", 101, None, 18, &BYTES, None),
    ("ARP in cooked capture v2", 276, None, 20, &LINUX_SLL2, Some((Start::EtherType(EtherType::ARP), 0))),
];

#[test]
fn the_link_type_decides_where_a_frame_begins() {
    let rt = crate::kit::HostRuntime;
    for &(name, link_type, fcs_len, original_len, bytes, wanted) in &FRAMES {
        let frame = Content::of(&packet(link_type, fcs_len, original_len, bytes)).frame();
        let found = match frame {
            Some((start, frame)) => Some((start, frame.len())),
            None => None,
        };
        equal!(rt, name; found => wanted);
    }
}

#[test]
fn an_ethernet_packet_has_a_frame() {
    let rt = crate::kit::HostRuntime;
    let packet = packet(1, None, 60, &[0xFF; 14]);
    equal!(rt, "the example";
        Content::of(&packet).frame() => Some((Start::Ethernet2, [0xFF; 14].as_slice())),
        is_cut(&packet) => true,
    );
}

#[test]
fn a_loopback_packet_has_a_cooked_header() {
    let rt = crate::kit::HostRuntime;
    let found = match Content::of(&packet(113, None, 18, &LOOPBACK)) {
        Content::LinuxSll(header, payload) => {
            Some((header.hardware_type, header.protocol, payload))
        }
        _ => None,
    };
    equal!(rt, "the example";
        found => Some((ArpHardwareId::LOOPBACK, EtherType::IPV4, [0x45, 0x00].as_slice())),
    );
}

/// An Ethernet II header, VLAN 291 and two bytes of IPv4.
const TAGGED: [u8; 20] = [
    0xFF, 0xFF, 0xFF, 0xFF, 0xFF, 0xFF, 0x02, 0x00, 0x00, 0x00, 0x00, 0x01, 0x81, 0x00, 0xB1, 0x23,
    0x08, 0x00, 0x45, 0x00,
];

static SELECTED: [(&str, bool); 2] = [("vlan 291 and cut", true), ("arp", false)];

#[test]
fn a_filter_selects_captured_packets() -> Result<(), Fail> {
    let rt = crate::kit::HostRuntime;
    for &(text, wanted) in &SELECTED {
        let filter = Filter::parse(text.as_bytes()).ok().ok_or("an expression")?;
        let found = selects(&filter, &packet(1, None, 60, &TAGGED[..18]));
        equal!(rt, text; found => wanted);
    }
    Ok(())
}

/// A link type, the length of a check sequence, the original length, the bytes, and the number of bytes that are
/// headers.
#[rustfmt::skip]
static HEADERS: [(&str, u16, Option<u8>, u32, &[u8], usize); 7] = [
    ("a tag and a payload", 1, None, 60, &TAGGED, 18),
    ("a tag cut short", 1, None, 60, &TAGGED_CUT, 14),
    ("a check sequence", 1, Some(4), 18, &BYTES, 14),
    ("the loopback device", 113, None, 18, &LOOPBACK, 16),
    ("cooked capture v2 without its ARP packet", 276, None, 60, &LINUX_SLL2, 20),
    ("cooked capture v2 cut short", 276, None, 60, &BYTES, 0),
    ("raw IP", 101, None, 60, &TAGGED, 0),
];

const TAGGED_CUT: [u8; 17] = [
    0xFF, 0xFF, 0xFF, 0xFF, 0xFF, 0xFF, 0x02, 0x00, 0x00, 0x00, 0x00, 0x01, 0x81, 0x00, 0xB1, 0x23,
    0x08,
];

#[test]
fn headers_have_a_length_if_none_is_cut() {
    let rt = crate::kit::HostRuntime;
    for &(name, link_type, fcs_len, original_len, bytes, wanted) in &HEADERS {
        let found = headers_len(&packet(link_type, fcs_len, original_len, bytes));
        equal!(rt, name; found => wanted);
    }
}

/// Tests that a packet is edited to these bytes, and to this original length.
fn is_edited(edit: PacketEdit, original_len: u64, bytes: &[u8]) -> bool {
    let mut buffer = [0xEE; 24];
    let Ok(Some(edited)) = edit_packet(edit, &packet(1, None, 60, &TAGGED), &mut buffer) else {
        return false;
    };
    let found = buffer.get(edited.start..edited.end);
    (edited.original_len, found) == (original_len, Some(bytes))
}

const POPPED: [u8; 16] = [
    0xFF, 0xFF, 0xFF, 0xFF, 0xFF, 0xFF, 0x02, 0x00, 0x00, 0x00, 0x00, 0x01, 0x08, 0x00, //
    0x45, 0x00,
];

const PUSHED: [u8; 24] = [
    0xFF, 0xFF, 0xFF, 0xFF, 0xFF, 0xFF, 0x02, 0x00, 0x00, 0x00, 0x00, 0x01, 0x88, 0xA8, //
    0x00, 0x05, 0x81, 0x00, 0xB1, 0x23, 0x08, 0x00, //
    0x45, 0x00,
];

/// The same with VLAN 5 in place of VLAN 291.
const OTHER: [u8; 20] = [
    0xFF, 0xFF, 0xFF, 0xFF, 0xFF, 0xFF, 0x02, 0x00, 0x00, 0x00, 0x00, 0x01, 0x81, 0x00, //
    0xB0, 0x05, 0x08, 0x00, //
    0x45, 0x00,
];

#[test]
fn each_edit_changes_the_packet_as_the_filter_sees_it() -> Result<(), Fail> {
    let rt = crate::kit::HostRuntime;
    let (tpid, vlan_id) = (EtherType::PROVIDER_BRIDGING, VlanId::try_new(5)?);
    let (push, from) = (
        PacketEdit::PushVlan { tpid, vlan_id },
        VlanId::try_new(291)?,
    );
    let set = PacketEdit::SetVlan { from, to: vlan_id };
    let are_edited = [
        is_edited(PacketEdit::CutToHeaders, 60, &TAGGED[..18]),
        is_edited(PacketEdit::PopVlan, 56, &POPPED),
        is_edited(push, 64, &PUSHED),
        is_edited(set, 60, &OTHER),
    ];
    equal!(rt, "each edit"; are_edited => [true; 4]);
    let raw = packet(101, None, 60, &TAGGED);
    let unedited = [
        edit_packet(PacketEdit::PopVlan, &raw, &mut [0; 24]),
        edit_packet(push, &packet(1, None, 60, &TAGGED), &mut [0; 23]),
    ];
    equal!(rt, "no frame, and no room"; unedited => [Ok(None), Err(NoRoom)]);
    Ok(())
}

#[test]
fn no_room_names_the_bytes_that_are_missing() -> Result<(), AllocError> {
    let rt = crate::kit::HostRuntime;
    let text = "The buffer has no room for the packet and four bytes more.";
    let shown = format!("{}", NoRoom);
    equal!(rt, "no room"; shown.as_str() => text);
    Ok(())
}
