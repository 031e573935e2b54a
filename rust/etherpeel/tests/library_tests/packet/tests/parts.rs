//! Packets that are read, and then written with their headers unchanged, or with other headers.
use super::frames::{CHECKED, INTEGRITY, SECOND_TAG_CUT, TWICE_TAGGED_ARP_REQUEST};
use super::{equal, ext, put};
use etherpeel::ether_packet::{PacketBuilder, PacketContent, PacketSlice, ReplaceError};
use etherpeel::ether_peel::Start;
use etherpeel::EtherType;
use etherpeel::err::{Layer, SliceWriteSpaceError};
use crate::kit::Abort;
use crate::kit::Fail;

/// A packet of netlink, hardware type 824, on the loopback device. Its protocol number is kept.
const NETLINK: [u8; 18] = [
    0, 4, 0x03, 0x38, 0, 0, 0, 0, 0, 0, 0, 0, 0, 0, 0, 0x10, 0x11, 0x22,
];

/// An Ethernet II header, a SecTag with both reserved bits whose short length gives 6 bytes of secured data, these
/// from the ether type on, and 2 bytes of an integrity check value.
const NAMED: [u8; 28] = [
    0xFF, 0xFF, 0xFF, 0xFF, 0xFF, 0xFF, 2, 0, 0, 0, 0, 1, 0x88, 0xE5, // Ethernet II
    0x00, 0xC6, 0, 0, 0, 1, 0x08, 0x00, // SecTag
    0x45, 0x11, 0x22, 0x33, 0xEE, 0xEE,
];

/// [`NAMED`] without the reserved bits, up to the integrity check value.
const NAMED_AGAIN: &[u8] = &[
    0xFF, 0xFF, 0xFF, 0xFF, 0xFF, 0xFF, 2, 0, 0, 0, 0, 1, 0x88, 0xE5, // Ethernet II
    0x00, 0x06, 0, 0, 0, 1, 0x08, 0x00, // SecTag
    0x45, 0x11, 0x22, 0x33,
];

/// [`NAMED`] without the reserved bits.
const NAMED_WHOLE: [u8; 28] = [
    0xFF, 0xFF, 0xFF, 0xFF, 0xFF, 0xFF, 2, 0, 0, 0, 0, 1, 0x88, 0xE5, // Ethernet II
    0x00, 0x06, 0, 0, 0, 1, 0x08, 0x00, // SecTag
    0x45, 0x11, 0x22, 0x33, 0xEE, 0xEE,
];

/// An Ethernet II header, a SecTag whose short length gives 4 bytes of secured data, these, which are its ether type
/// and half a VLAN tag, and 2 bytes of an integrity check value.
const CUT_IN_SEC_TAG: [u8; 26] = [
    0xFF, 0xFF, 0xFF, 0xFF, 0xFF, 0xFF, 2, 0, 0, 0, 0, 1, 0x88, 0xE5, // Ethernet II
    0x00, 0x04, 0, 0, 0, 1, 0x81, 0x00, // SecTag
    0x00, 0x64, 0xEE, 0xEE,
];

/// The SecTag of [`INTEGRITY`] with its ether type, and another packet number.
const RENUMBERED: [u8; 16] = [
    0x22, 0x2A, 1, 2, 3, 4, 0x12, 0x15, 0x35, 0x24, 0xC0, 0x89, 0x5E, 0x81, 0x08, 0x00,
];

/// An ARP request, padded to the least length of a frame without its check sequence (IEEE 802.3, 4.4.2).
const PADDED_ARP_REQUEST: [u8; 60] = [
    0xFF, 0xFF, 0xFF, 0xFF, 0xFF, 0xFF, 0x02, 0x00, 0x00, 0x00, 0x00, 0x01, 0x08, 0x06, // Ethernet II
    0x00, 0x01, 0x08, 0x00, 0x06, 0x04, 0x00, 0x01, 0x02, 0x00, 0x00, 0x00, 0x00, 0x01, 0xC0, 0x00,
    0x02, 0x01, // ARP
    0x00, 0x00, 0x00, 0x00, 0x00, 0x00, 0xC0, 0x00, 0x02, 0x02, //
    0x00, 0x00, 0x00, 0x00, 0x00, 0x00, 0x00, 0x00, 0x00, 0x00, 0x00, 0x00, 0x00, 0x00, 0x00, 0x00,
    0x00, 0x00, // padding
];

/// A start, the first bytes of a frame, and those of the list that is written.
type Row = (
    &'static str,
    Start,
    &'static [u8],
    usize,
    &'static [u8],
    usize,
);

#[rustfmt::skip]
static ROWS: [Row; 6] = [
    ("two tags", Start::Ethernet2, &TWICE_TAGGED_ARP_REQUEST, 50, &TWICE_TAGGED_ARP_REQUEST, 50),
    ("up to the integrity check value", Start::Ethernet2, &NAMED, 28, NAMED_AGAIN, 26),
    ("the example of IEEE 802.1AE", Start::Ethernet2, &INTEGRITY, 86, &INTEGRITY, 70),
    ("without the check sequence", Start::Ethernet2Fcs, &TWICE_TAGGED_ARP_REQUEST, 20, &TWICE_TAGGED_ARP_REQUEST, 16),
    ("without the padding", Start::Ethernet2, &PADDED_ARP_REQUEST, 60, &PADDED_ARP_REQUEST, 42),
    ("netlink", Start::LinuxSll, &NETLINK, 18, &NETLINK, 18),
];

/// Writes the parts of a packet unchanged to a target of bytes 0xAA, and compares its front.
fn goes_back(rt: &impl Abort, name: &str, start: Start, frame: &[u8], wanted: &[u8]) {
    let (mut target, mut after) = ([0xAA; 96], [0xAA; 96]);
    put(&mut after, 0, wanted);
    let Some(parts) = PacketSlice::from_slice(start, frame).to_parts() else {
        panic!("{name}: no link");
    };
    let written = parts.builder().write_unchanged(&mut target);
    equal!(rt, name;
        written => Ok(wanted.len()),
        target => after,
    );
}

#[test]
fn parts_are_written_as_they_were_read() {
    let rt = crate::kit::HostRuntime;
    for &(name, start, frame, len, wanted, written_len) in &ROWS {
        let wanted = wanted.get(..written_len).unwrap_or(&[]);
        goes_back(&rt, name, start, frame.get(..len).unwrap_or(&[]), wanted);
    }
}

/// A start, a frame, the whole frame that is written, and the lengths of the rest and the trailer.
type WholeRow = (
    &'static str,
    Start,
    &'static [u8],
    &'static [u8],
    usize,
    usize,
);

#[rustfmt::skip]
static WHOLE_ROWS: [WholeRow; 8] = [
    ("padding", Start::Ethernet2, &PADDED_ARP_REQUEST, &PADDED_ARP_REQUEST, 18, 0),
    ("padding and a check sequence", Start::Ethernet2Fcs, &PADDED_ARP_REQUEST, &PADDED_ARP_REQUEST, 14, 4),
    ("an integrity check value", Start::Ethernet2, &NAMED, &NAMED_WHOLE, 4, 2),
    ("an integrity check value and a check sequence", Start::Ethernet2Fcs, &INTEGRITY, &INTEGRITY, 40, 16),
    ("the example of IEEE 802.1AE", Start::Ethernet2, &INTEGRITY, &INTEGRITY, 40, 16),
    ("a check sequence", Start::Ethernet2Fcs, &CHECKED, &CHECKED, 1, 4),
    ("a tag that is cut off", Start::Ethernet2, &SECOND_TAG_CUT, &SECOND_TAG_CUT, 2, 0),
    ("a tag that is cut off in a SecTag", Start::Ethernet2, &CUT_IN_SEC_TAG, &CUT_IN_SEC_TAG, 2, 2),
];

/// Writes the whole frame of a packet to a target of bytes 0xAA.
fn goes_back_whole(rt: &impl Abort, row: WholeRow) {
    let (name, start, frame, wanted, rest_len, trailer_len) = row;
    let (mut target, mut after) = ([0xAA; 96], [0xAA; 96]);
    put(&mut after, 0, wanted);
    let Some(parts) = PacketSlice::from_slice(start, frame).to_parts() else {
        panic!("{name}: no link");
    };
    let lens = (parts.rest.len(), parts.trailer.len(), parts.frame_len());
    let written = parts.write_frame(&mut target);
    equal!(rt, name;
        lens => (rest_len, trailer_len, wanted.len()),
        written => Ok(wanted.len()),
        target => after,
    );
}

#[test]
fn whole_frames_are_written_as_they_were_read() {
    let rt = crate::kit::HostRuntime;
    for &row in &WHOLE_ROWS {
        goes_back_whole(&rt, row);
    }
}

#[test]
fn a_whole_frame_gets_another_packet_number() -> Result<(), Fail> {
    let rt = crate::kit::HostRuntime;
    let packet = PacketSlice::from_slice(Start::Ethernet2, &INTEGRITY);
    let Some(mut parts) = packet.to_parts() else {
        panic!("no link");
    };
    let tag = ext(&RENUMBERED)?;
    let missing = parts.set_link_ext(1, &tag);
    let set = parts.set_link_ext(0, &tag);
    let (mut target, mut wanted) = ([0; 86], INTEGRITY);
    put(&mut wanted, 14, &RENUMBERED);
    let written = parts.write_frame(&mut target);
    equal!(rt, "another packet number";
        missing => Err(ReplaceError::NoLinkExt(1)),
        set => Ok(()),
        written => Ok(86),
        target => wanted,
    );
    Ok(())
}

#[test]
fn a_target_without_room_for_the_padding_is_unchanged() {
    let rt = crate::kit::HostRuntime;
    let packet = PacketSlice::from_slice(Start::Ethernet2, &PADDED_ARP_REQUEST);
    let Some(parts) = packet.to_parts() else {
        panic!("no link");
    };
    let mut target = [0xAA; 59];
    let error = SliceWriteSpaceError {
        required_len: 60,
        len: 59,
        layer: Layer::EtherPayload,
        layer_start_offset: 0,
    };
    let refused = parts.write_frame(&mut target);
    equal!(rt, "a byte less";
        refused => Err(error),
        target => [0xAA; 59],
    );
}

#[test]
fn a_frame_is_written_without_its_outer_tag() {
    let rt = crate::kit::HostRuntime;
    let packet = PacketSlice::from_slice(Start::Ethernet2, &TWICE_TAGGED_ARP_REQUEST);
    let Some(parts) = packet.to_parts() else {
        panic!("no link");
    };
    let exts = parts.link_exts();
    let (count, ether_type) = (exts.len(), parts.ether_type);
    let outer = PacketBuilder {
        link_exts: exts.get(1..).unwrap_or(&[]),
        ..parts.builder()
    };
    let mut target = [0; 46];
    let written = outer.write(&mut target);
    equal!(rt, "the customer tag";
        count => 2,
        ether_type => EtherType(0),
        written => Ok(46),
        target.get(..12) => Some(&TWICE_TAGGED_ARP_REQUEST[..12]),
        target.get(14..) => Some(&TWICE_TAGGED_ARP_REQUEST[18..]),
    );
}

#[test]
fn packets_without_a_link_have_no_parts() {
    let rt = crate::kit::HostRuntime;
    let tag = [0x00, 0x64, 0x08, 0x00];
    let start = Start::EtherType(EtherType::VLAN_TAGGED_FRAME);
    let parts = PacketSlice::from_slice(start, &tag).to_parts();
    let cut = PacketSlice::from_slice(Start::Ethernet2, &tag).to_parts();
    equal!(rt, "a tag, and a cut header"; [parts.is_none(), cut.is_none()] => [true; 2]);
}

#[test]
fn a_target_without_room_for_the_payload_is_unchanged() {
    let rt = crate::kit::HostRuntime;
    let Some(parts) = PacketSlice::from_slice(Start::LinuxSll, &NETLINK).to_parts() else {
        panic!("no link");
    };
    let mut target = [0xAA; 17];
    let error = SliceWriteSpaceError {
        required_len: 18,
        len: 17,
        layer: Layer::EtherPayload,
        layer_start_offset: 0,
    };
    let builder = parts.builder();
    let is_payload = matches!(builder.content, PacketContent::Payload(_, [0x11, 0x22]));
    let refused = builder.write_unchanged(&mut target);
    equal!(rt, "a byte less";
        is_payload => true,
        refused => Err(error),
        target => [0xAA; 17],
    );
}
