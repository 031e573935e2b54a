//! Values that are compared.
use crate::draw::Draw;
use crate::frames::{Frame, add, add_announced, add_sll};
use crate::sll2::add_sll2;
use crate::text::Text;
use crate::walks::drawn_frame;
use etherpeel::ether_sll2::{LinuxSll2Header, LinuxSll2HeaderSlice, LinuxSll2Slice};
use etherpeel::{
    ArpPacket, ArpPacketSlice, Ethernet2Header, Ethernet2HeaderSlice, Ethernet2Slice,
    LinuxSllHeader, LinuxSllHeaderSlice, LinuxSllSlice, MacsecHeader, MacsecHeaderSlice,
    MacsecSlice, SingleVlanHeader, SingleVlanHeaderSlice, SingleVlanSlice,
};
use std::fmt;

/// Compares the views and the headers of two lists of bytes, which differ in one byte or not at all.
pub(crate) fn calls(draw: &mut Draw, text: &mut Text) -> fmt::Result {
    let kind = draw.below(6);
    let frame = front(draw, kind);
    let mut other = Frame::new();
    let changed = draw.below(frame.len() * 2);
    for (index, byte) in frame.as_slice().iter().enumerate() {
        add(
            &mut other,
            if index == changed { draw.byte() } else { *byte },
        );
    }
    let (a, b) = (frame.as_slice(), other.as_slice());
    match kind {
        0 => ethernet2(a, b, text),
        1 => vlan(a, b, text),
        2 => macsec(a, b, text),
        3 => sll(a, b, text),
        4 => sll2(a, b, text),
        _ => arp(a, b, text),
    }
}

fn front(draw: &mut Draw, kind: usize) -> Frame {
    let mut frame = Frame::new();
    match kind {
        0 => return drawn_frame(draw).1,
        1 => add_announced(draw, &mut frame, 0x8100),
        2 => add_announced(draw, &mut frame, 0x88E5),
        3 => add_sll(draw, &mut frame),
        4 => add_sll2(draw, &mut frame),
        _ => add_announced(draw, &mut frame, 0x0806),
    }
    frame
}

fn ethernet2(a: &[u8], b: &[u8], text: &mut Text) -> fmt::Result {
    let headers = Ethernet2Header::from_slice(a) == Ethernet2Header::from_slice(b);
    let views = Ethernet2HeaderSlice::from_slice(a) == Ethernet2HeaderSlice::from_slice(b);
    let frames = Ethernet2Slice::from_slice_without_fcs(a)
        == Ethernet2Slice::from_slice_without_fcs(b);
    let with_fcs = Ethernet2Slice::from_slice_with_crc32_fcs(a)
        == Ethernet2Slice::from_slice_with_crc32_fcs(b);
    text.add(&(&headers, &views, &frames, &with_fcs))
}

fn vlan(a: &[u8], b: &[u8], text: &mut Text) -> fmt::Result {
    let headers = SingleVlanHeader::from_slice(a) == SingleVlanHeader::from_slice(b);
    let views = SingleVlanHeaderSlice::from_slice(a) == SingleVlanHeaderSlice::from_slice(b);
    let whole = SingleVlanSlice::from_slice(a) == SingleVlanSlice::from_slice(b);
    text.add(&(&headers, &views, &whole))
}

fn macsec(a: &[u8], b: &[u8], text: &mut Text) -> fmt::Result {
    let headers = MacsecHeader::from_slice(a) == MacsecHeader::from_slice(b);
    let views = MacsecHeaderSlice::from_slice(a) == MacsecHeaderSlice::from_slice(b);
    let whole = MacsecSlice::from_slice(a) == MacsecSlice::from_slice(b);
    text.add(&(&headers, &views, &whole))
}

fn sll(a: &[u8], b: &[u8], text: &mut Text) -> fmt::Result {
    let headers = LinuxSllHeader::from_slice(a) == LinuxSllHeader::from_slice(b);
    let views = LinuxSllHeaderSlice::from_slice(a) == LinuxSllHeaderSlice::from_slice(b);
    let whole = LinuxSllSlice::from_slice(a) == LinuxSllSlice::from_slice(b);
    text.add(&(&headers, &views, &whole))
}

fn sll2(a: &[u8], b: &[u8], text: &mut Text) -> fmt::Result {
    let headers = LinuxSll2Header::from_slice(a) == LinuxSll2Header::from_slice(b);
    let views = LinuxSll2HeaderSlice::from_slice(a) == LinuxSll2HeaderSlice::from_slice(b);
    let whole = LinuxSll2Slice::from_slice(a) == LinuxSll2Slice::from_slice(b);
    text.add(&(&headers, &views, &whole))
}

fn arp(a: &[u8], b: &[u8], text: &mut Text) -> fmt::Result {
    let packets = ArpPacket::from_slice(a) == ArpPacket::from_slice(b);
    let views = ArpPacketSlice::from_slice(a) == ArpPacketSlice::from_slice(b);
    text.add(&(&packets, &views))
}
