//! Whole packets, and edits of them.
use crate::draw::Draw;
use crate::text::{Text, WithText};
use crate::walks::drawn_frame;
use etherpeel::ether_packet::{
    BuildError, PacketBuilder, PacketContent, PacketParts, PacketSlice, ReplaceError, TagError,
    ethernet_front, find_vlan, min_snap_len, outer_vlan, pop_vlan, push_vlan, replace_arp,
    replace_link, replace_link_ext, replace_vlan_id, set_tpid, set_vlan_id, set_vlan_tag,
};
use etherpeel::ether_peel::Start;
use etherpeel::{EtherType, LinkExtHeader, SingleVlanHeader, VlanId, VlanPcp};
use std::fmt;

/// Calls what reads, edits and builds a packet.
pub(crate) fn calls(draw: &mut Draw, text: &mut Text) -> fmt::Result {
    let (start, frame) = drawn_frame(draw);
    let packet = PacketSlice::from_slice(start, frame.as_slice());
    told(&packet, text)?;
    tags(&packet, text)?;
    text.add(&(
        &ethernet_front(frame.as_slice()),
        &outer_vlan(start, frame.as_slice()),
    ))?;
    text.add(&min_snap_len(start, frame.as_slice()))?;
    if let Some(mut parts) = packet.to_parts() {
        rebuilt(draw, &mut parts, text)?;
    }
    edits(draw, start, frame.as_slice(), text)?;
    replaced(draw, start, frame.as_slice(), text)
}

fn told(packet: &PacketSlice<'_>, text: &mut Text) -> fmt::Result {
    text.add(&(&packet, &packet.link(), &packet.link_ext_count()))?;
    text.add(&(&packet.link_ext(1), &packet.link_exts()))?;
    text.add(&(&packet.arp(), &packet.arp_offset(), &packet.vlan()))?;
    text.add(&(&packet.vlan_ids(), &packet.outermost_vlan()))?;
    text.add(&(&packet.macsec(), &packet.ether_payload()))?;
    text.add(&(&packet.is_complete(), &packet.min_snap_len()))
}

fn tags(packet: &PacketSlice<'_>, text: &mut Text) -> fmt::Result {
    for index in 0..packet.link_ext_count() {
        text.add(&packet.link_ext(index))?;
    }
    Ok(())
}

fn rebuilt(draw: &mut Draw, parts: &mut PacketParts<'_>, text: &mut Text) -> fmt::Result {
    let mut target = [0u8; 600];
    let len = if draw.one_in(4) { draw.below(600) } else { 600 };
    text.add(&(&parts, &parts.link_exts(), &parts.frame_len()))?;
    built(&parts.builder(), &mut target[..len], text)?;
    text.add(&parts.builder().write_unchanged(&mut target[..len]))?;
    let (index, ext) = (draw.below(4), LinkExtHeader::Vlan(drawn_tag(draw)));
    text.add(&(&parts.set_link_ext(index, &ext), &parts))?;
    text.add(&parts.write_frame(&mut target[..len]))?;
    text.add(&target)
}

fn built(builder: &PacketBuilder<'_, '_>, target: &mut [u8], text: &mut Text) -> fmt::Result {
    let sealed = PacketBuilder {
        link: builder.link,
        link_exts: builder.link_exts,
        content: PacketContent::Payload(EtherType(0x0800), &[1, 2, 3]),
    };
    text.add(&(&builder, &builder.size(), &sealed.size()))?;
    for result in [builder.write(target), sealed.write(target)] {
        text.add(&result)?;
        if let Err(error) = result {
            build_error(&error, text)?;
        }
    }
    text.add(&&target[..])
}

fn build_error(error: &BuildError, text: &mut Text) -> fmt::Result {
    text.add(&WithText(&error))
}

fn drawn_tag(draw: &mut Draw) -> SingleVlanHeader {
    let bytes = draw.word().to_be_bytes();
    SingleVlanHeader {
        ether_type: EtherType(draw.ether_type()),
        ..SingleVlanHeader::from_bytes(bytes)
    }
}

/// An identifier; often one of the frame's tags.
fn drawn_id(draw: &mut Draw, start: Start, frame: &[u8]) -> VlanId {
    let ids = PacketSlice::from_slice(start, frame).vlan_ids();
    match ids.as_slice().get(draw.below(3)) {
        Some(id) => *id,
        None => drawn_tag(draw).vlan_id,
    }
}

/// A frame of at most 512 bytes, after four free bytes.
fn buffer_of(frame: &[u8]) -> [u8; 520] {
    let mut buffer = [0u8; 520];
    for (byte, target) in frame.iter().zip(buffer.iter_mut().skip(4)) {
        *target = *byte;
    }
    buffer
}

fn edits(draw: &mut Draw, start: Start, frame: &[u8], text: &mut Text) -> fmt::Result {
    let end = (frame.len() + 4).min(516);
    let (id, other, index) = (drawn_id(draw, start, frame), drawn_tag(draw), draw.below(4));
    let mut buffer = buffer_of(frame);
    text.add(&find_vlan(start, &buffer[4..end], id))?;
    text.add(&replace_vlan_id(start, &mut buffer[4..end], id, other.vlan_id))?;
    tag_result(set_vlan_id(start, &mut buffer[4..end], index, id), text)?;
    let (pcp, dei) = (
        VlanPcp::try_new(draw.byte() % 8).unwrap_or(VlanPcp::ZERO),
        draw.flag(),
    );
    tag_result(
        set_vlan_tag(start, &mut buffer[4..end], index, pcp, dei, other.vlan_id),
        text,
    )?;
    tag_result(
        set_tpid(
            start,
            &mut buffer[4..end],
            index,
            EtherType(draw.ether_type()),
        ),
        text,
    )?;
    text.add(&&buffer[..end])?;
    tag_result(
        push_vlan(
            start,
            &mut buffer[..end],
            other,
            EtherType(draw.ether_type()),
        ),
        text,
    )?;
    text.add(&&buffer[..end])?;
    match pop_vlan(start, &mut buffer[4..end]) {
        Ok(tag) => text.add(&tag)?,
        Err(error) => text.add(&WithText(&error))?,
    }
    text.add(&&buffer[..end])
}

fn tag_result(edited: Result<(), TagError>, text: &mut Text) -> fmt::Result {
    match edited {
        Ok(()) => text.add(&"done"),
        Err(error) => text.add(&WithText(&error)),
    }
}

fn replaced(draw: &mut Draw, start: Start, frame: &[u8], text: &mut Text) -> fmt::Result {
    let end = (frame.len() + 4).min(516);
    let mut buffer = buffer_of(frame);
    let (_, other) = drawn_frame(draw);
    let other_packet = PacketSlice::from_slice(start, other.as_slice());
    if let Some(parts) = other_packet.to_parts() {
        replace_result(replace_link(start, &mut buffer[4..end], &parts.link), text)?;
        if let Some(arp) = &parts.arp {
            replace_result(replace_arp(start, &mut buffer[4..end], arp), text)?;
        }
    }
    let own = PacketSlice::from_slice(start, frame);
    for (index, ext) in own.link_exts().iter().enumerate() {
        let header = match draw.below(3) {
            0 => LinkExtHeader::Vlan(drawn_tag(draw)),
            _ => ext.slice.to_header(),
        };
        replace_result(
            replace_link_ext(start, &mut buffer[4..end], index, &header),
            text,
        )?;
    }
    if let Some(arp) = own.arp() {
        let mut packet = arp.to_packet();
        packet.operation = etherpeel::ArpOperation(draw.small_u16());
        replace_result(replace_arp(start, &mut buffer[4..end], &packet), text)?;
    }
    text.add(&&buffer[..end])
}

fn replace_result(edited: Result<(), ReplaceError>, text: &mut Text) -> fmt::Result {
    match edited {
        Ok(()) => text.add(&"done"),
        Err(error) => text.add(&WithText(&error)),
    }
}
