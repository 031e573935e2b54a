//! Captures as packets: read, copied, edited, selected and printed.
use crate::captures::drawn_capture;
use crate::draw::Draw;
use crate::filters::{Words, add_filter};
use crate::text::{Text, WithText};
use arrayvec::ArrayVec;
use etherpeel::ether_content::{
    Content, PacketEdit, edit_packet, headers_len, is_cut, is_undecided, program, selects,
    without_fcs,
};
use etherpeel::ether_filter::Filter;
use etherpeel::ether_pcap::{CaptureInterface, CapturePackets, CaptureReader, CapturedPacket, CopyMode};
use etherpeel::{EtherType, VlanId};
use std::fmt;

/// The interfaces of a capture: few, so that some captures have too many.
type Interfaces = ArrayVec<CaptureInterface, 2>;

/// Calls what reads, copies and edits a capture.
pub(crate) fn calls(draw: &mut Draw, text: &mut Text) -> fmt::Result {
    let capture = drawn_capture(draw);
    let mode = if draw.one_in(4) {
        CopyMode::Exact
    } else {
        CopyMode::Changed {
            raise: draw.word() % 3 * 4,
        }
    };
    let mut reader: CaptureReader<Interfaces> = CaptureReader::new(ArrayVec::new());
    let mut rest = capture.as_slice();
    for _ in 0..8u8 {
        text.add(&reader.has_begun())?;
        let len = match reader.read(rest) {
            Ok(unit) => {
                text.add(&unit)?;
                let bytes = rest.get(..unit.len).unwrap_or(&[]);
                text.add(&reader.copy_unit(mode, bytes))?;
                if let Some(packet) = &unit.packet {
                    text.add(&reader.copies_packet(mode, bytes, packet))?;
                    edited(draw, &reader, bytes, packet, text)?;
                    selected(draw, packet, text)?;
                }
                unit.len
            }
            Err(error) => {
                text.add(&(WithText(&error), &error.required_len()))?;
                break;
            }
        };
        rest = rest.get(len..).unwrap_or(&[]);
    }
    whole(capture.as_slice(), text)
}

fn whole(capture: &[u8], text: &mut Text) -> fmt::Result {
    let mut packets = CapturePackets::from_slice(capture);
    for _ in 0..8u8 {
        text.add(&(&packets.offset(), &packets.rest().len()))?;
        match packets.next() {
            Some(Ok(packet)) => contents(&packet, text)?,
            Some(Err(fault)) => text.add(&(WithText(&fault), WithText(&fault.error)))?,
            None => return Ok(()),
        }
    }
    Ok(())
}

fn contents(packet: &CapturedPacket<'_>, text: &mut Text) -> fmt::Result {
    let content = Content::of(packet);
    text.add(&(&packet, &content, &content.is_unknown(), &content.frame()))?;
    text.add(&(&is_cut(packet), &headers_len(packet), &without_fcs(packet)))
}

fn drawn_edit(draw: &mut Draw) -> PacketEdit {
    let (from, to) = (vlan_id(draw), vlan_id(draw));
    match draw.below(4) {
        0 => PacketEdit::CutToHeaders,
        1 => PacketEdit::PopVlan,
        2 => PacketEdit::PushVlan {
            tpid: EtherType(draw.ether_type()),
            vlan_id: to,
        },
        _ => PacketEdit::SetVlan { from, to },
    }
}

fn vlan_id(draw: &mut Draw) -> VlanId {
    match VlanId::try_new(draw.short() % 4096) {
        Ok(id) => id,
        Err(_) => VlanId::ZERO,
    }
}

fn edited(
    draw: &mut Draw,
    reader: &CaptureReader<Interfaces>,
    unit: &[u8],
    packet: &CapturedPacket<'_>,
    text: &mut Text,
) -> fmt::Result {
    let mut buffer = [0u8; 520];
    let room = if draw.one_in(8) { draw.below(520) } else { 520 };
    let edit = drawn_edit(draw);
    let edited = edit_packet(edit, packet, &mut buffer[..room]);
    text.add(&(&edit, &edit.growth(), &edited))?;
    match edited {
        Ok(Some(it)) => {
            let bytes = buffer.get(it.start..it.end).unwrap_or(&[]);
            edited_unit(reader, unit, bytes, it.original_len, text)
        }
        Ok(None) => Ok(()),
        Err(error) => text.add(&WithText(&error)),
    }
}

fn edited_unit<'a>(
    reader: &CaptureReader<Interfaces>,
    unit: &'a [u8],
    bytes: &'a [u8],
    original_len: u64,
    text: &mut Text,
) -> fmt::Result {
    text.add(&(&bytes, &reader.edit_unit(unit, bytes, original_len)))
}

fn selected(draw: &mut Draw, packet: &CapturedPacket<'_>, text: &mut Text) -> fmt::Result {
    let mut words = Words::new();
    add_filter(draw, &mut words);
    let Ok(filter) = Filter::parse(words.as_slice()) else {
        return Ok(());
    };
    text.add(&(&selects(&filter, packet), &is_undecided(&filter, packet)))?;
    text.add(&program::selects(filter.instructions(), packet))?;
    text.add(&program::is_undecided(filter.instructions(), packet))
}
