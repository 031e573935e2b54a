//! VLAN tags.
use crate::draw::Draw;
use crate::frames::{Frame, add_drawn, add_u16};
use crate::text::Text;
use etherpeel::{
    DoubleVlanSlice, LinkExtHeader, LinkExtSlice, SingleVlanHeader, SingleVlanHeaderSlice,
    SingleVlanSlice, VlanSlice,
};
use std::fmt;

/// Calls all that reads and writes VLAN tags.
pub(crate) fn calls(draw: &mut Draw, text: &mut Text) -> fmt::Result {
    let mut frame = Frame::new();
    for _ in 0..2u8 {
        add_u16(&mut frame, draw.short());
        add_u16(&mut frame, draw.ether_type());
    }
    let len = draw.below(8);
    add_drawn(draw, &mut frame, len);
    frame.truncate(draw.below(16));
    header(frame.as_slice(), text)?;
    header_view(frame.as_slice(), text)?;
    view(frame.as_slice(), text)?;
    double(frame.as_slice(), text)
}

fn header(bytes: &[u8], text: &mut Text) -> fmt::Result {
    let read = SingleVlanHeader::from_slice(bytes);
    text.add(&(&read, &SingleVlanHeader::read_from_slice(bytes)))?;
    if let Ok((header, _)) = read {
        let ext = LinkExtHeader::Vlan(header);
        text.add(&(&header.header_len(), &header.to_bytes()))?;
        text.add(&SingleVlanHeader::from_bytes(header.to_bytes()))?;
        text.add(&(&ext, &ext.header_len()))?;
    }
    Ok(())
}

fn header_view(bytes: &[u8], text: &mut Text) -> fmt::Result {
    let view = SingleVlanHeaderSlice::from_slice(bytes);
    text.add(&view)?;
    if let Ok(view) = view {
        text.add(&(&view.slice(), &view.to_header()))?;
        text.add(&(&view.priority_code_point(), &view.drop_eligible_indicator()))?;
        text.add(&(&view.vlan_identifier(), &view.ether_type()))?;
    }
    Ok(())
}

fn view(bytes: &[u8], text: &mut Text) -> fmt::Result {
    let view = SingleVlanSlice::from_slice(bytes);
    text.add(&view)?;
    if let Ok(view) = view {
        text.add(&(&view.slice(), &view.header_slice(), &view.to_header()))?;
        text.add(&(&view.priority_code_point(), &view.drop_eligible_indicator()))?;
        text.add(&(&view.vlan_identifier(), &view.ether_type()))?;
        text.add(&(&view.payload(), &view.payload_slice(), &view.header_len()))?;
        let ext = LinkExtSlice::Vlan(view);
        text.add(&(
            &ext,
            &ext.header_len(),
            &ext.to_header(),
            &ext.ether_payload(),
        ))?;
    }
    Ok(())
}

fn double(bytes: &[u8], text: &mut Text) -> fmt::Result {
    let (Ok(outer), Ok(single)) = (
        SingleVlanSlice::from_slice(bytes),
        SingleVlanSlice::from_slice(bytes),
    ) else {
        return Ok(());
    };
    slice(VlanSlice::SingleVlan(single), text)?;
    if let Ok(inner) = SingleVlanSlice::from_slice(outer.payload_slice()) {
        let both = DoubleVlanSlice { outer, inner };
        text.add(&(
            &both,
            &both.to_header(),
            &both.payload(),
            &both.payload_slice(),
        ))?;
        slice(VlanSlice::DoubleVlan(both), text)?;
    }
    Ok(())
}

fn slice(slice: VlanSlice<'_>, text: &mut Text) -> fmt::Result {
    let header = slice.to_header();
    text.add(&(&slice, &slice.payload(), &header, &header.next_header()))
}
