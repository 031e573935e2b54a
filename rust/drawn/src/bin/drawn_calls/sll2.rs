//! Linux cooked capture v2.
use crate::draw::Draw;
use crate::frames::{Frame, add, add_all, add_drawn, add_typed, add_u16};
use crate::text::{Text, WithText};
use etherpeel::ether_sll2::{LinuxSll2Header, LinuxSll2HeaderSlice, LinuxSll2Slice};
use std::fmt;

/// Calls all that reads and writes a header of cooked capture v2.
pub(crate) fn calls(draw: &mut Draw, text: &mut Text) -> fmt::Result {
    let mut frame = Frame::new();
    add_sll2(draw, &mut frame);
    if draw.one_in(3) {
        frame.truncate(draw.below(28));
    }
    header(frame.as_slice(), text)?;
    header_view(frame.as_slice(), text)?;
    view(frame.as_slice(), text)
}

/// Adds a header of cooked capture v2, and its payload.
pub(crate) fn add_sll2(draw: &mut Draw, frame: &mut Frame) {
    let mut payload = Frame::new();
    add_typed(draw, &mut payload);
    let (ether_type, payload) = payload.as_slice().split_at(2.min(payload.len()));
    add_all(frame, ether_type);
    add_u16(frame, 0);
    add_drawn(draw, frame, 4);
    add_u16(frame, draw.hardware_type());
    add(frame, draw.byte() % 9);
    add(frame, draw.byte() % 10);
    add_drawn(draw, frame, 8);
    add_all(frame, payload);
}

fn header(bytes: &[u8], text: &mut Text) -> fmt::Result {
    match LinuxSll2Header::from_slice(bytes) {
        Ok((header, rest)) => {
            text.add(&(&header, &rest, &header.header_len()))?;
            text.add(&(
                &header.to_bytes(),
                &LinuxSll2Header::from_bytes(header.to_bytes()),
            ))
        }
        Err(error) => text.add(&WithText(&error)),
    }
}

fn header_view(bytes: &[u8], text: &mut Text) -> fmt::Result {
    let view = LinuxSll2HeaderSlice::from_slice(bytes);
    text.add(&view)?;
    if let Ok(view) = view {
        text.add(&(&view.slice(), &view.to_header(), &view.packet_type()))?;
        text.add(&(
            &view.packet_type_number(),
            &view.arp_hardware_type(),
            &view.interface_index(),
        ))?;
        text.add(&(
            &view.sender_address_valid_length(),
            &view.sender_address_full(),
        ))?;
        text.add(&(
            &view.sender_address(),
            &view.protocol_type(),
            &view.protocol_number(),
        ))?;
    }
    Ok(())
}

fn view(bytes: &[u8], text: &mut Text) -> fmt::Result {
    let view = LinuxSll2Slice::from_slice(bytes);
    text.add(&view)?;
    if let Ok(view) = view {
        text.add(&(&view.slice(), &view.header_slice(), &view.to_header()))?;
        text.add(&(
            &view.packet_type(),
            &view.packet_type_number(),
            &view.arp_hardware_type(),
        ))?;
        text.add(&(
            &view.sender_address_valid_length(),
            &view.sender_address_full(),
        ))?;
        text.add(&(
            &view.sender_address(),
            &view.protocol_type(),
            &view.protocol_number(),
        ))?;
        text.add(&(&view.payload(), &view.payload_slice(), &view.header_len()))?;
        text.add(&(&view.interface_index(), &view.start()))?;
    }
    Ok(())
}
