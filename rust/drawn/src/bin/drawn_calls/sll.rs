//! Linux cooked capture v1, and the link headers of a packet.
use crate::draw::Draw;
use crate::frames::{Frame, add_drawn, add_sll};
use crate::text::{Text, WithText};
use etherpeel::{
    EtherPayloadSlice, Ethernet2Slice, LinkHeader, LinkSlice, LinuxSllHeader, LinuxSllHeaderSlice,
    LinuxSllPayloadSlice, LinuxSllSlice,
};
use std::fmt;

/// Calls all that reads and writes a header of cooked capture v1, and the link headers of a packet.
pub(crate) fn calls(draw: &mut Draw, text: &mut Text) -> fmt::Result {
    let mut frame = Frame::new();
    add_sll(draw, &mut frame);
    let len = draw.below(10);
    add_drawn(draw, &mut frame, len);
    if draw.below(3) == 0 {
        frame.truncate(draw.below(24));
    }
    header(frame.as_slice(), text)?;
    header_view(frame.as_slice(), text)?;
    view(frame.as_slice(), text)?;
    links(frame.as_slice(), text)
}

fn header(bytes: &[u8], text: &mut Text) -> fmt::Result {
    match LinuxSllHeader::from_slice(bytes) {
        Ok((header, rest)) => {
            let mut target = [0u8; 17];
            text.add(&(&header, &rest, &header.header_len()))?;
            text.add(&(
                &header.to_bytes(),
                &LinuxSllHeader::from_bytes(header.to_bytes()),
            ))?;
            text.add(&header.write_to_slice(&mut target[..15]))?;
            text.add(&header.write_to_slice(&mut target))?;
            text.add(&target)?;
            link(LinkHeader::LinuxSll(header), text)
        }
        Err(error) => text.add(&WithText(&error)),
    }
}

fn link(mut header: LinkHeader, text: &mut Text) -> fmt::Result {
    text.add(&(&header, &header.header_len()))?;
    text.add(&(&header.ethernet2(), &header.linux_sll()))?;
    if let Some(ethernet) = header.mut_ethernet2() {
        ethernet.source = ethernet.destination;
    }
    if let Some(cooked) = header.mut_linux_sll() {
        cooked.sender_address_valid_length = 6;
    }
    text.add(&header)
}

fn header_view(bytes: &[u8], text: &mut Text) -> fmt::Result {
    let view = LinuxSllHeaderSlice::from_slice(bytes);
    text.add(&view)?;
    if let Ok(view) = view {
        text.add(&(&view.slice(), &view.to_header(), &view.packet_type()))?;
        text.add(&(&view.packet_type_number(), &view.arp_hardware_type()))?;
        text.add(&(
            &view.sender_address_valid_length(),
            &view.sender_address_full(),
        ))?;
        text.add(&(
            &view.sender_address(),
            &view.protocol_type(),
            &view.protocol_number(),
        ))?;
    }
    Ok(())
}

fn view(bytes: &[u8], text: &mut Text) -> fmt::Result {
    let view = LinuxSllSlice::from_slice(bytes);
    text.add(&view)?;
    if let Ok(view) = view {
        text.add(&(&view.slice(), &view.header_slice(), &view.to_header()))?;
        text.add(&(
            &view.packet_type(),
            &view.packet_type_number(),
            &view.arp_hardware_type(),
        ))?;
        text.add(&(
            &view.sender_address_valid_length(),
            &view.sender_address_full(),
        ))?;
        text.add(&(
            &view.sender_address(),
            &view.protocol_type(),
            &view.protocol_number(),
        ))?;
        text.add(&(&view.payload(), &view.payload_slice(), &view.header_len()))?;
    }
    Ok(())
}

fn links(bytes: &[u8], text: &mut Text) -> fmt::Result {
    if let Ok(cooked) = LinuxSllSlice::from_slice(bytes) {
        payloads(bytes, text)?;
        link_view(LinkSlice::LinuxSllPayload(cooked.payload()), text)?;
        link_view(LinkSlice::LinuxSll(cooked), text)?;
    }
    if let Ok(ethernet) = Ethernet2Slice::from_slice_without_fcs(bytes) {
        link(LinkHeader::Ethernet2(ethernet.to_header()), text)?;
        link_view(LinkSlice::EtherPayload(ethernet.payload()), text)?;
        link_view(LinkSlice::Ethernet2(ethernet), text)?;
    }
    Ok(())
}

fn link_view(view: LinkSlice<'_>, text: &mut Text) -> fmt::Result {
    text.add(&(&view, &view.to_header()))?;
    text.add(&(&view.ether_payload(), &view.sll_payload()))
}

fn payloads(bytes: &[u8], text: &mut Text) -> fmt::Result {
    let Ok(cooked) = LinuxSllSlice::from_slice(bytes) else {
        return Ok(());
    };
    match EtherPayloadSlice::try_from(cooked.payload()) {
        Ok(ether) => text.add(&LinuxSllPayloadSlice::from(ether)),
        Err(other) => text.add(&other),
    }
}
