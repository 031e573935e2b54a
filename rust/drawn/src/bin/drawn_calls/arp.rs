//! ARP.
use crate::draw::Draw;
use crate::frames::{Frame, add_arp};
use crate::text::{Text, WithText};
use etherpeel::{
    ArpEthIpv4Packet, ArpHardwareId, ArpOperation, ArpPacket, ArpPacketSlice, EtherType,
};
use std::fmt;

/// Calls all that reads and writes an ARP packet.
pub(crate) fn calls(draw: &mut Draw, text: &mut Text) -> fmt::Result {
    let mut frame = Frame::new();
    add_arp(draw, &mut frame);
    if draw.one_in(3) {
        frame.truncate(draw.below(40));
    }
    view(frame.as_slice(), text)?;
    if let Ok(packet) = ArpPacket::from_slice(frame.as_slice()) {
        told(&packet, text)?;
        replaced(draw, packet, text)?;
    }
    made(draw, text)
}

fn view(bytes: &[u8], text: &mut Text) -> fmt::Result {
    match ArpPacketSlice::from_slice(bytes) {
        Ok(view) => fields(&view, text),
        Err(error) => text.add(&WithText(&error)),
    }
}

fn fields(view: &ArpPacketSlice<'_>, text: &mut Text) -> fmt::Result {
    text.add(&(&view, &view.slice()))?;
    text.add(&(&view.hw_addr_type(), &view.proto_addr_type()))?;
    text.add(&(
        &view.hw_addr_size(),
        &view.proto_addr_size(),
        &view.operation(),
    ))?;
    text.add(&(&view.sender_hw_addr(), &view.sender_protocol_addr()))?;
    text.add(&(&view.target_hw_addr(), &view.target_protocol_addr()))?;
    text.add(&view.to_packet())
}

fn told(packet: &ArpPacket, text: &mut Text) -> fmt::Result {
    text.add(&(&packet, &packet.packet_len(), &packet.to_bytes()))?;
    text.add(&(&packet.hw_addr_size(), &packet.protocol_addr_size()))?;
    text.add(&(&packet.sender_hw_addr(), &packet.sender_protocol_addr()))?;
    text.add(&(&packet.target_hw_addr(), &packet.target_protocol_addr()))?;
    match packet.try_eth_ipv4() {
        Ok(fixed) => {
            text.add(&(&fixed, &fixed.to_bytes(), &fixed.to_arp_packet()))?;
            text.add(&(&fixed.sender_ipv4_addr(), &fixed.target_ipv4_addr()))
        }
        Err(error) => text.add(&WithText(&error)),
    }
}

fn replaced(draw: &mut Draw, mut packet: ArpPacket, text: &mut Text) -> fmt::Result {
    let mut bytes = [0u8; 300];
    draw.fill(&mut bytes);
    let len = draw.address_len();
    let other = if draw.one_in(4) {
        draw.address_len()
    } else {
        len
    };
    let hardware = packet.set_hw_addrs(&bytes[..len], &bytes[..other]);
    text.add(&(&hardware, &packet))?;
    if let Err(error) = hardware {
        text.add(&WithText(&error))?;
    }
    let protocol = packet.set_protocol_addrs(&bytes[..other], &bytes[..len]);
    text.add(&(&protocol, &packet))?;
    if let Err(error) = protocol {
        text.add(&WithText(&error))?;
    }
    text.add(&ArpEthIpv4Packet::try_from(packet))
}

fn made(draw: &mut Draw, text: &mut Text) -> fmt::Result {
    let mut bytes = [0u8; 300];
    draw.fill(&mut bytes);
    let (hardware, protocol) = (draw.address_len(), draw.address_len());
    let third = if draw.one_in(4) {
        draw.address_len()
    } else {
        hardware
    };
    let packet = ArpPacket::new(
        ArpHardwareId(draw.hardware_type()),
        EtherType(draw.ether_type()),
        ArpOperation(draw.small_u16()),
        &bytes[..hardware],
        &bytes[1..protocol + 1],
        &bytes[2..third + 2],
        &bytes[3..protocol + 3],
    );
    match packet {
        Ok(packet) => text.add(&(&packet, &packet.to_bytes())),
        Err(error) => text.add(&WithText(&error)),
    }
}
