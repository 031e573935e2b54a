//! Fields with numbers, their names, and errors.
use crate::draw::Draw;
use crate::text::{Text, WithText};
use etherpeel::ether_base::header_slice_error::HeaderSliceError;
use etherpeel::ether_base::{big_endian, slice_len};
use etherpeel::err::{Layer, linux_sll};
use etherpeel::{
    ArpHardwareId, ArpOperation, EtherType, LenSource, LinuxNonstandardEtherType,
    LinuxSllPacketType, LinuxSllProtocolType, MacsecAn, MacsecShortLen, VlanId, VlanPcp,
    write_front,
};
use std::fmt;

/// Calls what reads, writes and names the numbers in fields.
pub(crate) fn calls(draw: &mut Draw, text: &mut Text) -> fmt::Result {
    values(draw, text)?;
    names(draw, text)?;
    protocols(draw, text)?;
    errors(draw, text)?;
    ends(draw, text)
}

fn values(draw: &mut Draw, text: &mut Text) -> fmt::Result {
    let (byte, number) = (draw.byte(), draw.small_u16());
    let (short, len) = (draw.byte(), draw.below(80));
    if let Ok(id) = VlanId::try_new(number) {
        text.add(&(WithText(&id), &id.value(), &u16::from(id)))?;
    }
    if let Ok(pcp) = VlanPcp::try_new(byte) {
        text.add(&(WithText(&pcp), &pcp.value(), &u8::from(pcp)))?;
    }
    if let Ok(an) = MacsecAn::try_new(byte) {
        text.add(&(WithText(&an), &an.value(), &u8::from(an)))?;
    }
    if let Ok(short_len) = MacsecShortLen::try_from_u8(short) {
        text.add(&(
            WithText(&short_len),
            &short_len.value(),
            &u8::from(short_len),
        ))?;
    }
    text.add(&(&VlanId::try_new(number), &VlanId::try_from(number)))?;
    text.add(&(&VlanPcp::try_new(byte), &VlanPcp::try_from(byte)))?;
    text.add(&(&MacsecAn::try_new(byte), &MacsecAn::try_from(byte)))?;
    text.add(&(
        &MacsecShortLen::try_from_u8(short),
        &MacsecShortLen::try_from(short),
    ))?;
    text.add(&MacsecShortLen::from_len(len))
}

fn names(draw: &mut Draw, text: &mut Text) -> fmt::Result {
    let number = draw.ether_type();
    let ether_type = EtherType(number);
    text.add(&(
        &ether_type,
        &ether_type.name(),
        &ether_type.announces_vlan(),
    ))?;
    text.add(&(&EtherType::from(number), &u16::from(ether_type)))?;
    let hardware = ArpHardwareId(draw.small_u16());
    text.add(&(&hardware, &hardware.name(), &u16::from(hardware)))?;
    text.add(&(&ArpHardwareId::from(number), &ArpOperation(number)))
}

fn protocols(draw: &mut Draw, text: &mut Text) -> fmt::Result {
    let number = draw.small_u16();
    let packet_type = LinuxSllPacketType::try_from(number % 10);
    text.add(&packet_type)?;
    if let Ok(packet_type) = packet_type {
        text.add(&u16::from(packet_type))?;
    }
    let other = LinuxNonstandardEtherType::try_from(number % 64);
    text.add(&other)?;
    if let Ok(other) = other {
        text.add(&u16::from(other))?;
    }
    let hardware = draw.hardware_type();
    let protocol = LinuxSllProtocolType::try_from((ArpHardwareId(hardware), number));
    text.add(&protocol)?;
    if let Ok(mut protocol) = protocol {
        protocol.change_value(draw.ether_type());
        let changed = u16::from(protocol);
        text.add(&(&protocol, &changed))?;
    }
    Ok(())
}

fn layer(draw: &mut Draw) -> Layer {
    match draw.below(8) {
        0 => Layer::LinuxSllHeader,
        1 => Layer::Ethernet2Header,
        2 => Layer::EtherPayload,
        3 => Layer::VlanHeader,
        4 => Layer::MacsecHeader,
        5 => Layer::MacsecPacket,
        _ => Layer::Arp,
    }
}

fn len_source(draw: &mut Draw) -> LenSource {
    match draw.below(4) {
        0 => LenSource::MacsecShortLength,
        1 => LenSource::ArpAddrLengths,
        _ => LenSource::Slice,
    }
}

fn errors(draw: &mut Draw, text: &mut Text) -> fmt::Result {
    let layer = layer(draw);
    let required_len = draw.below(2000);
    let error = slice_len::too_short(required_len, draw.below(2000), len_source(draw), layer);
    let offset = draw.below(100);
    text.add(&(WithText(&layer), &layer.error_title()))?;
    text.add(&(WithText(&error), &error.add_offset(offset)))?;
    let whole: HeaderSliceError<linux_sll::HeaderError> = HeaderSliceError::Len(error);
    text.add(&(WithText(&whole), &whole.add_slice_offset(offset)))
}

fn ends(draw: &mut Draw, text: &mut Text) -> fmt::Result {
    let mut bytes = [0u8; 16];
    draw.fill(&mut bytes);
    let slice = &bytes[..draw.below(17)];
    let at = draw.below(20);
    let number = draw.next();
    let (short, half) = ((number % 0x1_0000) as u16, (number >> 32) as u32);
    text.add(&(
        &big_endian::u16_in(slice),
        &big_endian::u32_in(slice),
        &big_endian::u64_in(slice),
    ))?;
    text.add(&(
        &big_endian::u16_at(slice, at),
        &big_endian::u32_at(slice, at),
    ))?;
    text.add(&(
        &big_endian::u64_at(slice, at),
        &big_endian::array_at::<4>(slice, at),
    ))?;
    text.add(&(
        &big_endian::bytes_of_u16(short),
        &big_endian::bytes_of_u32(half),
    ))?;
    text.add(&(
        &big_endian::bytes_of_u64(number),
        &big_endian::u16_of(short.to_le_bytes()),
    ))?;
    text.add(&big_endian::u32_of(half.to_le_bytes()))?;
    text.add(&big_endian::u64_of(number.to_le_bytes()))?;
    let mut target = [0u8; 12];
    let len = draw.below(13);
    text.add(&write_front::put(half.to_be_bytes(), &mut target[..len]))?;
    text.add(&write_front::rest_from(&mut target[..len], draw.below(13), Layer::Arp))
}
