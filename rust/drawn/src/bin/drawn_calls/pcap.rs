//! The headers, records and blocks of captures.
use crate::captures::{Bytes, add_classic, drawn_capture};
use crate::draw::Draw;
use crate::text::{Text, WithText};
use etherpeel::ether_pcap::{
    ByteOrder, CaptureInterface, EnhancedPacket, FileHeader, InterfaceDescription, PcapRecord,
    PcapRecords, PcapngBlock, ReaderState, SectionHeader, SimplePacket, TimestampResolution,
};
use std::fmt;

/// Calls what reads and writes the headers of captures.
pub(crate) fn calls(draw: &mut Draw, text: &mut Text) -> fmt::Result {
    numbers(draw, text)?;
    if draw.flag() {
        let mut bytes = Bytes::new();
        let order = if draw.flag() {
            ByteOrder::BigEndian
        } else {
            ByteOrder::LittleEndian
        };
        add_classic(draw, order, &mut bytes);
        if draw.one_in(4) {
            bytes.truncate(draw.below(60));
        }
        return classic(draw, bytes.as_slice(), text);
    }
    let bytes = drawn_capture(draw);
    blocks(draw, bytes.as_slice(), text)
}

fn numbers(draw: &mut Draw, text: &mut Text) -> fmt::Result {
    let number = draw.next();
    let (short, half) = ((number % 0x1_0000) as u16, (number >> 32) as u32);
    for order in [ByteOrder::BigEndian, ByteOrder::LittleEndian] {
        let (low, high) = (order.bytes_of_u16(short), order.bytes_of_u32(half));
        text.add(&(&order, &low, &order.u16_of(low)))?;
        text.add(&(&high, &order.u32_of(high)))?;
        text.add(&order.u64_of(number.to_be_bytes()))?;
        text.add(&(
            &SectionHeader::to_bytes(order),
            &InterfaceDescription::nanosecond_options(order),
        ))?;
    }
    let magic = match draw.below(3) {
        0 => 0xA1B2_C3D4,
        1 => 0xA1B2_3C4D,
        _ => half,
    };
    let resolution = TimestampResolution::of_magic(magic);
    text.add(&resolution)?;
    match resolution {
        Some(it) => text.add(&it.magic()),
        None => Ok(()),
    }
}

fn classic(draw: &mut Draw, bytes: &[u8], text: &mut Text) -> fmt::Result {
    match FileHeader::from_slice(bytes) {
        Ok(header) => text.add(&(&header, &header.to_bytes()))?,
        Err(error) => text.add(&WithText(&error))?,
    }
    if let Ok(mut records) = PcapRecords::from_slice(bytes) {
        for _ in 0..6u8 {
            text.add(&(&records.header(), &records.offset(), &records.rest()))?;
            match records.next() {
                Some(Ok(packet)) => record(draw, &records.header(), &packet, text)?,
                Some(Err(fault)) => text.add(&(WithText(&fault), WithText(&fault.error)))?,
                None => return Ok(()),
            }
        }
    }
    Ok(())
}

fn record(
    draw: &mut Draw,
    file: &FileHeader,
    packet: &PcapRecord<'_>,
    text: &mut Text,
) -> fmt::Result {
    let mut bytes = Bytes::new();
    text.add(&(
        &packet,
        &packet.record_len(),
        &packet.nanoseconds(file.resolution),
    ))?;
    let header = packet.header_to_bytes(file.byte_order);
    for byte in header.iter().chain(packet.packet) {
        let _ = bytes.try_push(*byte);
    }
    bytes.truncate(draw.below(bytes.len() + 8));
    text.add(&(&header, &PcapRecord::from_slice(file, bytes.as_slice())))
}

fn blocks(draw: &mut Draw, bytes: &[u8], text: &mut Text) -> fmt::Result {
    let section = match SectionHeader::from_slice(bytes) {
        Ok(section) => section,
        Err(error) => return text.add(&WithText(&error)),
    };
    text.add(&section)?;
    let order = section.byte_order;
    let mut rest = bytes;
    for _ in 0..8u8 {
        match PcapngBlock::from_slice(order, rest) {
            Ok(block) => {
                text.add(&(&block, &block.block_len()))?;
                options(order, rest, text)?;
                body(draw, order, block.body, text)?;
                rest = rest.get(block.block_len()..).unwrap_or(&[]);
            }
            Err(error) => return text.add(&WithText(&error)),
        }
    }
    Ok(())
}

/// The options of a block.
fn options(order: ByteOrder, unit: &[u8], text: &mut Text) -> fmt::Result {
    if let Some(options) = ReaderState::Section(order).options(unit) {
        for option in options {
            text.add(&(&option.code, &option.value, &option.is_comment()))?;
        }
    }
    Ok(())
}

/// The body of a block, read as that of each kind of block.
fn body(draw: &mut Draw, order: ByteOrder, body: &[u8], text: &mut Text) -> fmt::Result {
    match InterfaceDescription::from_body(order, body) {
        Ok(interface) => described(draw, &interface, text)?,
        Err(error) => text.add(&WithText(&error))?,
    }
    text.add(&CaptureInterface::from_body(order, body))?;
    text.add(&SimplePacket::from_body(order, draw.word() % 100, body))?;
    match EnhancedPacket::from_body(order, body) {
        Ok(packet) => enhanced(order, &packet, text)?,
        Err(error) => text.add(&WithText(&error))?,
    }
    match EnhancedPacket::from_obsolete_body(order, body) {
        Ok(packet) => enhanced(order, &packet, text),
        Err(error) => text.add(&WithText(&error)),
    }
}

fn described(
    draw: &mut Draw,
    interface: &InterfaceDescription<'_>,
    text: &mut Text,
) -> fmt::Result {
    text.add(&(
        &interface,
        &interface.header_to_bytes(),
        &interface.trailer_to_bytes(),
    ))?;
    text.add(&(&interface.option(draw.short() % 16), &interface.fcs_len()))?;
    text.add(&(&interface.name(), &interface.description()))?;
    text.add(&(&interface.time_resolution(), &interface.time_offset()))
}

fn enhanced(order: ByteOrder, packet: &EnhancedPacket<'_>, text: &mut Text) -> fmt::Result {
    text.add(&(&packet, &packet.padding_len(), &packet.fcs_len(order)))?;
    text.add(&(&packet.direction(order), &packet.comment(order)))?;
    text.add(&(
        &packet.header_to_bytes(order),
        &packet.trailer_to_bytes(order),
    ))
}
