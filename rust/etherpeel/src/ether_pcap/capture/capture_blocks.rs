//! The blocks of a section of a pcapng file, read in the order of the file.

use crate::ether_pcap::capture::reader_state::begins_section;
use crate::ether_pcap::pcapng::enhanced_packet::packet_of_body;
use crate::ether_pcap::{
    ByteOrder, CaptureError, CaptureInterface, CapturedPacket, DescribedInterfaces, PcapngBlock,
    ReadUnit, SimplePacket, UnitContent,
};

/// Reads the block at the front of bytes that do not begin with a section header.
#[inline(always)]
pub(in crate::ether_pcap) fn read_block<'a, I: DescribedInterfaces>(
    byte_order: ByteOrder,
    interfaces: &I,
    bytes: &'a [u8],
) -> Result<ReadUnit<'a>, CaptureError> {
    let block = match PcapngBlock::from_slice(byte_order, bytes) {
        Ok(block) => block,
        Err(error) => return Err(CaptureError::Block(error)),
    };
    match read_body(byte_order, interfaces, block) {
        Ok(content) => Ok(ReadUnit {
            len: block.block_len(),
            content,
        }),
        Err(error) => Err(error),
    }
}

/// Reads the block at the front of a slice, if it is an enhanced packet: its length and its packet. Returns `None` for
/// another block.
#[inline(always)]
pub(in crate::ether_pcap) fn read_enhanced_packet<'a, I: DescribedInterfaces>(
    byte_order: ByteOrder,
    interfaces: &I,
    bytes: &'a [u8],
) -> Result<Option<(usize, CapturedPacket<'a>)>, CaptureError> {
    if begins_section(bytes) {
        return Ok(None);
    }
    let block = match PcapngBlock::from_slice(byte_order, bytes) {
        Ok(block) => block,
        Err(error) => return Err(CaptureError::Block(error)),
    };
    match block.block_type {
        PcapngBlock::ENHANCED_PACKET => {
            match enhanced_packet(byte_order, interfaces, true, block.body) {
                Ok(packet) => Ok(Some((block.block_len(), packet))),
                Err(error) => Err(error),
            }
        }
        _ => Ok(None),
    }
}

/// Reads what a block says, by its type.
#[inline(always)]
fn read_body<'a, I: DescribedInterfaces>(
    byte_order: ByteOrder,
    interfaces: &I,
    block: PcapngBlock<'a>,
) -> Result<UnitContent<'a>, CaptureError> {
    match block.block_type {
        PcapngBlock::INTERFACE_DESCRIPTION => {
            let interface = described(byte_order, block.body)?;
            Ok(UnitContent::Interface(interface))
        }
        PcapngBlock::SIMPLE_PACKET => {
            let packet = simple_packet(byte_order, interfaces, block.body)?;
            Ok(UnitContent::Packet(packet))
        }
        PcapngBlock::ENHANCED_PACKET => {
            let packet = enhanced_packet(byte_order, interfaces, true, block.body)?;
            Ok(UnitContent::Packet(packet))
        }
        PcapngBlock::PACKET => {
            let packet = enhanced_packet(byte_order, interfaces, false, block.body)?;
            Ok(UnitContent::Packet(packet))
        }
        _ => Ok(UnitContent::Other),
    }
}

/// Reads the body of an interface description.
#[inline]
fn described(byte_order: ByteOrder, body: &[u8]) -> Result<CaptureInterface, CaptureError> {
    match CaptureInterface::from_body(byte_order, body) {
        Ok(interface) => Ok(interface),
        Err(error) => Err(CaptureError::Body(error)),
    }
}

/// Reads the body of a simple packet, whose interface is the first of the section.
#[inline]
fn simple_packet<'a, I: DescribedInterfaces>(
    byte_order: ByteOrder,
    interfaces: &I,
    body: &'a [u8],
) -> Result<CapturedPacket<'a>, CaptureError> {
    let Some(interface) = interface_at(interfaces, 0) else {
        return Err(CaptureError::NoInterface(0));
    };
    let packet = match SimplePacket::from_body(byte_order, interface.snap_len, body) {
        Ok(packet) => packet,
        Err(error) => return Err(CaptureError::Body(error)),
    };
    Ok(CapturedPacket {
        time: None,
        interface: Some(0),
        direction: None,
        comment: None,
        original_len: packet.original_len,
        link_type: interface.link_type,
        snap_len: interface.snap_len,
        fcs_len: interface.fcs_len,
        packet: packet.packet,
    })
}

/// Reads the body of an enhanced packet, or of an obsolete packet block.
#[inline]
fn enhanced_packet<'a, I: DescribedInterfaces>(
    byte_order: ByteOrder,
    interfaces: &I,
    is_enhanced: bool,
    body: &'a [u8],
) -> Result<CapturedPacket<'a>, CaptureError> {
    let packet = match packet_of_body(byte_order, is_enhanced, body) {
        Ok(packet) => packet,
        Err(error) => return Err(CaptureError::Body(error)),
    };
    let Some(interface) = interface_at(interfaces, packet.interface) else {
        return Err(CaptureError::NoInterface(packet.interface));
    };
    Ok(CapturedPacket {
        time: interface.time(packet.time),
        interface: Some(packet.interface),
        direction: packet.direction(byte_order),
        comment: packet.comment(byte_order),
        original_len: packet.original_len,
        link_type: interface.link_type,
        snap_len: interface.snap_len,
        fcs_len: first_of(packet.fcs_len(byte_order), interface.fcs_len),
        packet: packet.packet,
    })
}

/// The length that the packet's flags give, else that of its interface.
#[inline]
fn first_of(of_packet: Option<u8>, of_interface: Option<u8>) -> Option<u8> {
    match of_packet {
        Some(len) => Some(len),
        None => of_interface,
    }
}

/// The interface with this number, counted from 0.
#[inline]
fn interface_at<I: DescribedInterfaces>(interfaces: &I, number: u32) -> Option<CaptureInterface> {
    interfaces.interface(number)
}
