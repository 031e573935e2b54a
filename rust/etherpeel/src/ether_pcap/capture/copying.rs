//! Units of a copy that is another capture than the file.

use crate::ether_pcap::pcapng::simple_packet::captured_len;
use crate::ether_pcap::word_bytes::word;
use crate::ether_pcap::{ByteOrder, CapturedPacket, CopiedUnit, FileHeader, PcapRecord, PcapngBlock};

/// The file header with its snap length raised.
#[inline]
pub(in crate::ether_pcap) fn changed_header<'a>(header: &FileHeader, raise: u32, unit: &'a [u8]) -> CopiedUnit<'a> {
    if unit.len() < FileHeader::LEN {
        return CopiedUnit::Same(unit);
    }
    let snap_len = raised_len(raise, header.snap_len);
    with_snap_len(header.byte_order, 16, snap_len, unit)
}

/// The section header without a section length.
#[inline]
pub(in crate::ether_pcap) fn changed_section<'a>(unit: &'a [u8]) -> CopiedUnit<'a> {
    if unit.len() < 24 {
        return CopiedUnit::Same(unit);
    }
    CopiedUnit::SectionLen {
        front: &unit[..16],
        rest: &unit[24..],
    }
}

/// What a copy has for a block that is neither a section header nor a packet.
#[inline]
pub(in crate::ether_pcap) fn changed_block<'a>(order: ByteOrder, raise: u32, block: &'a [u8]) -> CopiedUnit<'a> {
    if block.len() < 4 {
        return CopiedUnit::Same(block);
    }
    match order.u32_at(block, 0) {
        PcapngBlock::INTERFACE_DESCRIPTION => changed_interface(order, raise, block),
        PcapngBlock::UNCOPIED_CUSTOM => CopiedUnit::LeftOut,
        _ => CopiedUnit::Same(block),
    }
}

/// The interface description with its snap length raised.
#[inline]
fn changed_interface<'a>(order: ByteOrder, raise: u32, block: &'a [u8]) -> CopiedUnit<'a> {
    if block.len() < 16 {
        return CopiedUnit::Same(block);
    }
    let snap_len = raised_len(raise, order.u32_at(block, 12));
    with_snap_len(order, 12, snap_len, block)
}

/// Tests that a packet's block still has that packet after snap lengths are raised.
#[inline]
pub(in crate::ether_pcap) fn keeps_block(
    order: ByteOrder,
    raise: u32,
    block: &[u8],
    packet: &CapturedPacket<'_>,
) -> bool {
    if block.len() < 4 || order.u32_at(block, 0) != PcapngBlock::SIMPLE_PACKET {
        return true;
    }
    let snap_len = raised_len(raise, packet.snap_len);
    captured_len(snap_len, packet.original_len) as usize == packet.packet.len()
}

/// The unit with another snap length at the offset `at`.
#[inline]
fn with_snap_len<'a>(order: ByteOrder, at: usize, snap_len: u32, unit: &'a [u8]) -> CopiedUnit<'a> {
    CopiedUnit::SnapLen {
        front: &unit[..at],
        snap_len: word(order, snap_len),
        rest: &unit[at + 4..],
    }
}

/// Raises a snap length, to the most bytes that are captured of a packet. One that is not less, and 0 (no limit), are
/// unchanged: libpcap reads several interfaces only if their snap lengths are equal, and 0 as that number.
#[inline]
fn raised_len(raise: u32, snap_len: u32) -> u32 {
    if snap_len == 0 {
        return 0;
    }
    snap_len.max(
        snap_len
            .saturating_add(raise)
            .min(PcapRecord::MAX_CAPTURED_LEN),
    )
}
