//! The units of edited packets.

use crate::ether_pcap::word_bytes::{four_words, len_word, padded_len, seven_words, word};
use crate::ether_pcap::{ByteOrder, EditedUnit, FileHeader, PcapRecord, PcapngBlock};

/// The record with other captured bytes and another original length.
#[inline]
pub(in crate::ether_pcap) fn edited_record<'a>(
    header: &FileHeader,
    unit: &[u8],
    packet: &'a [u8],
    original_len: u32,
) -> Option<EditedUnit<'a>> {
    let order = header.byte_order;
    if unit.len() < PcapRecord::HEADER_LEN {
        return None;
    }
    Some(EditedUnit::Record {
        header: four_words(
            word_at(unit, 0),
            word_at(unit, 4),
            len_word(order, packet.len()),
            word(order, original_len),
        ),
        packet,
    })
}

/// The block with other captured bytes and another original length. `None` for a simple packet, and if the block would
/// be too long.
#[inline]
pub(in crate::ether_pcap) fn edited_block<'a>(
    order: ByteOrder,
    block: &'a [u8],
    packet: &'a [u8],
    original_len: u32,
) -> Option<EditedUnit<'a>> {
    if block.len() < PcapngBlock::MIN_LEN {
        return None;
    }
    match order.u32_at(block, 0) {
        PcapngBlock::ENHANCED_PACKET | PcapngBlock::PACKET => {
            edited_enhanced_packet(order, block, packet, original_len)
        }
        _ => None,
    }
}

/// Does as `edited_block`, for an enhanced packet block or an obsolete packet block.
#[inline]
fn edited_enhanced_packet<'a>(
    order: ByteOrder,
    block: &'a [u8],
    packet: &'a [u8],
    original_len: u32,
) -> Option<EditedUnit<'a>> {
    if block.len() < 32 || block.len() > PcapngBlock::MAX_LEN as usize {
        return None;
    }
    let captured_len = order.u32_at(block, 20);
    if captured_len > PcapRecord::MAX_CAPTURED_LEN {
        return None;
    }
    let options_at = 28 + padded_len(captured_len as usize);
    let end = block.len() - 4;
    if end < options_at {
        return None;
    }
    let options = &block[options_at..end];
    let padded = padded_len(packet.len());
    let total_len = 32 + padded + options.len();
    if total_len > PcapngBlock::MAX_LEN as usize {
        return None;
    }
    Some(EditedUnit::Block {
        header: block_header(order, block, total_len, packet.len(), original_len),
        packet,
        padding_len: padded - packet.len(),
        options,
        trailer: len_word(order, total_len),
    })
}

/// The bytes of the block before the captured bytes, with other lengths.
#[inline]
fn block_header(
    order: ByteOrder,
    block: &[u8],
    total_len: usize,
    captured_len: usize,
    original_len: u32,
) -> [u8; 28] {
    seven_words(
        four_words(
            word_at(block, 0),
            len_word(order, total_len),
            word_at(block, 8),
            word_at(block, 12),
        ),
        word_at(block, 16),
        len_word(order, captured_len),
        word(order, original_len),
    )
}

/// The four bytes from the offset `at` on.
#[inline]
fn word_at(bytes: &[u8], at: usize) -> [u8; 4] {
    [bytes[at], bytes[at + 1], bytes[at + 2], bytes[at + 3]]
}
