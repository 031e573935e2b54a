//! The options of a unit of a pcapng file.

use crate::ether_pcap::capture::reader_state::begins_section;
use crate::ether_pcap::pcapng::pcapng_option::bytes_from;
use crate::ether_pcap::word_bytes::padded_len;
use crate::ether_pcap::{ByteOrder, PcapngBlock, PcapngOptions, ReaderState, SectionHeader};

impl ReaderState {
    /// The options of the unit at the front of a slice: of a section header, an interface description, an enhanced
    /// packet or an obsolete packet block. Simple packets have none, and those of other blocks are not read.
    ///
    /// The state may be that before the unit was read, or that after it. Returns `None` if the slice does not begin
    /// with a unit of a pcapng file that this state expects.
    ///
    /// ```
    /// use etherpeel::ether_pcap::{ByteOrder, PcapngOption, ReaderState};
    ///
    /// let block = [
    ///     0x00, 0x00, 0x00, 0x01, 0x00, 0x00, 0x00, 0x20, // an interface description of 32 bytes
    ///     0x00, 0x01, 0x00, 0x00, 0x00, 0x04, 0x00, 0x00, // link type, snap length
    ///     0x00, 0x02, 0x00, 0x04, 0x65, 0x74, 0x68, 0x30, // if_name: eth0
    ///     0x00, 0x00, 0x00, 0x00, // the end of options
    ///     0x00, 0x00, 0x00, 0x20, //
    /// ];
    /// let state = ReaderState::Section(ByteOrder::BigEndian);
    /// let name = PcapngOption {
    ///     code: PcapngOption::INTERFACE_NAME,
    ///     value: b"eth0",
    /// };
    /// if let Some(mut options) = state.options(&block) {
    ///     assert_eq!(options.next(), Some(name));
    ///     assert_eq!(options.next(), None);
    /// }
    /// ```
    ///
    /// <details><summary>Contract</summary>
    ///
    /// ```text
    /// ensures { MatchOption result
    ///     ((order : ByteOrder) (options : List ℕ) → HasOptionBytes unit.now self.now order options → ⊥)
    ///     (λ o. HasOptionBytes unit.now self.now o.byte_order o.rest) }
    /// ```
    ///
    /// Words: [`HasOptionBytes`](crate::definitions::ether_pcap#def.HasOptionBytes).
    /// [Notation](crate::definitions::notation)
    ///
    /// </details>
    #[must_use]
    #[inline]
    pub fn options<'a>(&self, unit: &'a [u8]) -> Option<PcapngOptions<'a>> {
        match self {
            ReaderState::Classic(_) => None,
            _ if begins_section(unit) => section_options(unit),
            ReaderState::Nothing => None,
            ReaderState::Section(byte_order) => block_options(*byte_order, unit),
        }
    }
}

/// The options of the section header at the front of a slice.
#[inline]
fn section_options(unit: &[u8]) -> Option<PcapngOptions<'_>> {
    match SectionHeader::from_slice(unit) {
        Ok(section) => Some(PcapngOptions::from_slice(
            section.byte_order,
            bytes_from(section.block.body, 16),
        )),
        Err(_) => None,
    }
}

/// The options of the block at the front of a slice that does not begin with a section header.
#[inline]
fn block_options(byte_order: ByteOrder, unit: &[u8]) -> Option<PcapngOptions<'_>> {
    match PcapngBlock::from_slice(byte_order, unit) {
        Ok(block) => Some(PcapngOptions::from_slice(byte_order, options_of(byte_order, block))),
        Err(_) => None,
    }
}

/// The bytes of the options in the body of a block that is not a section header.
#[inline]
fn options_of(byte_order: ByteOrder, block: PcapngBlock<'_>) -> &[u8] {
    let body = block.body;
    match block.block_type {
        PcapngBlock::INTERFACE_DESCRIPTION => bytes_from(body, 8),
        PcapngBlock::ENHANCED_PACKET | PcapngBlock::PACKET => packet_options(byte_order, body),
        _ => &[],
    }
}

/// The bytes after a packet and its padding; none if there are fewer.
#[inline]
fn packet_options(byte_order: ByteOrder, body: &[u8]) -> &[u8] {
    if body.len() < 20 {
        return &[];
    }
    let captured_len = byte_order.u32_at(body, 12);
    bytes_from(body, 20 + padded_len(captured_len as usize))
}
