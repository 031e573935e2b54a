//! A block of a pcapng file.

use crate::ether_pcap::{BlockError, ByteOrder};

/// A view of a block of a pcapng file (draft-ietf-opsawg-pcapng, section 3.1). A file is a list of blocks; a reader
/// should skip those whose type it does not know.
///
/// ```text
///  0      4          8                  n - 4      n
///  +------+----------+-- .. --+---------+----------+
///  | type | length n |  body  | padding | length n |
///  +------+----------+-- .. --+---------+----------+
/// ```
///
/// Padding, if there is any, is part of `body`: where it begins depends on the type of the block.
///
/// ```
/// use etherpeel::ether_pcap::{ByteOrder, PcapngBlock};
///
/// # fn main() -> Result<(), Box<dyn std::error::Error>> {
/// let bytes = [
///     0x00, 0x00, 0x00, 0x03, 0x00, 0x00, 0x00, 0x10, 0x00, 0x00, 0x00, 0x00, 0x00, 0x00, 0x00, 0x10, //
/// ];
/// let block = PcapngBlock::from_slice(ByteOrder::BigEndian, &bytes)?;
/// assert_eq!(block.block_type, PcapngBlock::SIMPLE_PACKET);
/// assert_eq!(block.body, [0x00, 0x00, 0x00, 0x00].as_slice());
/// assert_eq!(block.block_len(), 16);
/// # Ok(())
/// # }
/// ```
#[derive(Clone, Copy, PartialEq, Eq, Debug)]
pub struct PcapngBlock<'a> {
    /// The type, which says how to read the body.
    pub block_type: u32,
    /// The bytes between the two lengths. Their number is a multiple of 4.
    pub body: &'a [u8],
}

impl<'a> PcapngBlock<'a> {
    /// The type of a section header, the first block of each file.
    pub const SECTION_HEADER: u32 = 0x0A0D_0D0A;

    /// The type of an interface description.
    pub const INTERFACE_DESCRIPTION: u32 = 1;

    /// The type of a packet block, which is obsolete.
    pub const PACKET: u32 = 2;

    /// The type of a simple packet.
    pub const SIMPLE_PACKET: u32 = 3;

    /// The type of an enhanced packet.
    pub const ENHANCED_PACKET: u32 = 6;

    /// The type of a custom block that a program should leave out of a capture that it changes.
    pub const UNCOPIED_CUSTOM: u32 = 0x4000_0BAD;

    /// The length in bytes of a block with an empty body.
    pub const MIN_LEN: usize = 12;

    /// The maximum length in bytes of a block that is read: 16 MiB, libpcap's initial limit. A block of this length
    /// has room for every packet that is read.
    pub const MAX_LEN: u32 = 16_777_216;

    /// Reads the block at the front of a slice. `byte_order` is that of the section.
    ///
    /// # Errors
    ///
    /// The first of these that holds:
    ///
    /// - `BlockError::Len`: the slice has fewer than 12 bytes. `required_len` is 12, `len` the slice's length.
    /// - `BlockError::TotalLen`: the block's length, which the error names, is below 12, above 16 MiB, or not a
    ///   multiple of 4.
    /// - `BlockError::Len`: the slice is shorter than the block. `required_len` is the block's length, `len` the
    ///   slice's.
    /// - `BlockError::Trailer`: the length at the end of the block differs from that at its front. The error names
    ///   both.
    ///
    /// <details><summary>Contract</summary>
    ///
    /// ```text
    /// ensures block { IfOk result (λ b. BeginsBlock (order_of byte_order) slice.now (block_view b)) }
    /// ensures refused { IfErr result (λ e. RefusesBlock (order_of byte_order) slice.now (block_refusal_view e)) }
    /// ```
    ///
    /// Words: [`BeginsBlock`](crate::definitions::ether_pcap#def.BeginsBlock),
    /// [`order_of`](crate::definitions::ether_pcap#def.order_of),
    /// [`block_view`](crate::definitions::ether_pcap#def.block_view),
    /// [`RefusesBlock`](crate::definitions::ether_pcap#def.RefusesBlock),
    /// [`block_refusal_view`](crate::definitions::ether_pcap#def.block_refusal_view).
    /// [Notation](crate::definitions::notation)
    ///
    /// </details>
    #[inline]
    pub fn from_slice(byte_order: ByteOrder, slice: &'a [u8]) -> Result<PcapngBlock<'a>, BlockError> {
        if slice.len() < PcapngBlock::MIN_LEN {
            return Err(BlockError::Len {
                required_len: PcapngBlock::MIN_LEN,
                len: slice.len(),
            });
        }
        let total_len = byte_order.u32_at(slice, 4);
        if !is_total_len(total_len) {
            return Err(BlockError::TotalLen(total_len));
        }
        let end = total_len as usize;
        if slice.len() < end {
            return Err(BlockError::Len {
                required_len: end,
                len: slice.len(),
            });
        }
        let trailer = byte_order.u32_at(slice, end - 4);
        if trailer != total_len {
            return Err(BlockError::Trailer { total_len, trailer });
        }
        Ok(PcapngBlock {
            block_type: byte_order.u32_at(slice, 0),
            body: &slice[8..end - 4],
        })
    }

    /// The length of the block in bytes. The next block begins after it.
    ///
    /// <details><summary>Contract</summary>
    ///
    /// ```text
    /// ensures { result ≡ 12 + length self.now.body.now }
    /// ```
    ///
    /// [Notation](crate::definitions::notation)
    ///
    /// </details>
    #[must_use]
    #[inline]
    pub fn block_len(&self) -> usize {
        PcapngBlock::MIN_LEN + self.body.len()
    }
}

/// Tests that a block can have this length.
#[inline]
fn is_total_len(total_len: u32) -> bool {
    total_len >= PcapngBlock::MIN_LEN as u32
        && total_len % 4 == 0
        && total_len <= PcapngBlock::MAX_LEN
}
