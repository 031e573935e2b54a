//! The section header of a pcapng file.

use crate::ether_pcap::word_bytes::{four_words, half_words, seven_words, word};
use crate::ether_pcap::{ByteOrder, PcapngBlock, SectionError};

/// A view of a section header (draft-ietf-opsawg-pcapng, section 4.1), the first block of a pcapng file. It gives the
/// byte order of its section, which reaches to the next section header. The section length in it is not read.
///
/// ```
/// use etherpeel::ether_pcap::{ByteOrder, SectionHeader};
///
/// # fn main() -> Result<(), Box<dyn std::error::Error>> {
/// let bytes = [
///     0x0A, 0x0D, 0x0D, 0x0A, 0x1C, 0x00, 0x00, 0x00, 0x4D, 0x3C, 0x2B, 0x1A, 0x01, 0x00, 0x00, 0x00, //
///     0xFF, 0xFF, 0xFF, 0xFF, 0xFF, 0xFF, 0xFF, 0xFF, 0x1C, 0x00, 0x00, 0x00, //
/// ];
/// let section = SectionHeader::from_slice(&bytes)?;
/// assert_eq!(section.byte_order, ByteOrder::LittleEndian);
/// assert_eq!(section.block.block_len(), 28);
/// # Ok(())
/// # }
/// ```
#[derive(Clone, Copy, PartialEq, Eq, Debug)]
pub struct SectionHeader<'a> {
    /// The order of the bytes of each number in the section.
    pub byte_order: ByteOrder,
    /// The block itself.
    pub block: PcapngBlock<'a>,
}

impl<'a> SectionHeader<'a> {
    /// Reads the section header at the front of a slice.
    ///
    /// # Errors
    ///
    /// The first of these that holds:
    ///
    /// - `SectionError::Len`: the slice has fewer than 12 bytes. `required_len` is 12, `len` the slice's length.
    /// - `SectionError::BlockType`: the block has another type than 0x0A0D0D0A. The error names it as a big-endian
    ///   number.
    /// - `SectionError::Magic`: the first number of the body is not 0x1A2B3C4D in either byte order. The error names
    ///   it as a big-endian number.
    /// - `SectionError::Block`: the block can't be read in this byte order
    ///   ([`PcapngBlock::from_slice`](crate::ether_pcap::PcapngBlock::from_slice)).
    /// - `SectionError::Body`: the body has fewer than 16 bytes. `required_len` is 16, `len` the body's length.
    /// - `SectionError::Version`: the version, which the error names, is neither 1.0 nor 1.2.
    ///
    /// <details><summary>Contract</summary>
    ///
    /// ```text
    /// ensures section { IfOk result (λ s. IsSection slice.now (order_of s.byte_order) (block_view s.block)) }
    /// ensures refused { IfErr result (λ e. RefusesSection slice.now (section_refusal_view e)) }
    /// ```
    ///
    /// Words: [`IsSection`](crate::definitions::ether_pcap#def.IsSection),
    /// [`order_of`](crate::definitions::ether_pcap#def.order_of),
    /// [`block_view`](crate::definitions::ether_pcap#def.block_view),
    /// [`RefusesSection`](crate::definitions::ether_pcap#def.RefusesSection),
    /// [`section_refusal_view`](crate::definitions::ether_pcap#def.section_refusal_view).
    /// [Notation](crate::definitions::notation)
    ///
    /// </details>
    #[inline]
    pub fn from_slice(slice: &'a [u8]) -> Result<SectionHeader<'a>, SectionError> {
        if slice.len() < PcapngBlock::MIN_LEN {
            return Err(SectionError::Len {
                required_len: PcapngBlock::MIN_LEN,
                len: slice.len(),
            });
        }
        let block_type = ByteOrder::BigEndian.u32_at(slice, 0);
        if block_type != PcapngBlock::SECTION_HEADER {
            return Err(SectionError::BlockType(block_type));
        }
        let Some(byte_order) = order(slice) else {
            return Err(SectionError::Magic(ByteOrder::BigEndian.u32_at(slice, 8)));
        };
        let block = match PcapngBlock::from_slice(byte_order, slice) {
            Ok(block) => block,
            Err(error) => return Err(SectionError::Block(error)),
        };
        if block.body.len() < 16 {
            return Err(SectionError::Body {
                required_len: 16,
                len: block.body.len(),
            });
        }
        let major = byte_order.u16_at(slice, 12);
        let minor = byte_order.u16_at(slice, 14);
        if !is_version(major, minor) {
            return Err(SectionError::Version { major, minor });
        }
        Ok(SectionHeader { byte_order, block })
    }

    /// The 28 bytes of a section header of version 1.0 in this byte order, without a section length and without
    /// options.
    ///
    /// ```
    /// use etherpeel::ether_pcap::{ByteOrder, SectionHeader};
    ///
    /// let bytes = SectionHeader::to_bytes(ByteOrder::LittleEndian);
    /// let wanted = [
    ///     0x0A, 0x0D, 0x0D, 0x0A, 0x1C, 0x00, 0x00, 0x00, 0x4D, 0x3C, 0x2B, 0x1A, 0x01, 0x00, 0x00, 0x00, //
    ///     0xFF, 0xFF, 0xFF, 0xFF, 0xFF, 0xFF, 0xFF, 0xFF, 0x1C, 0x00, 0x00, 0x00, //
    /// ];
    /// assert_eq!(bytes, wanted);
    /// ```
    ///
    /// <details><summary>Contract</summary>
    ///
    /// ```text
    /// ensures value { let order = order_of byte_order in
    ///     result ≡ block_bytes order (bytes_of order 4 section_type) (section_body order) }
    /// ensures len { length result ≡ 28 }
    /// ensures read_back { let order = order_of byte_order in (rest : List ℕ)
    ///     → IsSection (result ++ rest) order (record { block_type = section_type; body = section_body order }) }
    /// ```
    ///
    /// Words: [`order_of`](crate::definitions::ether_pcap#def.order_of),
    /// [`block_bytes`](crate::definitions::ether_pcap#def.block_bytes),
    /// [`bytes_of`](crate::definitions::ether_pcap#def.bytes_of),
    /// [`section_type`](crate::definitions::ether_pcap#def.section_type),
    /// [`section_body`](crate::definitions::ether_pcap#def.section_body),
    /// [`IsSection`](crate::definitions::ether_pcap#def.IsSection). [Notation](crate::definitions::notation)
    ///
    /// </details>
    #[must_use]
    #[inline]
    pub fn to_bytes(byte_order: ByteOrder) -> [u8; 28] {
        let total_len = word(byte_order, 28);
        let no_len = word(byte_order, 0xFFFF_FFFF);
        seven_words(
            four_words(
                word(byte_order, PcapngBlock::SECTION_HEADER),
                total_len,
                word(byte_order, MAGIC),
                half_words(byte_order, 1, 0),
            ),
            no_len,
            no_len,
            total_len,
        )
    }
}

/// The byte-order magic, the first number of the body.
const MAGIC: u32 = 0x1A2B_3C4D;

/// The byte order in which the third word of the slice, the first of the body, is the byte-order magic.
#[inline]
fn order(slice: &[u8]) -> Option<ByteOrder> {
    if ByteOrder::BigEndian.u32_at(slice, 8) == MAGIC {
        return Some(ByteOrder::BigEndian);
    }
    if ByteOrder::LittleEndian.u32_at(slice, 8) == MAGIC {
        return Some(ByteOrder::LittleEndian);
    }
    None
}

/// Tests that a version is 1.0 or 1.2.
#[inline]
fn is_version(major: u16, minor: u16) -> bool {
    major == 1 && (minor == 0 || minor == 2)
}
