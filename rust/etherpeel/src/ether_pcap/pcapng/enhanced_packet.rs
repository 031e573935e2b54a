//! The body of an enhanced packet.

use crate::ether_pcap::pcapng::pcapng_option::{bytes_from, option_value, u32_option};
use crate::ether_pcap::word_bytes::{four_words, len_word, padded_len, seven_words, word};
use crate::ether_pcap::{BodyError, ByteOrder, Direction, PcapRecord, PcapngBlock, PcapngOption};

/// The code of the option that has a packet's flags: `epb_flags` of an enhanced packet, `pack_flags` of the obsolete
/// packet block.
const FLAGS: u16 = 2;

/// A view of the body of an enhanced packet (draft-ietf-opsawg-pcapng, section 4.3): a packet that was captured on one
/// of several interfaces.
///
/// ```text
///  0           4           8           12             16             20
///  +-----------+-----------+-----------+--------------+--------------+-- ..
///  | interface |   time,   |   time,   | captured len | original len | packet
///  |           | high half | low half  |              |              |
///  +-----------+-----------+-----------+--------------+--------------+-- ..
/// ```
///
/// ```
/// use etherpeel::ether_pcap::{ByteOrder, EnhancedPacket};
///
/// # fn main() -> Result<(), Box<dyn std::error::Error>> {
/// let body = [
///     0x00, 0x00, 0x00, 0x00, 0x00, 0x00, 0x00, 0x01, 0x00, 0x00, 0x00, 0x02, //
///     0x00, 0x00, 0x00, 0x02, 0x00, 0x00, 0x00, 0x3C, 0xFF, 0xFF, 0x00, 0x00, //
/// ];
/// let packet = EnhancedPacket::from_body(ByteOrder::BigEndian, &body)?;
/// assert_eq!(packet.time, 4_294_967_298);
/// assert_eq!(packet.original_len, 60);
/// assert_eq!(packet.packet, [0xFF, 0xFF].as_slice());
/// # Ok(())
/// # }
/// ```
#[derive(Clone, Copy, PartialEq, Eq, Debug)]
pub struct EnhancedPacket<'a> {
    /// The interface, counted from 0 in the order of the section's interface descriptions.
    pub interface: u32,
    /// The time of the capture since the beginning of 1970, UTC: in microseconds unless an option of the interface
    /// says otherwise.
    pub time: u64,
    /// The length of the packet in bytes before it was cut.
    pub original_len: u32,
    /// The captured bytes of the packet.
    pub packet: &'a [u8],
    /// The bytes of the options, over which [`PcapngOptions`](crate::ether_pcap::PcapngOptions) iterates.
    pub options: &'a [u8],
}

impl<'a> EnhancedPacket<'a> {
    /// Reads the body of a block of type [`PcapngBlock::ENHANCED_PACKET`](crate::ether_pcap::PcapngBlock::ENHANCED_PACKET).
    ///
    /// # Errors
    ///
    /// The first of these that holds:
    ///
    /// - `BodyError::Len`: the body has fewer than 20 bytes. `required_len` is 20, `len` the body's length.
    /// - `BodyError::CapturedLen`: the number of captured bytes, which the error names, is above 262,144.
    /// - `BodyError::Len`: the body ends within the packet. `required_len` is 20 more than the number of captured
    ///   bytes.
    ///
    /// <details><summary>Contract</summary>
    ///
    /// ```text
    /// ensures packet { IfOk result (λ p. IsEnhancedPacket 4 (order_of byte_order) body.now (enhanced_packet_view p)) }
    /// ensures refused { IfErr result (λ e. RefusesEnhancedPacket (order_of byte_order) body.now (body_refusal_view e)) }
    /// ```
    ///
    /// Words: [`IsEnhancedPacket`](crate::definitions::ether_pcap#def.IsEnhancedPacket),
    /// [`order_of`](crate::definitions::ether_pcap#def.order_of),
    /// [`enhanced_packet_view`](crate::definitions::ether_pcap#def.enhanced_packet_view),
    /// [`RefusesEnhancedPacket`](crate::definitions::ether_pcap#def.RefusesEnhancedPacket),
    /// [`body_refusal_view`](crate::definitions::ether_pcap#def.body_refusal_view).
    /// [Notation](crate::definitions::notation)
    ///
    /// </details>
    #[inline]
    pub fn from_body(byte_order: ByteOrder, body: &'a [u8]) -> Result<EnhancedPacket<'a>, BodyError> {
        packet_of_body(byte_order, true, body)
    }

    /// Reads the body of a block of type [`PcapngBlock::PACKET`](crate::ether_pcap::PcapngBlock::PACKET), which is obsolete
    /// (appendix A). Its first two bytes are the number of the interface, and the next two count the packets that were
    /// dropped before this one; the count is not read.
    ///
    /// # Errors
    ///
    /// Those of [`from_body`](Self::from_body).
    ///
    /// <details><summary>Contract</summary>
    ///
    /// ```text
    /// ensures packet { IfOk result (λ p. IsEnhancedPacket 2 (order_of byte_order) body.now (enhanced_packet_view p)) }
    /// ensures refused { IfErr result (λ e. RefusesEnhancedPacket (order_of byte_order) body.now (body_refusal_view e)) }
    /// ```
    ///
    /// Words: [`IsEnhancedPacket`](crate::definitions::ether_pcap#def.IsEnhancedPacket),
    /// [`order_of`](crate::definitions::ether_pcap#def.order_of),
    /// [`enhanced_packet_view`](crate::definitions::ether_pcap#def.enhanced_packet_view),
    /// [`RefusesEnhancedPacket`](crate::definitions::ether_pcap#def.RefusesEnhancedPacket),
    /// [`body_refusal_view`](crate::definitions::ether_pcap#def.body_refusal_view).
    /// [Notation](crate::definitions::notation)
    ///
    /// </details>
    #[inline]
    pub fn from_obsolete_body(
        byte_order: ByteOrder,
        body: &'a [u8],
    ) -> Result<EnhancedPacket<'a>, BodyError> {
        packet_of_body(byte_order, false, body)
    }

    /// The number of zeros after the packet in its block, at most 3.
    ///
    /// <details><summary>Contract</summary>
    ///
    /// ```text
    /// ensures { let n = length self.now.packet.now in result ≡ padded n - n }
    /// ```
    ///
    /// Words: [`padded`](crate::definitions::ether_pcap#def.padded). [Notation](crate::definitions::notation)
    ///
    /// </details>
    #[must_use]
    #[inline]
    pub fn padding_len(&self) -> usize {
        padded_len(self.packet.len()) - self.packet.len()
    }

    /// The length of the block, modulo 2^32.
    #[inline]
    fn block_len(&self) -> u32 {
        let packet_len = padded_len(self.packet.len()) as u64 % 0x1_0000_0000;
        let options_len = self.options.len() as u64 % 0x1_0000_0000;
        ((32 + packet_len + options_len) % 0x1_0000_0000) as u32
    }

    /// The front of an enhanced packet block: block type, total length, interface, time, captured and original length.
    /// In a file these follow: the bytes of `packet`, [`padding_len`](Self::padding_len) zeros, the bytes of
    /// `options`, whose number should be a multiple of 4, and [`trailer_to_bytes`](Self::trailer_to_bytes).
    ///
    /// A packet of more than [`PcapRecord::MAX_CAPTURED_LEN`] bytes, or a block of more than
    /// [`PcapngBlock::MAX_LEN`](crate::ether_pcap::PcapngBlock::MAX_LEN), can be written, but is not read back. A length of 4 GiB
    /// or more is written modulo 2^32.
    ///
    /// ```
    /// use etherpeel::ether_pcap::{ByteOrder, EnhancedPacket};
    ///
    /// let packet = EnhancedPacket {
    ///     interface: 0,
    ///     time: 4_294_967_298,
    ///     original_len: 60,
    ///     packet: &[0xFF, 0xFF],
    ///     options: &[],
    /// };
    /// let header = [
    ///     0x00, 0x00, 0x00, 0x06, 0x00, 0x00, 0x00, 0x24, 0x00, 0x00, 0x00, 0x00, //
    ///     0x00, 0x00, 0x00, 0x01, 0x00, 0x00, 0x00, 0x02, 0x00, 0x00, 0x00, 0x02, 0x00, 0x00, 0x00, 0x3C, //
    /// ];
    /// assert_eq!(packet.header_to_bytes(ByteOrder::BigEndian), header);
    /// assert_eq!(packet.padding_len(), 2);
    /// assert_eq!(packet.trailer_to_bytes(ByteOrder::BigEndian), [0x00, 0x00, 0x00, 0x24]);
    /// ```
    ///
    /// <details><summary>Contract</summary>
    ///
    /// ```text
    /// ensures value { let order = order_of byte_order in let p = enhanced_packet_view self.now in
    ///     result ≡ bytes_of order 4 6 ++ bytes_of order 4 (packet_block_len p) ++ packet_head order p }
    /// ensures read_back { PacketIsRead (order_of byte_order) result (enhanced_packet_view self.now) }
    /// ```
    ///
    /// Words: [`order_of`](crate::definitions::ether_pcap#def.order_of),
    /// [`enhanced_packet_view`](crate::definitions::ether_pcap#def.enhanced_packet_view),
    /// [`bytes_of`](crate::definitions::ether_pcap#def.bytes_of),
    /// [`packet_block_len`](crate::definitions::ether_pcap#def.packet_block_len),
    /// [`packet_head`](crate::definitions::ether_pcap#def.packet_head),
    /// [`PacketIsRead`](crate::definitions::ether_pcap#def.PacketIsRead). [Notation](crate::definitions::notation)
    ///
    /// </details>
    #[must_use]
    #[inline]
    pub fn header_to_bytes(&self, byte_order: ByteOrder) -> [u8; 28] {
        seven_words(
            four_words(
                word(byte_order, PcapngBlock::ENHANCED_PACKET),
                word(byte_order, self.block_len()),
                word(byte_order, self.interface),
                word(byte_order, (self.time / 0x1_0000_0000) as u32),
            ),
            word(byte_order, (self.time % 0x1_0000_0000) as u32),
            len_word(byte_order, self.packet.len()),
            word(byte_order, self.original_len),
        )
    }

    /// The end of the enhanced packet block: its total length again.
    ///
    /// <details><summary>Contract</summary>
    ///
    /// ```text
    /// ensures { result ≡ bytes_of (order_of byte_order) 4 (packet_block_len (enhanced_packet_view self.now)) }
    /// ```
    ///
    /// Words: [`bytes_of`](crate::definitions::ether_pcap#def.bytes_of),
    /// [`order_of`](crate::definitions::ether_pcap#def.order_of),
    /// [`packet_block_len`](crate::definitions::ether_pcap#def.packet_block_len),
    /// [`enhanced_packet_view`](crate::definitions::ether_pcap#def.enhanced_packet_view).
    /// [Notation](crate::definitions::notation)
    ///
    /// </details>
    #[must_use]
    #[inline]
    pub fn trailer_to_bytes(&self, byte_order: ByteOrder) -> [u8; 4] {
        word(byte_order, self.block_len())
    }

    /// The length in bytes of the frame check sequence at the end of the packet before it was cut, if the packet's
    /// flags give it: 1 to 15 (bits 5 to 8 of the flags, section 4.3.1).
    ///
    /// <details><summary>Contract</summary>
    ///
    /// ```text
    /// ensures { (all : List OptionValue) → HasOptions (order_of byte_order) self.now.options.now all
    ///     → result ≡ fcs_in_flags (number_of (order_of byte_order) 4 (value_of 2 all)) }
    /// ```
    ///
    /// Words: [`OptionValue`](crate::definitions::ether_pcap#def.OptionValue),
    /// [`HasOptions`](crate::definitions::ether_pcap#def.HasOptions),
    /// [`order_of`](crate::definitions::ether_pcap#def.order_of),
    /// [`fcs_in_flags`](crate::definitions::ether_pcap#def.fcs_in_flags),
    /// [`number_of`](crate::definitions::ether_pcap#def.number_of),
    /// [`value_of`](crate::definitions::ether_pcap#def.value_of). [Notation](crate::definitions::notation)
    ///
    /// </details>
    #[must_use]
    #[inline]
    pub fn fcs_len(&self, byte_order: ByteOrder) -> Option<u8> {
        let flags = u32_option(byte_order, self.options, FLAGS)?;
        match (flags >> 5) % 16 {
            0 => None,
            len => Some(len as u8),
        }
    }

    /// Whether the interface received the packet or sent it, if the packet's flags say so (bits 0 and 1 of the flags,
    /// section 4.3.1).
    ///
    /// ```
    /// use etherpeel::ether_pcap::{ByteOrder, Direction, EnhancedPacket};
    ///
    /// let packet = EnhancedPacket {
    ///     interface: 0,
    ///     time: 0,
    ///     original_len: 0,
    ///     packet: &[],
    ///     options: &[0x00, 0x02, 0x00, 0x04, 0x00, 0x00, 0x00, 0x02],
    /// };
    /// assert_eq!(packet.direction(ByteOrder::BigEndian), Some(Direction::Outbound));
    /// ```
    ///
    /// <details><summary>Contract</summary>
    ///
    /// ```text
    /// ensures { (all : List OptionValue) → HasOptions (order_of byte_order) self.now.options.now all
    ///     → option_map direction_view result
    ///     ≡ direction_in_flags (number_of (order_of byte_order) 4 (value_of 2 all)) }
    /// ```
    ///
    /// Words: [`OptionValue`](crate::definitions::ether_pcap#def.OptionValue),
    /// [`HasOptions`](crate::definitions::ether_pcap#def.HasOptions),
    /// [`order_of`](crate::definitions::ether_pcap#def.order_of),
    /// [`direction_view`](crate::definitions::ether_pcap#def.direction_view),
    /// [`direction_in_flags`](crate::definitions::ether_pcap#def.direction_in_flags),
    /// [`number_of`](crate::definitions::ether_pcap#def.number_of),
    /// [`value_of`](crate::definitions::ether_pcap#def.value_of). [Notation](crate::definitions::notation)
    ///
    /// </details>
    #[must_use]
    #[inline]
    pub fn direction(&self, byte_order: ByteOrder) -> Option<Direction> {
        let flags = u32_option(byte_order, self.options, FLAGS)?;
        match flags % 4 {
            1 => Some(Direction::Inbound),
            2 => Some(Direction::Outbound),
            _ => None,
        }
    }

    /// The first comment on the packet: a text that should be UTF-8, but may hold any byte.
    ///
    /// ```
    /// use etherpeel::ether_pcap::{ByteOrder, EnhancedPacket};
    ///
    /// let packet = EnhancedPacket {
    ///     interface: 0,
    ///     time: 0,
    ///     original_len: 0,
    ///     packet: &[],
    ///     options: &[0x00, 0x01, 0x00, 0x02, b'o', b'k', 0x00, 0x00],
    /// };
    /// assert_eq!(packet.comment(ByteOrder::BigEndian), Some(b"ok".as_slice()));
    /// ```
    ///
    /// <details><summary>Contract</summary>
    ///
    /// ```text
    /// ensures { (all : List OptionValue) → HasOptions (order_of byte_order) self.now.options.now all
    ///     → option_map (λ text. text.now) result ≡ value_of 1 all }
    /// ```
    ///
    /// Words: [`OptionValue`](crate::definitions::ether_pcap#def.OptionValue),
    /// [`HasOptions`](crate::definitions::ether_pcap#def.HasOptions),
    /// [`order_of`](crate::definitions::ether_pcap#def.order_of),
    /// [`value_of`](crate::definitions::ether_pcap#def.value_of). [Notation](crate::definitions::notation)
    ///
    /// </details>
    #[must_use]
    #[inline]
    pub fn comment(&self, byte_order: ByteOrder) -> Option<&'a [u8]> {
        option_value(byte_order, self.options, PcapngOption::COMMENT)
    }
}

/// Reads a body whose interface has four bytes if `is_enhanced`, else two.
#[inline]
pub(in crate::ether_pcap) fn packet_of_body<'a>(
    byte_order: ByteOrder,
    is_enhanced: bool,
    body: &'a [u8],
) -> Result<EnhancedPacket<'a>, BodyError> {
    if body.len() < 20 {
        return Err(BodyError::Len {
            required_len: 20,
            len: body.len(),
        });
    }
    let captured_len = byte_order.u32_at(body, 12);
    if captured_len > PcapRecord::MAX_CAPTURED_LEN {
        return Err(BodyError::CapturedLen(captured_len));
    }
    let end = 20 + captured_len as usize;
    if body.len() < end {
        return Err(BodyError::Len {
            required_len: end,
            len: body.len(),
        });
    }
    let upper = u64::from(byte_order.u32_at(body, 4));
    let lower = u64::from(byte_order.u32_at(body, 8));
    Ok(EnhancedPacket {
        interface: interface_number(byte_order, is_enhanced, body),
        time: upper * 0x1_0000_0000 + lower,
        original_len: byte_order.u32_at(body, 16),
        packet: &body[20..end],
        options: bytes_from(body, 20 + padded_len(captured_len as usize)),
    })
}

/// The number at the front of a body: four bytes if `is_enhanced`, else two.
#[inline]
fn interface_number(byte_order: ByteOrder, is_enhanced: bool, body: &[u8]) -> u32 {
    if is_enhanced {
        byte_order.u32_at(body, 0)
    } else {
        u32::from(byte_order.u16_at(body, 0))
    }
}
