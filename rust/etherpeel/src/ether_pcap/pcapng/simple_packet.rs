//! The body of a simple packet.

use crate::ether_pcap::{BodyError, ByteOrder, PcapRecord};

/// A view of the body of a simple packet (draft-ietf-opsawg-pcapng, section 4.4): a packet without a time, captured on
/// the first interface of its section.
///
/// ```
/// use etherpeel::ether_pcap::{ByteOrder, SimplePacket};
///
/// # fn main() -> Result<(), Box<dyn std::error::Error>> {
/// let body = [0x00, 0x00, 0x00, 0x3C, 0xFF, 0xFF, 0x00, 0x00];
/// let packet = SimplePacket::from_body(ByteOrder::BigEndian, 2, &body)?;
/// assert_eq!(packet.original_len, 60);
/// assert_eq!(packet.packet, [0xFF, 0xFF].as_slice());
/// # Ok(())
/// # }
/// ```
#[derive(Clone, Copy, PartialEq, Eq, Debug)]
pub struct SimplePacket<'a> {
    /// The length of the packet in bytes before it was cut.
    pub original_len: u32,
    /// The captured bytes of the packet.
    pub packet: &'a [u8],
}

impl<'a> SimplePacket<'a> {
    /// Reads the body of a block of type [`PcapngBlock::SIMPLE_PACKET`](crate::ether_pcap::PcapngBlock::SIMPLE_PACKET).
    ///
    /// `snap_len` is the snap length of the section's first interface, 0 for no limit. The number of captured bytes is
    /// the lesser of it and the packet's original length.
    ///
    /// # Errors
    ///
    /// The first of these that holds:
    ///
    /// - `BodyError::Len`: the body has fewer than 4 bytes. `required_len` is 4, `len` the body's length.
    /// - `BodyError::CapturedLen`: the number of captured bytes, which the error names, is above 262,144.
    /// - `BodyError::Len`: the body ends within the packet. `required_len` is 4 more than the number of captured
    ///   bytes.
    ///
    /// <details><summary>Contract</summary>
    ///
    /// ```text
    /// ensures packet { IfOk result
    ///     (λ p. IsSimplePacket (order_of byte_order) snap_len body.now (simple_packet_view p)) }
    /// ensures refused { IfErr result (λ e. RefusesSimplePacket (order_of byte_order) snap_len body.now
    ///     (body_refusal_view e)) }
    /// ```
    ///
    /// Words: [`IsSimplePacket`](crate::definitions::ether_pcap#def.IsSimplePacket),
    /// [`order_of`](crate::definitions::ether_pcap#def.order_of),
    /// [`simple_packet_view`](crate::definitions::ether_pcap#def.simple_packet_view),
    /// [`RefusesSimplePacket`](crate::definitions::ether_pcap#def.RefusesSimplePacket),
    /// [`body_refusal_view`](crate::definitions::ether_pcap#def.body_refusal_view).
    /// [Notation](crate::definitions::notation)
    ///
    /// </details>
    #[inline]
    pub fn from_body(
        byte_order: ByteOrder,
        snap_len: u32,
        body: &'a [u8],
    ) -> Result<SimplePacket<'a>, BodyError> {
        if body.len() < 4 {
            return Err(BodyError::Len {
                required_len: 4,
                len: body.len(),
            });
        }
        let original_len = byte_order.u32_at(body, 0);
        let captured_len = captured_len(snap_len, original_len);
        if captured_len > PcapRecord::MAX_CAPTURED_LEN {
            return Err(BodyError::CapturedLen(captured_len));
        }
        let end = 4 + captured_len as usize;
        if body.len() < end {
            return Err(BodyError::Len {
                required_len: end,
                len: body.len(),
            });
        }
        Ok(SimplePacket {
            original_len,
            packet: &body[4..end],
        })
    }
}

/// The number of captured bytes of a packet with this original length. A snap length of 0 is no limit.
#[inline]
pub(in crate::ether_pcap) fn captured_len(snap_len: u32, original_len: u32) -> u32 {
    if snap_len == 0 {
        original_len
    } else {
        snap_len.min(original_len)
    }
}
