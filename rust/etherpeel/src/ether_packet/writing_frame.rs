//! Writes a whole frame from parts that were read.

use crate::ether_packet::packet_builder::write_at;
use crate::ether_packet::{PacketBuilder, PacketContent, PacketParts};
use crate::EtherType;
use crate::err::{Layer, SliceWriteSpaceError};

impl<'a> PacketParts<'a> {
    /// The length in bytes of the frame that [`write_frame`](Self::write_frame) writes: of the headers, the rest and
    /// the trailer. `usize::MAX` if the length does not fit in a `usize`.
    ///
    /// <details><summary>Contract</summary>
    ///
    /// ```text
    /// ensures { result ≡ counted_size self.now }
    /// ```
    ///
    /// Words: [`counted_size`](crate::definitions::ether_packet#def.counted_size).
    /// [Notation](crate::definitions::notation)
    ///
    /// </details>
    #[must_use]
    #[inline]
    pub fn frame_len(&self) -> usize {
        let headers = PacketBuilder {
            content: self.without_rest(),
            ..self.builder()
        };
        headers
            .size()
            .saturating_add(self.rest.len())
            .saturating_add(self.trailer.len())
    }

    /// Writes the whole frame to the front of a target: the headers as they are, then the rest, then the trailer.
    /// Returns the length of the frame. The bytes after it are unchanged.
    ///
    /// No header field is set by what follows it, and `ether_type` is not used. If headers were replaced by others
    /// that say the same about what follows them, as a tag with another VLAN ID does, the frame is read with the new
    /// headers, and the walk ends as before. A frame check sequence and an integrity check value are written as they
    /// were, and don't fit headers that were changed.
    ///
    /// # Errors
    ///
    /// The target is shorter than [`frame_len`](Self::frame_len). It is then unchanged.
    ///
    /// # Examples
    ///
    /// An ARP request with a VLAN tag, and 14 bytes of padding, which are kept when the VLAN ID is changed:
    ///
    /// ```
    /// use etherpeel::{LinkExtHeader, SingleVlanHeader};
    /// use etherpeel::ether_peel::Start;
    /// use etherpeel::ether_packet::PacketSlice;
    ///
    /// let frame = [
    ///     0xFF, 0xFF, 0xFF, 0xFF, 0xFF, 0xFF, 0x02, 0x00, 0x00, 0x00, 0x00, 0x01, 0x81, 0x00, // Ethernet II
    ///     0x00, 0x64, 0x08, 0x06, // VLAN
    ///     0x00, 0x01, 0x08, 0x00, 0x06, 0x04, 0x00, 0x01, // ARP
    ///     0x02, 0x00, 0x00, 0x00, 0x00, 0x01, 0xC0, 0x00, 0x02, 0x01, // sender
    ///     0x00, 0x00, 0x00, 0x00, 0x00, 0x00, 0xC0, 0x00, 0x02, 0x02, // target
    ///     0x00, 0x00, 0x00, 0x00, 0x00, 0x00, 0x00, 0x00, 0x00, 0x00, 0x00, 0x00, 0x00, 0x00, // padding
    /// ];
    /// let Some(mut parts) = PacketSlice::from_slice(Start::Ethernet2, &frame).to_parts() else {
    ///     panic!("no link");
    /// };
    /// let tag = LinkExtHeader::Vlan(SingleVlanHeader::from_bytes([0x01, 0x23, 0x08, 0x06]));
    /// assert_eq!(parts.set_link_ext(0, &tag), Ok(()));
    /// assert_eq!(parts.frame_len(), 60);
    /// let mut target = [0xAA; 61];
    /// assert_eq!(parts.write_frame(&mut target), Ok(60));
    /// assert_eq!(target[..14], frame[..14]);
    /// assert_eq!(target[14..18], [0x01, 0x23, 0x08, 0x06]);
    /// assert_eq!(target[18..60], frame[18..]);
    /// assert_eq!(target[60], 0xAA);
    /// ```
    ///
    /// <details><summary>Contract</summary>
    ///
    /// ```text
    /// ensures ok { IfOk result (λ end. IsFrameWritten self.now target.old end target.new) }
    /// ensures whole { IfOk result (λ end. IsWholeFrame self.now end target.new) }
    /// ensures changed { IfOk result (λ end. IsChangedFrame self.now end target.new) }
    /// ensures refused { IfErr result (RefusesFrame self.now target.old) }
    /// ensures kept { OnErr result (target.new ≡ target.old) }
    /// ```
    ///
    /// Words: [`IsFrameWritten`](crate::definitions::ether_packet#def.IsFrameWritten),
    /// [`IsWholeFrame`](crate::definitions::ether_packet#def.IsWholeFrame),
    /// [`IsChangedFrame`](crate::definitions::ether_packet#def.IsChangedFrame),
    /// [`RefusesFrame`](crate::definitions::ether_packet#def.RefusesFrame). [Notation](crate::definitions::notation)
    ///
    /// </details>
    #[inline]
    pub fn write_frame(&self, target: &mut [u8]) -> Result<usize, SliceWriteSpaceError> {
        let required_len = self.frame_len();
        let len = target.len();
        if len < required_len {
            return Err(SliceWriteSpaceError {
                required_len,
                len,
                layer: Layer::EtherPayload,
                layer_start_offset: 0,
            });
        }
        self.write_whole(target);
        Ok(required_len)
    }

    /// Writes the frame to a target that has room for it.
    #[inline]
    fn write_whole(&self, target: &mut [u8]) {
        let headers = PacketBuilder {
            content: self.without_rest(),
            ..self.builder()
        };
        headers.write_parts(target);
        let rest_at = headers.size();
        write_at(target, rest_at, self.rest);
        write_at(target, rest_at + self.rest.len(), self.trailer);
    }

    /// The ARP packet if there is one, else an empty payload.
    #[inline]
    fn without_rest(&self) -> PacketContent<'_> {
        match &self.arp {
            Some(packet) => PacketContent::Arp(packet),
            None => PacketContent::Payload(EtherType(0), &[]),
        }
    }
}
