//! Writes packets with their headers as they are.

use crate::ether_packet::packet_builder::{write_arp, write_at, write_ext, write_link_header};
use crate::ether_packet::{PacketBuilder, PacketContent};
use crate::err::{Layer, SliceWriteSpaceError};

impl<'a, 'b> PacketBuilder<'a, 'b> {
    /// Writes the packet with its headers as they are to the front of a target, and returns its length. The bytes
    /// after it are unchanged.
    ///
    /// [`write`](Self::write) sets ether types and short lengths by what follows them; this call sets nothing. So the
    /// parts of a packet that was read give the front of its frame again, even if that is a cooked capture of another
    /// link than Ethernet. The caller has to make sure that the headers announce what follows them.
    ///
    /// A builder has nothing after its content. So these are not written: the integrity check value after the payload
    /// of a SecTag with a short length, the padding after an ARP packet, and a frame check sequence.
    /// [`PacketParts::write_frame`](crate::ether_packet::PacketParts::write_frame) keeps them all.
    ///
    /// # Errors
    ///
    /// The target is shorter than [`size`](Self::size). It is then unchanged.
    ///
    /// ```
    /// use etherpeel::{
    ///     EtherType, Ethernet2Header, LinkExtHeader, LinkHeader, MacsecAn, MacsecHeader, MacsecPType,
    ///     MacsecShortLen,
    /// };
    /// use etherpeel::ether_packet::{PacketBuilder, PacketContent};
    ///
    /// # fn main() -> Result<(), Box<dyn std::error::Error>> {
    /// let tag = MacsecHeader {
    ///     ptype: MacsecPType::Unmodified(EtherType::IPV4),
    ///     endstation_id: false,
    ///     scb: false,
    ///     an: MacsecAn::ZERO,
    ///     short_len: MacsecShortLen::try_from_u8(3)?,
    ///     packet_nr: 1,
    ///     sci: None,
    /// };
    /// let packet = PacketBuilder {
    ///     link: LinkHeader::Ethernet2(Ethernet2Header {
    ///         ether_type: EtherType::MACSEC,
    ///         ..Ethernet2Header::default()
    ///     }),
    ///     link_exts: &[LinkExtHeader::Macsec(tag)],
    ///     content: PacketContent::Payload(EtherType::IPV4, &[0x45, 0xAA, 0xBB]),
    /// };
    /// let mut target = [0; 25];
    /// assert_eq!(packet.write_unchanged(&mut target), Ok(25));
    /// assert_eq!(target[12..], [0x88, 0xE5, 0x00, 0x03, 0, 0, 0, 1, 0x08, 0x00, 0x45, 0xAA, 0xBB]);
    /// # Ok(())
    /// # }
    /// ```
    ///
    /// <details><summary>Contract</summary>
    ///
    /// ```text
    /// ensures ok { IfOk result (λ end. IsWrittenUnchanged self.now target.old end target.new) }
    /// ensures refused { IfErr result (RefusesUnchanged self.now target.old) }
    /// ensures kept { OnErr result (target.new ≡ target.old) }
    /// ```
    ///
    /// Words: [`IsWrittenUnchanged`](crate::definitions::ether_packet#def.IsWrittenUnchanged),
    /// [`RefusesUnchanged`](crate::definitions::ether_packet#def.RefusesUnchanged).
    /// [Notation](crate::definitions::notation)
    ///
    /// </details>
    #[inline]
    pub fn write_unchanged(&self, target: &mut [u8]) -> Result<usize, SliceWriteSpaceError> {
        let required_len = self.size();
        let len = target.len();
        if len < required_len {
            return Err(SliceWriteSpaceError {
                required_len,
                len,
                layer: Layer::EtherPayload,
                layer_start_offset: 0,
            });
        }
        self.write_parts(target);
        Ok(required_len)
    }

    /// Writes the headers one after the other, and then the content.
    #[inline]
    pub(in crate::ether_packet) fn write_parts(&self, target: &mut [u8]) {
        write_link_header(target, &self.link);
        let mut at = self.link.header_len();
        for ext in self.link_exts {
            write_ext(target, at, ext);
            at += ext.header_len();
        }
        write_content_at(target, at, &self.content);
    }
}

/// Writes an ARP packet or a payload from the offset `at` on.
#[inline]
fn write_content_at(target: &mut [u8], at: usize, content: &PacketContent<'_>) {
    match content {
        PacketContent::Payload(_, bytes) => write_at(target, at, bytes),
        PacketContent::Arp(packet) => {
            write_arp(target, at + packet.packet_len(), packet);
        }
    }
}
