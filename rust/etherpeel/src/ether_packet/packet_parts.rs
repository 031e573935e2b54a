//! The headers of a packet as values, which can be changed and written.
use crate::ether_packet::{PacketBuilder, PacketContent, PacketSlice, ReplaceError};
use crate::{ArpPacket, EtherType, LinkExtHeader, LinkHeader};

/// The headers of a packet that was read, as values that can be changed and written, and the bytes after them.
///
/// [`PacketSlice::to_parts`] returns them. [`write_frame`](Self::write_frame) writes the whole frame again: the
/// headers, the rest and the trailer. If the parts are unchanged, that is the frame that was read, except for the two
/// reserved bits of each SecTag.
///
/// [`builder`](Self::builder) is for packets with other tags or another payload. [`PacketBuilder::write`] makes each
/// header announce what follows it; [`PacketBuilder::write_unchanged`] writes the headers as they are. Neither writes
/// the trailer, nor what follows an ARP packet.
///
/// ```
/// use etherpeel::ether_peel::Start;
/// use etherpeel::ether_packet::{PacketBuilder, PacketSlice};
///
/// let frame = [
///     0xFF, 0xFF, 0xFF, 0xFF, 0xFF, 0xFF, 0x02, 0x00, 0x00, 0x00, 0x00, 0x01, 0x88, 0xA8, // Ethernet II
///     0x00, 0x0A, 0x81, 0x00, // VLAN
///     0x00, 0x64, 0x08, 0x00, // VLAN
///     0x45,
/// ];
/// let Some(parts) = PacketSlice::from_slice(Start::Ethernet2, &frame).to_parts() else {
///     panic!("no link");
/// };
/// let mut target = [0; 23];
/// assert_eq!(parts.builder().write_unchanged(&mut target), Ok(23));
/// assert_eq!(target, frame);
/// let inner = PacketBuilder {
///     link_exts: &parts.link_exts()[1..],
///     ..parts.builder()
/// };
/// assert_eq!(inner.size(), 19);
/// ```
#[derive(Clone, PartialEq, Eq, Debug)]
pub struct PacketParts<'a> {
    /// The header that the packet begins with.
    pub link: LinkHeader,
    // The first `tag_count` of these are the tags.
    pub(in crate::ether_packet) tags: [LinkExtHeader; PacketSlice::LINK_EXTS_CAP],
    pub(in crate::ether_packet) tag_count: usize,
    /// The ARP packet, if there is one.
    pub arp: Option<ArpPacket>,
    /// The ether type that announces the rest. It is 0 if none does, as after a SecTag whose payload is encrypted.
    pub ether_type: EtherType,
    /// The bytes after the headers in the last window, without a frame check sequence. They include what follows an
    /// ARP packet in its window, such as padding.
    pub rest: &'a [u8],
    /// The bytes of the frame after the rest: the bytes after the payload of a SecTag with a short length, such as its
    /// integrity check value, and the frame check sequence.
    pub trailer: &'a [u8],
}

impl<'a> PacketParts<'a> {
    /// The VLAN tags and SecTags, outermost first.
    ///
    /// <details><summary>Contract</summary>
    ///
    /// ```text
    /// ensures { result.now ≡ parts_exts self.now }
    /// ```
    ///
    /// Words: [`parts_exts`](crate::definitions::ether_packet#def.parts_exts).
    /// [Notation](crate::definitions::notation)
    ///
    /// </details>
    #[must_use]
    #[inline]
    pub fn link_exts(&self) -> &[LinkExtHeader] {
        let tags = self.tags.as_slice();
        &tags[..self.tag_count.min(tags.len())]
    }

    /// Sets the VLAN tag or SecTag at an index, counted from the outermost one. The number of tags is unchanged.
    ///
    /// # Errors
    ///
    /// [`ReplaceError::NoLinkExt`]: there is no tag at the index. The error names the number of tags, and the parts
    /// are unchanged.
    ///
    /// ```
    /// use etherpeel::{LinkExtHeader, SingleVlanHeader};
    /// use etherpeel::ether_peel::Start;
    /// use etherpeel::ether_packet::{PacketSlice, ReplaceError};
    ///
    /// let frame = [
    ///     0xFF, 0xFF, 0xFF, 0xFF, 0xFF, 0xFF, 0x02, 0x00, 0x00, 0x00, 0x00, 0x01, 0x81, 0x00, // Ethernet II
    ///     0x00, 0x64, 0x08, 0x00, // VLAN
    ///     0x45,
    /// ];
    /// let Some(mut parts) = PacketSlice::from_slice(Start::Ethernet2, &frame).to_parts() else {
    ///     panic!("no link");
    /// };
    /// let tag = LinkExtHeader::Vlan(SingleVlanHeader::from_bytes([0x01, 0x23, 0x08, 0x00]));
    /// assert_eq!(parts.set_link_ext(0, &tag), Ok(()));
    /// assert_eq!(parts.link_exts(), [tag].as_slice());
    /// assert_eq!(parts.set_link_ext(1, &tag), Err(ReplaceError::NoLinkExt(1)));
    /// ```
    ///
    /// <details><summary>Contract</summary>
    ///
    /// ```text
    /// ensures ok { OnOk result (index < length (parts_exts self.old)) }
    /// ensures err { IfErr result (IsNoExt self.old index) }
    /// ensures exts { parts_exts self.new ≡ slice_set (parts_exts self.old) index ext.now }
    /// ensures others { self.new ≡ record self.old { tags = self.new.tags } }
    /// ```
    ///
    /// Words: [`parts_exts`](crate::definitions::ether_packet#def.parts_exts),
    /// [`IsNoExt`](crate::definitions::ether_packet#def.IsNoExt). [Notation](crate::definitions::notation)
    ///
    /// </details>
    #[inline]
    pub fn set_link_ext(&mut self, index: usize, ext: &LinkExtHeader) -> Result<(), ReplaceError> {
        let count = self.link_exts().len();
        if index >= count {
            return Err(ReplaceError::NoLinkExt(count));
        }
        let tags = self.tags.as_mut_slice();
        tags[index] = *ext;
        Ok(())
    }

    /// A builder of the packet, whose content is the ARP packet if there is one, else the rest as a payload.
    ///
    /// <details><summary>Contract</summary>
    ///
    /// ```text
    /// ensures { IsBuilderOf self.now result }
    /// ```
    ///
    /// Words: [`IsBuilderOf`](crate::definitions::ether_packet#def.IsBuilderOf).
    /// [Notation](crate::definitions::notation)
    ///
    /// </details>
    #[must_use]
    #[inline]
    pub fn builder(&self) -> PacketBuilder<'_, '_> {
        PacketBuilder {
            link: self.link,
            link_exts: self.link_exts(),
            content: self.content(),
        }
    }

    /// The ARP packet if there is one, else the rest as a payload.
    #[inline]
    fn content(&self) -> PacketContent<'_> {
        match &self.arp {
            Some(packet) => PacketContent::Arp(packet),
            None => PacketContent::Payload(self.ether_type, self.rest),
        }
    }
}
