//! The headers of a packet, kept as windows of the frame. A getter makes the view from its window.

use crate::ether_packet::ext_places::{ExtKind, ExtPlace, ExtPlaces, FrameWindow};
use crate::ether_packet::{PacketExt, PacketParts};
use crate::ether_peel::PeelUnit;
use crate::{
    ArpPacket, ArpPacketSlice, EtherType, Ethernet2Header, Ethernet2Slice, LinkExtHeader,
    LinkExtSlice, LinkHeader, LinkSlice, LinuxSllHeader, LinuxSllSlice, MacsecSlice,
    SingleVlanHeader, SingleVlanSlice,
};

/// The kind of the link's header at the front of a frame, if there is one.
#[derive(Clone, Copy, PartialEq, Eq, Hash, Debug)]
enum LinkKind {
    Missing,
    Ethernet2,
    Ethernet2Fcs,
    LinuxSll,
}

/// The headers that were read from a frame, each with its window.
#[derive(Clone, PartialEq, Eq, Debug)]
pub(in crate::ether_packet) struct PacketUnits<'a> {
    frame: &'a [u8],
    link: LinkKind,
    exts: ExtPlaces<'a>,
    arp: Option<FrameWindow<'a>>,
}

impl<'a> PacketUnits<'a> {
    /// No headers.
    ///
    /// <details><summary>Contract</summary>
    ///
    /// ```text
    /// ensures { result ≡ record { frame = frame.now; units = [] } }
    /// ```
    ///
    /// [Notation](crate::definitions::notation)
    ///
    /// </details>
    #[must_use]
    #[inline(always)]
    pub fn new(frame: &'a [u8]) -> PacketUnits<'a> {
        PacketUnits {
            frame,
            link: LinkKind::Missing,
            exts: ExtPlaces::new(),
            arp: None,
        }
    }

    /// Appends a header that was read in a window.
    ///
    /// # Panics
    ///
    /// The call may panic, or return something else, if a `requires` of its contract is not met.
    ///
    /// <details><summary>Contract</summary>
    ///
    /// ```text
    /// requires fits { HasPlace self.old unit.now place }
    /// requires readable { IsReadable (kind_read unit.now) place }
    /// ensures { self.new ≡ read_with self.old (kind_read unit.now) place.entry }
    /// ```
    ///
    /// Words: [`HasPlace`](crate::definitions::ether_packet#def.HasPlace),
    /// [`IsReadable`](crate::definitions::ether_packet#def.IsReadable),
    /// [`kind_read`](crate::definitions::ether_packet#def.kind_read),
    /// [`read_with`](crate::definitions::ether_packet#def.read_with). [Notation](crate::definitions::notation)
    ///
    /// </details>
    #[inline(always)]
    pub fn add(&mut self, unit: &PeelUnit<'a>, place: FrameWindow<'a>) {
        match unit {
            PeelUnit::Ethernet2(slice) => self.link = frame_place(slice),
            PeelUnit::LinuxSll(_) => self.link = LinkKind::LinuxSll,
            PeelUnit::Vlan(_) => self.add_ext(ExtKind::Vlan, place),
            PeelUnit::Macsec(_) => self.add_ext(ExtKind::Macsec, place),
            PeelUnit::Arp(_) => self.arp = Some(place),
        }
    }

    /// Appends a VLAN tag or SecTag.
    #[inline(always)]
    fn add_ext(&mut self, kind: ExtKind, place: FrameWindow<'a>) {
        self.exts.push(ExtPlace { kind, place });
    }

    /// The link's header with its payload.
    ///
    /// <details><summary>Contract</summary>
    ///
    /// ```text
    /// ensures { result ≡ link_of self.now.units }
    /// ```
    ///
    /// Words: [`link_of`](crate::definitions::ether_packet#def.link_of). [Notation](crate::definitions::notation)
    ///
    /// </details>
    #[must_use]
    #[inline(always)]
    pub fn link(&self) -> Option<LinkSlice<'a>> {
        match self.link {
            LinkKind::Missing => None,
            LinkKind::Ethernet2 => Some(LinkSlice::Ethernet2(frame_of(self.frame))),
            LinkKind::Ethernet2Fcs => Some(LinkSlice::Ethernet2(frame_with_fcs_of(self.frame))),
            LinkKind::LinuxSll => Some(LinkSlice::LinuxSll(linux_sll_slice(self.frame))),
        }
    }

    /// The number of VLAN tags and SecTags.
    ///
    /// <details><summary>Contract</summary>
    ///
    /// ```text
    /// ensures value { result ≡ length (exts_of self.now.units) }
    /// ensures most { result ≤ 3 }
    /// ```
    ///
    /// Words: [`exts_of`](crate::definitions::ether_packet#def.exts_of). [Notation](crate::definitions::notation)
    ///
    /// </details>
    #[must_use]
    #[inline(always)]
    pub fn ext_count(&self) -> usize {
        self.exts.len()
    }

    /// The VLAN tag or SecTag at an index. One branch for each index takes fewer instructions than selecting the place
    /// first.
    ///
    /// <details><summary>Contract</summary>
    ///
    /// ```text
    /// ensures { ViewsExtIf (slice_get (exts_of self.now.units) index) result }
    /// ```
    ///
    /// Words: [`ViewsExtIf`](crate::definitions::ether_packet#def.ViewsExtIf),
    /// [`exts_of`](crate::definitions::ether_packet#def.exts_of). [Notation](crate::definitions::notation)
    ///
    /// </details>
    #[must_use]
    #[inline(always)]
    pub fn ext(&self, index: usize) -> Option<PacketExt<'a>> {
        match index {
            0 => self.ext_at(0),
            1 => self.ext_at(1),
            2 => self.ext_at(2),
            _ => self.ext_at(index),
        }
    }

    /// Does as `ext`, by selecting the place first.
    #[inline(always)]
    fn ext_at(&self, index: usize) -> Option<PacketExt<'a>> {
        match self.exts.get(index) {
            Some(ext) => Some(ext_of(ext)),
            None => None,
        }
    }

    /// The VLAN tag or SecTag at an index, if it is a VLAN tag.
    ///
    /// <details><summary>Contract</summary>
    ///
    /// ```text
    /// ensures { result ≡ option_and_then vlan_of_unit (slice_get (exts_of self.now.units) index) }
    /// ```
    ///
    /// Words: [`vlan_of_unit`](crate::definitions::ether_packet#def.vlan_of_unit),
    /// [`exts_of`](crate::definitions::ether_packet#def.exts_of). [Notation](crate::definitions::notation)
    ///
    /// </details>
    #[must_use]
    #[inline(always)]
    pub fn tag(&self, index: usize) -> Option<SingleVlanSlice<'a>> {
        match self.ext(index) {
            Some(
                PacketExt {
                    slice: LinkExtSlice::Vlan(tag),
                    ..
                },
            ) => Some(tag),
            _ => None,
        }
    }

    /// The VLAN tag or SecTag at an index, if it is a SecTag.
    ///
    /// <details><summary>Contract</summary>
    ///
    /// ```text
    /// ensures { ViewsSecTagIf (option_and_then macsec_of_unit (slice_get (exts_of self.now.units) index))
    ///     result }
    /// ```
    ///
    /// Words: [`ViewsSecTagIf`](crate::definitions::ether_packet#def.ViewsSecTagIf),
    /// [`macsec_of_unit`](crate::definitions::ether_packet#def.macsec_of_unit),
    /// [`exts_of`](crate::definitions::ether_packet#def.exts_of). [Notation](crate::definitions::notation)
    ///
    /// </details>
    #[must_use]
    #[inline(always)]
    pub fn sec_tag(&self, index: usize) -> Option<MacsecSlice<'a>> {
        match self.ext(index) {
            Some(
                PacketExt {
                    slice: LinkExtSlice::Macsec(packet),
                    ..
                },
            ) => Some(packet),
            _ => None,
        }
    }

    /// The ARP packet.
    ///
    /// <details><summary>Contract</summary>
    ///
    /// ```text
    /// ensures { result ≡ arp_view self.now.units }
    /// ```
    ///
    /// Words: [`arp_view`](crate::definitions::ether_packet#def.arp_view). [Notation](crate::definitions::notation)
    ///
    /// </details>
    #[must_use]
    #[inline(always)]
    pub fn arp(&self) -> Option<ArpPacketSlice<'a>> {
        match self.arp {
            Some(place) => Some(arp_slice(place.bytes)),
            None => None,
        }
    }

    /// The offset of the ARP packet.
    ///
    /// <details><summary>Contract</summary>
    ///
    /// ```text
    /// ensures { result ≡ arp_offset self.now.units }
    /// ```
    ///
    /// Words: [`arp_offset`](crate::definitions::ether_packet#def.arp_offset).
    /// [Notation](crate::definitions::notation)
    ///
    /// </details>
    #[must_use]
    #[inline(always)]
    pub fn arp_offset(&self) -> Option<usize> {
        match self.arp {
            Some(place) => Some(place.start),
            None => None,
        }
    }

    /// The bytes of the frame after the `len` bytes from the offset `at` on.
    ///
    /// <details><summary>Contract</summary>
    ///
    /// ```text
    /// ensures { result.now ≡ drop (at + len) self.now.frame }
    /// ```
    ///
    /// [Notation](crate::definitions::notation)
    ///
    /// </details>
    #[must_use]
    #[inline]
    pub fn frame_after(&self, at: usize, len: usize) -> &'a [u8] {
        let frame = self.frame;
        let end = at.saturating_add(len).min(frame.len());
        &frame[end..]
    }

    /// The headers as values, with the rest after them, its ether type and the trailer; `None` if there is no link's
    /// header.
    ///
    /// <details><summary>Contract</summary>
    ///
    /// ```text
    /// ensures { MatchOption result (has_link (map header_of self.now.units) ≡ false)
    ///     (λ p. HaveHeaders p (map header_of self.now.units) × (p.ether_type ≡ ether_type)
    ///     × (p.rest.now ≡ rest.now) × (p.trailer.now ≡ trailer.now)) }
    /// ```
    ///
    /// Words: [`has_link`](crate::definitions::ether_packet#def.has_link),
    /// [`header_of`](crate::definitions::ether_packet#def.header_of),
    /// [`HaveHeaders`](crate::definitions::ether_packet#def.HaveHeaders). [Notation](crate::definitions::notation)
    ///
    /// </details>
    #[must_use]
    #[inline]
    pub fn to_parts(
        &self,
        ether_type: EtherType,
        rest: &'a [u8],
        trailer: &'a [u8],
    ) -> Option<PacketParts<'a>> {
        let link = link_header(self.link, self.frame)?;
        Some(PacketParts {
            link,
            tags: [self.ext_header(0), self.ext_header(1), self.ext_header(2)],
            tag_count: self.ext_count(),
            arp: arp_packet(self.arp),
            ether_type,
            rest,
            trailer,
        })
    }

    /// The VLAN tag or SecTag at an index as a value; any value if there is no tag at the index.
    #[inline]
    fn ext_header(&self, index: usize) -> LinkExtHeader {
        match self.ext(index) {
            Some(ext) => ext.slice.to_header(),
            None => LinkExtHeader::Vlan(SingleVlanHeader::default()),
        }
    }

    /// The offset at which the headers end, including payloads whose length a SecTag gives.
    ///
    /// <details><summary>Contract</summary>
    ///
    /// ```text
    /// ensures { result ≡ reach 0 (map header_of self.now.units) }
    /// ```
    ///
    /// Words: [`reach`](crate::definitions::ether_peel#def.reach),
    /// [`header_of`](crate::definitions::ether_packet#def.header_of). [Notation](crate::definitions::notation)
    ///
    /// </details>
    #[must_use]
    #[inline]
    pub fn min_snap_len(&self) -> usize {
        let (at, end) = tags_reach(self.link, &self.exts);
        match self.arp {
            Some(place) => {
                let packet = arp_slice(place.bytes);
                end.max(at + packet.slice().len())
            }
            None => end,
        }
    }
}

/// The header of a link as a value.
#[inline]
fn link_header(link: LinkKind, frame: &[u8]) -> Option<LinkHeader> {
    match link {
        LinkKind::Missing => None,
        LinkKind::Ethernet2 => Some(LinkHeader::Ethernet2(frame_of(frame).to_header())),
        LinkKind::Ethernet2Fcs => Some(LinkHeader::Ethernet2(frame_with_fcs_of(frame).to_header())),
        LinkKind::LinuxSll => Some(LinkHeader::LinuxSll(linux_sll_slice(frame).to_header())),
    }
}

/// The ARP packet as a value.
#[inline]
fn arp_packet(arp: Option<FrameWindow<'_>>) -> Option<ArpPacket> {
    match arp {
        Some(place) => Some(arp_slice(place.bytes).to_packet()),
        None => None,
    }
}

/// The offset at which the link's header and the tags end, and how far they reach with the payloads whose length a
/// SecTag gives.
#[inline]
fn tags_reach(link: LinkKind, exts: &ExtPlaces<'_>) -> (usize, usize) {
    let mut at = link_len(link);
    let mut end = at;
    for index in 0..exts.len() {
        if let Some(ext) = exts.get(index) {
            let slice = ext_of(ext).slice;
            at += ext_len(&slice);
            end = end.max(at + named_len(&slice));
        }
    }
    (at, end)
}

/// The length in bytes of the link's header, 0 if there is none.
#[inline]
fn link_len(link: LinkKind) -> usize {
    match link {
        LinkKind::Missing => 0,
        LinkKind::Ethernet2 | LinkKind::Ethernet2Fcs => Ethernet2Header::LEN,
        LinkKind::LinuxSll => LinuxSllHeader::LEN,
    }
}

/// The length in bytes of a tag.
#[inline]
fn ext_len(ext: &LinkExtSlice<'_>) -> usize {
    match ext {
        LinkExtSlice::Vlan(tag) => tag.header_len(),
        LinkExtSlice::Macsec(packet) => packet.header.header_len(),
    }
}

/// The length in bytes of the payload that a SecTag gives, 0 if it gives none.
#[inline]
fn named_len(ext: &LinkExtSlice<'_>) -> usize {
    match ext {
        LinkExtSlice::Vlan(_) => 0,
        LinkExtSlice::Macsec(packet) => packet.header.expected_payload_len().unwrap_or(0),
    }
}

/// The kind of an Ethernet II frame: with or without a frame check sequence.
#[inline(always)]
fn frame_place(slice: &Ethernet2Slice<'_>) -> LinkKind {
    if slice.fcs().is_some() {
        LinkKind::Ethernet2Fcs
    } else {
        LinkKind::Ethernet2
    }
}

/// An Ethernet II frame that was read before.
#[inline(always)]
fn frame_of(bytes: &[u8]) -> Ethernet2Slice<'_> {
    match Ethernet2Slice::from_slice_without_fcs(bytes) {
        Ok(slice) => slice,
        Err(_) => unreachable!(),
    }
}

/// An Ethernet II frame with a frame check sequence that was read before.
#[inline(always)]
fn frame_with_fcs_of(bytes: &[u8]) -> Ethernet2Slice<'_> {
    match Ethernet2Slice::from_slice_with_crc32_fcs(bytes) {
        Ok(slice) => slice,
        Err(_) => unreachable!(),
    }
}

/// A cooked capture that was read before.
#[inline(always)]
fn linux_sll_slice(bytes: &[u8]) -> LinuxSllSlice<'_> {
    match LinuxSllSlice::from_slice(bytes) {
        Ok(slice) => slice,
        Err(_) => unreachable!(),
    }
}

/// A VLAN tag or SecTag that was read before.
#[inline(always)]
fn ext_of<'a>(ext: ExtPlace<'a>) -> PacketExt<'a> {
    let bytes = ext.place.bytes;
    let slice = match ext.kind {
        ExtKind::Vlan => LinkExtSlice::Vlan(tag_of(bytes)),
        ExtKind::Macsec => LinkExtSlice::Macsec(sec_tag_of(bytes)),
    };
    PacketExt {
        offset: ext.place.start,
        slice,
    }
}

/// A VLAN tag that was read before.
#[inline(always)]
fn tag_of(bytes: &[u8]) -> SingleVlanSlice<'_> {
    match SingleVlanSlice::from_slice(bytes) {
        Ok(slice) => slice,
        Err(_) => unreachable!(),
    }
}

/// A SecTag that was read before.
#[inline(always)]
fn sec_tag_of(bytes: &[u8]) -> MacsecSlice<'_> {
    match MacsecSlice::from_slice(bytes) {
        Ok(slice) => slice,
        Err(_) => unreachable!(),
    }
}

/// An ARP packet that was read before.
#[inline(always)]
fn arp_slice(bytes: &[u8]) -> ArpPacketSlice<'_> {
    match ArpPacketSlice::from_slice(bytes) {
        Ok(slice) => slice,
        Err(_) => unreachable!(),
    }
}
