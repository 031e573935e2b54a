//! The headers of a packet, read by one call.

use crate::ether_packet::packet_units::PacketUnits;
use crate::ether_packet::packet_walk::PacketWalk;
use crate::ether_packet::{PacketExt, PacketParts};
use arrayvec::ArrayVec;
use crate::ether_peel::{Peel, PeelFault, RestKind, Start};
use crate::{
    ArpPacketSlice, DoubleVlanSlice, EtherPayloadSlice, EtherType, LinkSlice, MacsecSlice,
    SingleVlanHeader, VlanId, VlanSlice,
};

/// The most VLAN tags and SecTags that a packet holds.
const LINK_EXTS_CAP: usize = 3;

/// The link-layer headers of a frame, the bytes left after them, and the fault if a header is refused.
///
/// A packet keeps where its headers are, so a getter returns a view of the frame without another walk. After a fault
/// the packet still has the headers before it. At most [`LINK_EXTS_CAP`](Self::LINK_EXTS_CAP) VLAN tags and SecTags
/// are read; further tags are part of the rest.
///
/// ```
/// use etherpeel::EtherType;
/// use etherpeel::ether_peel::{RestKind, Start};
/// use etherpeel::ether_packet::PacketSlice;
///
/// let frame = [
///     0xFF, 0xFF, 0xFF, 0xFF, 0xFF, 0xFF, 0x02, 0x00, 0x00, 0x00, 0x00, 0x01, 0x88, 0xA8, // Ethernet II
///     0x00, 0x0A, 0x81, 0x00, // VLAN
///     0x00, 0x64, 0x08, 0x00, // VLAN
///     0x45,
/// ];
/// let packet = PacketSlice::from_slice(Start::Ethernet2, &frame);
/// let ids = packet.vlan_ids();
/// assert_eq!(ids.len(), 2);
/// assert_eq!(ids[0].value(), 10);
/// assert_eq!(ids[1].value(), 100);
/// assert!(packet.is_complete());
/// assert_eq!(packet.rest_kind, RestKind::EtherType(EtherType::IPV4));
/// assert_eq!(packet.rest, [0x45].as_slice());
/// ```
#[derive(Clone, PartialEq, Eq, Debug)]
pub struct PacketSlice<'a> {
    read: PacketUnits<'a>,
    /// The bytes left to read in the last window: after a fault, in the window of the refused header.
    pub rest: &'a [u8],
    /// The offset of the rest in bytes from the start of the frame.
    pub rest_offset: usize,
    /// What the rest is announced as; after a fault, what was expected there.
    pub rest_kind: RestKind,
    /// Why the next header is refused, if it is.
    pub fault: Option<PeelFault>,
}

impl<'a> PacketSlice<'a> {
    /// The most VLAN tags and SecTags that a packet holds: 3.
    pub const LINK_EXTS_CAP: usize = LINK_EXTS_CAP;

    /// Reads the headers of a frame: those that [`Peel::with_limit`] returns with
    /// [`LINK_EXTS_CAP`](Self::LINK_EXTS_CAP) as its limit.
    ///
    /// A refused header is not an error of this call: the packet has the headers before it, and `fault` says why it is
    /// refused.
    ///
    /// <details><summary>Contract</summary>
    ///
    /// ```text
    /// ensures packet { IsPacket (packet_start start) bytes.now result }
    /// ensures front { IsFrontOfUnlimited start bytes.now link_exts_cap }
    /// ```
    ///
    /// Words: [`IsPacket`](crate::definitions::ether_packet#def.IsPacket),
    /// [`packet_start`](crate::definitions::ether_packet#def.packet_start),
    /// [`IsFrontOfUnlimited`](crate::definitions::ether_peel#def.IsFrontOfUnlimited),
    /// [`link_exts_cap`](crate::definitions::ether_packet#def.link_exts_cap).
    /// [Notation](crate::definitions::notation)
    ///
    /// </details>
    #[must_use]
    #[inline(always)]
    pub fn from_slice(start: Start, bytes: &'a [u8]) -> PacketSlice<'a> {
        let mut walk = PacketWalk {
            peel: Peel::with_limit(start, bytes, LINK_EXTS_CAP),
            read: PacketUnits::new(bytes),
            fault: None,
        };
        walk.read_all();
        PacketSlice::ended(walk)
    }

    /// The packet of a walk that has ended.
    #[inline(always)]
    fn ended(walk: PacketWalk<'a>) -> PacketSlice<'a> {
        PacketSlice {
            rest: walk.peel.rest(),
            rest_offset: walk.peel.offset(),
            rest_kind: walk.peel.kind(),
            read: walk.read,
            fault: walk.fault,
        }
    }

    /// The first header of the frame, of Ethernet II or Linux cooked capture v1, with its payload.
    ///
    /// `None` if that header is refused, or if the frame begins after a link's header ([`Start::EtherType`]).
    ///
    /// <details><summary>Contract</summary>
    ///
    /// ```text
    /// ensures { result ≡ link_of self.now.read.units }
    /// ```
    ///
    /// Words: [`link_of`](crate::definitions::ether_packet#def.link_of). [Notation](crate::definitions::notation)
    ///
    /// </details>
    #[must_use]
    #[inline(always)]
    pub fn link(&self) -> Option<LinkSlice<'a>> {
        self.read.link()
    }

    /// The number of VLAN tags and SecTags.
    ///
    /// <details><summary>Contract</summary>
    ///
    /// ```text
    /// ensures value { result ≡ length (exts_of self.now.read.units) }
    /// ensures most { result ≤ link_exts_cap }
    /// ```
    ///
    /// Words: [`exts_of`](crate::definitions::ether_packet#def.exts_of),
    /// [`link_exts_cap`](crate::definitions::ether_packet#def.link_exts_cap).
    /// [Notation](crate::definitions::notation)
    ///
    /// </details>
    #[must_use]
    #[inline(always)]
    pub fn link_ext_count(&self) -> usize {
        self.read.ext_count()
    }

    /// The VLAN tag or SecTag at an index, counted from the outermost one; `None` if there is no tag at the index.
    ///
    /// <details><summary>Contract</summary>
    ///
    /// ```text
    /// ensures { ViewsExtIf (slice_get (exts_of self.now.read.units) index) result }
    /// ```
    ///
    /// Words: [`ViewsExtIf`](crate::definitions::ether_packet#def.ViewsExtIf),
    /// [`exts_of`](crate::definitions::ether_packet#def.exts_of). [Notation](crate::definitions::notation)
    ///
    /// </details>
    #[must_use]
    #[inline(always)]
    pub fn link_ext(&self, index: usize) -> Option<PacketExt<'a>> {
        self.read.ext(index)
    }

    /// The VLAN tags and SecTags, outermost first.
    ///
    /// ```
    /// use etherpeel::EtherType;
    /// use etherpeel::ether_peel::Start;
    /// use etherpeel::ether_packet::PacketSlice;
    ///
    /// let tags = [
    ///     0x00, 0x0A, 0x81, 0x00, // VLAN
    ///     0x00, 0x64, 0x08, 0x00, // VLAN
    /// ];
    /// let packet = PacketSlice::from_slice(Start::EtherType(EtherType::PROVIDER_BRIDGING), &tags);
    /// let exts = packet.link_exts();
    /// assert_eq!(exts.len(), 2);
    /// assert_eq!(exts[1].offset, 4);
    /// ```
    ///
    /// <details><summary>Contract</summary>
    ///
    /// ```text
    /// ensures { ViewsExts (exts_of self.now.read.units) result.items }
    /// ```
    ///
    /// Words: [`ViewsExts`](crate::definitions::ether_packet#def.ViewsExts),
    /// [`exts_of`](crate::definitions::ether_packet#def.exts_of). [Notation](crate::definitions::notation)
    ///
    /// </details>
    #[must_use]
    #[inline]
    pub fn link_exts(&self) -> ArrayVec<PacketExt<'a>, LINK_EXTS_CAP> {
        let mut exts = ArrayVec::new();
        for index in 0..self.read.ext_count() {
            if let Some(ext) = self.read.ext(index) {
                exts.push(ext);
            }
        }
        exts
    }

    /// The ARP packet, without the bytes that follow it.
    ///
    /// <details><summary>Contract</summary>
    ///
    /// ```text
    /// ensures { result ≡ arp_view self.now.read.units }
    /// ```
    ///
    /// Words: [`arp_view`](crate::definitions::ether_packet#def.arp_view). [Notation](crate::definitions::notation)
    ///
    /// </details>
    #[must_use]
    #[inline(always)]
    pub fn arp(&self) -> Option<ArpPacketSlice<'a>> {
        self.read.arp()
    }

    /// The offset of the ARP packet in bytes from the start of the frame.
    ///
    /// <details><summary>Contract</summary>
    ///
    /// ```text
    /// ensures { result ≡ arp_offset self.now.read.units }
    /// ```
    ///
    /// Words: [`arp_offset`](crate::definitions::ether_packet#def.arp_offset).
    /// [Notation](crate::definitions::notation)
    ///
    /// </details>
    #[must_use]
    #[inline(always)]
    pub fn arp_offset(&self) -> Option<usize> {
        self.read.arp_offset()
    }

    /// The first VLAN tag with its payload, or the first two VLAN tags if there are several; `None` without a VLAN
    /// tag.
    ///
    /// SecTags are skipped.
    ///
    /// <details><summary>Contract</summary>
    ///
    /// ```text
    /// ensures { result ≡ first_tags (vlans_of self.now.read.units) }
    /// ```
    ///
    /// Words: [`first_tags`](crate::definitions::ether_packet#def.first_tags),
    /// [`vlans_of`](crate::definitions::ether_packet#def.vlans_of). [Notation](crate::definitions::notation)
    ///
    /// </details>
    #[must_use]
    #[inline]
    pub fn vlan(&self) -> Option<VlanSlice<'a>> {
        let mut first = None;
        for index in 0..self.read.ext_count() {
            if let Some(tag) = self.read.tag(index) {
                match first {
                    None => first = Some(tag),
                    Some(outer) => {
                        let inner = tag;
                        return Some(VlanSlice::DoubleVlan(DoubleVlanSlice { outer, inner }));
                    }
                }
            }
        }
        match first {
            Some(tag) => Some(VlanSlice::SingleVlan(tag)),
            None => None,
        }
    }

    /// The VLAN identifiers of the VLAN tags, outermost first.
    ///
    /// <details><summary>Contract</summary>
    ///
    /// ```text
    /// ensures { result.items ≡ vlan_ids_of (packet_headers self.now) }
    /// ```
    ///
    /// Words: [`vlan_ids_of`](crate::definitions::ether_packet#def.vlan_ids_of),
    /// [`packet_headers`](crate::definitions::ether_packet#def.packet_headers).
    /// [Notation](crate::definitions::notation)
    ///
    /// </details>
    #[must_use]
    #[inline]
    pub fn vlan_ids(&self) -> ArrayVec<VlanId, LINK_EXTS_CAP> {
        let mut ids = ArrayVec::new();
        for index in 0..self.read.ext_count() {
            if let Some(tag) = self.read.tag(index) {
                ids.push(tag.vlan_identifier());
            }
        }
        ids
    }

    /// The outermost VLAN tag, and its index among VLAN tags and SecTags, which
    /// [`replace_link_ext`](crate::ether_packet::replace_link_ext) takes; `None` without a VLAN tag.
    ///
    /// ```
    /// use etherpeel::EtherType;
    /// use etherpeel::ether_peel::Start;
    /// use etherpeel::ether_packet::PacketSlice;
    ///
    /// let tags = [
    ///     0x00, 0x0A, 0x81, 0x00, // VLAN
    ///     0x00, 0x64, 0x08, 0x00, // VLAN
    /// ];
    /// let packet = PacketSlice::from_slice(Start::EtherType(EtherType::PROVIDER_BRIDGING), &tags);
    /// match packet.outermost_vlan() {
    ///     Some((index, tag)) => {
    ///         assert_eq!(index, 0);
    ///         assert_eq!(tag.vlan_id.value(), 10);
    ///     }
    ///     None => panic!("no tag"),
    /// }
    /// ```
    ///
    /// <details><summary>Contract</summary>
    ///
    /// ```text
    /// ensures { MatchOption result (vlan_ids_of (packet_headers self.now) ≡ [])
    ///     (λ found. IsOutermost (packet_headers self.now) found.0 (vlan_view found.1)) }
    /// ```
    ///
    /// Words: [`vlan_ids_of`](crate::definitions::ether_packet#def.vlan_ids_of),
    /// [`packet_headers`](crate::definitions::ether_packet#def.packet_headers),
    /// [`IsOutermost`](crate::definitions::ether_packet#def.IsOutermost),
    /// [`vlan_view`](crate::definitions::ether_tags#def.vlan_view). [Notation](crate::definitions::notation)
    ///
    /// </details>
    #[must_use]
    #[inline]
    pub fn outermost_vlan(&self) -> Option<(usize, SingleVlanHeader)> {
        for index in 0..self.read.ext_count() {
            if let Some(tag) = self.read.tag(index) {
                return Some((index, tag.to_header()));
            }
        }
        None
    }

    /// The first SecTag with its payload; `None` without a SecTag.
    ///
    /// <details><summary>Contract</summary>
    ///
    /// ```text
    /// ensures { ViewsSecTagIf (slice_get (sec_tags_of self.now.read.units) 0) result }
    /// ```
    ///
    /// Words: [`ViewsSecTagIf`](crate::definitions::ether_packet#def.ViewsSecTagIf),
    /// [`sec_tags_of`](crate::definitions::ether_packet#def.sec_tags_of). [Notation](crate::definitions::notation)
    ///
    /// </details>
    #[must_use]
    #[inline]
    pub fn macsec(&self) -> Option<MacsecSlice<'a>> {
        for index in 0..self.read.ext_count() {
            if let Some(packet) = self.read.sec_tag(index) {
                return Some(packet);
            }
        }
        None
    }

    /// The payload of the last VLAN tag or SecTag, or of the link's header if there is no tag, with its ether type.
    ///
    /// `None` if the payload has no ether type, as after a SecTag whose payload is encrypted or changed, or if no
    /// header precedes it. An ARP packet is part of the payload.
    ///
    /// <details><summary>Contract</summary>
    ///
    /// ```text
    /// ensures { HoldsPayload (link_of self.now.read.units) (last_ext self.now.read.units) result }
    /// ```
    ///
    /// Words: [`HoldsPayload`](crate::definitions::ether_packet#def.HoldsPayload),
    /// [`link_of`](crate::definitions::ether_packet#def.link_of),
    /// [`last_ext`](crate::definitions::ether_packet#def.last_ext). [Notation](crate::definitions::notation)
    ///
    /// </details>
    #[must_use]
    #[inline]
    pub fn ether_payload(&self) -> Option<EtherPayloadSlice<'a>> {
        match self.read.ext(self.read.ext_count().saturating_sub(1)) {
            Some(ext) => ext.slice.ether_payload(),
            None => match self.read.link() {
                Some(link) => link.ether_payload(),
                None => None,
            },
        }
    }

    /// The headers as values that can be changed and written, and the bytes after them.
    ///
    /// `None` if the header of the link is refused, or if the frame begins after it ([`Start::EtherType`]). After a
    /// fault the parts are the headers before it, and the bytes of the refused header's window.
    ///
    /// <details><summary>Contract</summary>
    ///
    /// ```text
    /// ensures { MatchOption result (has_link (packet_headers self.now) ≡ false)
    ///     (λ parts. ArePartsOf parts self.now) }
    /// ```
    ///
    /// Words: [`has_link`](crate::definitions::ether_packet#def.has_link),
    /// [`packet_headers`](crate::definitions::ether_packet#def.packet_headers),
    /// [`ArePartsOf`](crate::definitions::ether_packet#def.ArePartsOf). [Notation](crate::definitions::notation)
    ///
    /// </details>
    #[must_use]
    #[inline]
    pub fn to_parts(&self) -> Option<PacketParts<'a>> {
        let ether_type = match self.rest_kind {
            RestKind::EtherType(ether_type) => ether_type,
            _ => EtherType(0),
        };
        let trailer = self.read.frame_after(self.rest_offset, self.rest.len());
        self.read.to_parts(ether_type, self.rest, trailer)
    }

    /// Whether no header is refused. The payload may still be cut short.
    ///
    /// <details><summary>Contract</summary>
    ///
    /// ```text
    /// ensures value { IsTrue result ↔ (self.now.fault ≡ None) }
    /// ensures accepted { TellsAccepted self.now result }
    /// ```
    ///
    /// Words: [`TellsAccepted`](crate::definitions::ether_packet#def.TellsAccepted).
    /// [Notation](crate::definitions::notation)
    ///
    /// </details>
    #[must_use]
    #[inline]
    pub fn is_complete(&self) -> bool {
        self.fault.is_none()
    }

    /// The least snap length that keeps all headers of the packet: a frame cut to at least this many bytes still has
    /// them, and a frame cut shorter lacks at least one.
    ///
    /// A packet has at most three tags. Of a frame with more tags, a fourth and what follows it are not counted, and
    /// may be lost in such a cut; [`min_snap_len`](crate::ether_packet::min_snap_len) counts them all.
    ///
    /// If a SecTag gives the length of its payload, that payload counts, because the tag is refused without it. A
    /// frame check sequence does not count: a cut frame has lost it, and is read as a frame without one.
    ///
    /// ```
    /// use etherpeel::ether_peel::Start;
    /// use etherpeel::ether_packet::PacketSlice;
    ///
    /// let frame = [
    ///     0xFF, 0xFF, 0xFF, 0xFF, 0xFF, 0xFF, 0x02, 0x00, 0x00, 0x00, 0x00, 0x01, 0x81, 0x00, // Ethernet II
    ///     0xB1, 0x23, 0x08, 0x00, // VLAN
    ///     0x45,
    /// ];
    /// assert_eq!(PacketSlice::from_slice(Start::Ethernet2, &frame).min_snap_len(), 18);
    /// ```
    ///
    /// <details><summary>Contract</summary>
    ///
    /// ```text
    /// ensures value { result ≡ reach 0 (packet_headers self.now) }
    /// ensures least { SnapsAt self.now result }
    /// ```
    ///
    /// Words: [`reach`](crate::definitions::ether_peel#def.reach),
    /// [`packet_headers`](crate::definitions::ether_packet#def.packet_headers),
    /// [`SnapsAt`](crate::definitions::ether_packet#def.SnapsAt). [Notation](crate::definitions::notation)
    ///
    /// </details>
    #[must_use]
    #[inline]
    pub fn min_snap_len(&self) -> usize {
        self.read.min_snap_len()
    }
}
