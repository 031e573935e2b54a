//! The headers of a packet, as views.

use super::vlan_tags::{MOST_LINK_EXTS, first_slices};
use super::{NetSlice, TransportSlice};
use crate::err::packet::SliceError;
use crate::ether_peel::{Peel, PeelUnit, Start};
use crate::{EtherPayloadSlice, EtherType, LenSource, LinkExtSlice, LinkSlice, VlanId, VlanSlice};
use arrayvec::ArrayVec;

/// The headers of a packet, as views that borrow it.
///
/// After three VLAN tags and SecTags in all, the next one is payload.
#[derive(Clone, PartialEq, Eq, Debug)]
pub struct SlicedPacket<'a> {
    /// The header of the link; of a packet that begins with an ether type, the whole packet.
    pub link: Option<LinkSlice<'a>>,
    /// The VLAN tags and SecTags, outermost first.
    pub link_exts: ArrayVec<LinkExtSlice<'a>, { SlicedPacket::LINK_EXTS_CAP }>,
    /// The ARP packet, if the packet has one.
    pub net: Option<NetSlice<'a>>,
    /// Always `None`.
    pub transport: Option<TransportSlice<'a>>,
}

impl<'a> SlicedPacket<'a> {
    /// The most VLAN tags and SecTags that are read.
    pub const LINK_EXTS_CAP: usize = MOST_LINK_EXTS;

    /// Reads a packet that begins with an Ethernet II header, and has no frame check sequence.
    ///
    /// # Errors
    ///
    /// The first header that is cut short, or has a field with a value that is not supported. The offset of a length
    /// error counts from the start of the packet.
    pub fn from_ethernet(data: &'a [u8]) -> Result<SlicedPacket<'a>, SliceError> {
        SlicedPacket::walked(None, Start::Ethernet2, data)
    }

    /// Reads a packet that begins with a header of Linux cooked capture v1.
    ///
    /// # Errors
    ///
    /// As [`from_ethernet`](Self::from_ethernet).
    pub fn from_linux_sll(data: &'a [u8]) -> Result<SlicedPacket<'a>, SliceError> {
        SlicedPacket::walked(None, Start::LinuxSll, data)
    }

    /// Reads a packet that begins with what an ether type announces.
    ///
    /// # Errors
    ///
    /// As [`from_ethernet`](Self::from_ethernet).
    pub fn from_ether_type(ether_type: EtherType, data: &'a [u8]) -> Result<SlicedPacket<'a>, SliceError> {
        let payload = EtherPayloadSlice { ether_type, len_source: LenSource::Slice, payload: data };
        SlicedPacket::walked(Some(LinkSlice::EtherPayload(payload)), Start::EtherType(ether_type), data)
    }

    fn walked(link: Option<LinkSlice<'a>>, start: Start, data: &'a [u8]) -> Result<SlicedPacket<'a>, SliceError> {
        let mut packet = SlicedPacket { link, link_exts: ArrayVec::new(), net: None, transport: None };
        for unit in Peel::with_limit(start, data, SlicedPacket::LINK_EXTS_CAP) {
            match unit.map_err(|fault| fault.error)? {
                PeelUnit::Ethernet2(slice) => packet.link = Some(LinkSlice::Ethernet2(slice)),
                PeelUnit::LinuxSll(slice) => packet.link = Some(LinkSlice::LinuxSll(slice)),
                PeelUnit::Vlan(slice) => packet.link_exts.push(LinkExtSlice::Vlan(slice)),
                PeelUnit::Macsec(slice) => packet.link_exts.push(LinkExtSlice::Macsec(slice)),
                PeelUnit::Arp(slice) => packet.net = Some(NetSlice::Arp(slice)),
            }
        }
        Ok(packet)
    }

    /// The ether type of the payload after the headers that were read, if it has one. `None` after an ARP packet.
    #[must_use]
    pub fn payload_ether_type(&self) -> Option<EtherType> {
        match self.net {
            Some(_) => None,
            None => Some(self.ether_payload()?.ether_type),
        }
    }

    /// The payload of the last header of the link layer, if it has an ether type. An ARP packet is such a payload, with
    /// the bytes after it.
    #[must_use]
    pub fn ether_payload(&self) -> Option<EtherPayloadSlice<'a>> {
        match self.link_exts.last() {
            Some(link_ext) => link_ext.ether_payload(),
            None => self.link.as_ref()?.ether_payload(),
        }
    }

    /// Whether the payload is a fragment of an IP packet: never, since IP is not read.
    #[must_use]
    pub fn is_ip_payload_fragmented(&self) -> bool {
        false
    }

    /// The first VLAN tag, or the first two if there are more.
    #[must_use]
    pub fn vlan(&self) -> Option<VlanSlice<'a>> {
        first_slices(self.link_exts.iter().filter_map(|link_ext| match link_ext {
            LinkExtSlice::Vlan(tag) => Some(tag.clone()),
            LinkExtSlice::Macsec(_) => None,
        }))
    }

    /// The identifiers of the VLAN tags, outermost first.
    #[must_use]
    pub fn vlan_ids(&self) -> ArrayVec<VlanId, { SlicedPacket::LINK_EXTS_CAP }> {
        let tags = self.link_exts.iter().filter_map(|link_ext| match link_ext {
            LinkExtSlice::Vlan(tag) => Some(tag.vlan_identifier()),
            LinkExtSlice::Macsec(_) => None,
        });
        tags.collect()
    }
}
