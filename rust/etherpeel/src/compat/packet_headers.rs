//! The headers of a packet, as values.

use super::vlan_tags::{MOST_LINK_EXTS, first_headers};
use super::{NetHeaders, NetSlice, PayloadSlice, SlicedPacket, TransportHeader};
use crate::err::packet::SliceError;
use crate::{EtherType, LinkExtHeader, LinkExtSlice, LinkHeader, MacsecPayloadSlice, VlanHeader, VlanId};
use arrayvec::ArrayVec;

/// The headers of a packet as values, and what follows them.
#[derive(Clone, PartialEq, Eq, Debug)]
pub struct PacketHeaders<'a> {
    /// The header of the link. `None` if the packet begins with an ether type.
    pub link: Option<LinkHeader>,
    /// The VLAN tags and SecTags, outermost first.
    pub link_exts: ArrayVec<LinkExtHeader, { PacketHeaders::LINK_EXTS_CAP }>,
    /// The ARP packet, if the packet has one.
    pub net: Option<NetHeaders>,
    /// Always `None`.
    pub transport: Option<TransportHeader>,
    /// What follows the headers.
    pub payload: PayloadSlice<'a>,
}

impl<'a> PacketHeaders<'a> {
    /// The most VLAN tags and SecTags that are read.
    pub const LINK_EXTS_CAP: usize = MOST_LINK_EXTS;

    /// Reads a packet that begins with an Ethernet II header, and has no frame check sequence.
    ///
    /// # Errors
    ///
    /// As [`SlicedPacket::from_ethernet`].
    pub fn from_ethernet_slice(slice: &'a [u8]) -> Result<PacketHeaders<'a>, SliceError> {
        SlicedPacket::from_ethernet(slice).map(PacketHeaders::of)
    }

    /// Reads a packet that begins with what an ether type announces.
    ///
    /// # Errors
    ///
    /// As [`SlicedPacket::from_ethernet`].
    pub fn from_ether_type(ether_type: EtherType, data: &'a [u8]) -> Result<PacketHeaders<'a>, SliceError> {
        SlicedPacket::from_ether_type(ether_type, data).map(PacketHeaders::of)
    }

    fn of(packet: SlicedPacket<'a>) -> PacketHeaders<'a> {
        PacketHeaders {
            payload: payload_of(&packet),
            link: packet.link.and_then(|link| link.to_header()),
            link_exts: packet.link_exts.iter().map(LinkExtSlice::to_header).collect(),
            net: packet.net.map(|NetSlice::Arp(arp)| NetHeaders::Arp(arp.to_packet())),
            transport: None,
        }
    }

    /// The first VLAN tag, or the first two if there are more.
    #[must_use]
    pub fn vlan(&self) -> Option<VlanHeader> {
        first_headers(self.link_exts.iter().filter_map(|link_ext| match link_ext {
            LinkExtHeader::Vlan(tag) => Some(*tag),
            LinkExtHeader::Macsec(_) => None,
        }))
    }

    /// The identifiers of the VLAN tags, outermost first.
    #[must_use]
    pub fn vlan_ids(&self) -> ArrayVec<VlanId, { PacketHeaders::LINK_EXTS_CAP }> {
        let tags = self.link_exts.iter().filter_map(|link_ext| match link_ext {
            LinkExtHeader::Vlan(tag) => Some(tag.vlan_id),
            LinkExtHeader::Macsec(_) => None,
        });
        tags.collect()
    }
}

/// What follows the headers of a packet.
fn payload_of<'a>(packet: &SlicedPacket<'a>) -> PayloadSlice<'a> {
    if packet.net.is_some() {
        return PayloadSlice::Empty;
    }
    match (packet.ether_payload(), packet.link_exts.last()) {
        (Some(payload), _) => PayloadSlice::Ether(payload),
        (None, Some(LinkExtSlice::Macsec(tag))) => match tag.payload {
            MacsecPayloadSlice::Modified(payload) => PayloadSlice::MacsecMod(payload),
            MacsecPayloadSlice::Unmodified(payload) => PayloadSlice::Ether(payload),
        },
        (None, _) => PayloadSlice::Empty,
    }
}
