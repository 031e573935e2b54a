//! The headers of a packet that may be cut short, as values.

use super::vlan_tags::{MOST_LINK_EXTS, first_headers};
use super::{
    LaxLinkExtSlice, LaxMacsecPayloadSlice, LaxNetSlice, LaxPayloadSlice, LaxSlicedPacket, NetHeaders, TransportHeader,
};
use crate::err::packet::SliceError;
use crate::err::{Layer, LenError, linux_sll};
use crate::{EtherType, LinkExtHeader, LinkHeader, LinkSlice, VlanHeader, VlanId};
use arrayvec::ArrayVec;

/// The headers of a packet that may be cut short, as values, and what follows them.
///
/// A packet is read as far as it goes: `stop_err` says what stopped. The payload of a SecTag may be shorter than the
/// tag says.
#[derive(Clone, PartialEq, Eq, Debug)]
pub struct LaxPacketHeaders<'a> {
    /// The header of the link. `None` if the packet begins with an ether type.
    pub link: Option<LinkHeader>,
    /// The VLAN tags and SecTags, outermost first.
    pub link_exts: ArrayVec<LinkExtHeader, { LaxPacketHeaders::LINK_EXTS_CAP }>,
    /// The ARP packet, if the packet has one.
    pub net: Option<NetHeaders>,
    /// Always `None`.
    pub transport: Option<TransportHeader>,
    /// What follows the headers.
    pub payload: LaxPayloadSlice<'a>,
    /// Why a header after that of the link was refused, and in which layer.
    pub stop_err: Option<(SliceError, Layer)>,
}

impl<'a> LaxPacketHeaders<'a> {
    /// The most VLAN tags and SecTags that are read.
    pub const LINK_EXTS_CAP: usize = MOST_LINK_EXTS;

    /// Reads a packet that begins with an Ethernet II header, and has no frame check sequence.
    ///
    /// # Errors
    ///
    /// The packet is shorter than that header.
    pub fn from_ethernet(slice: &'a [u8]) -> Result<LaxPacketHeaders<'a>, LenError> {
        LaxSlicedPacket::from_ethernet(slice).map(LaxPacketHeaders::of)
    }

    /// Reads a packet that begins with a header of Linux cooked capture v1.
    ///
    /// # Errors
    ///
    /// The packet is shorter than that header, or a field has a value that is not supported.
    pub fn from_linux_sll(slice: &'a [u8]) -> Result<LaxPacketHeaders<'a>, linux_sll::HeaderSliceError> {
        LaxSlicedPacket::from_linux_sll(slice).map(LaxPacketHeaders::of)
    }

    /// Reads a packet that begins with what an ether type announces.
    #[must_use]
    pub fn from_ether_type(ether_type: EtherType, slice: &'a [u8]) -> LaxPacketHeaders<'a> {
        LaxPacketHeaders::of(LaxSlicedPacket::from_ether_type(ether_type, slice))
    }

    fn of(packet: LaxSlicedPacket<'a>) -> LaxPacketHeaders<'a> {
        LaxPacketHeaders {
            payload: payload_of(&packet),
            link: packet.link.and_then(|link| link.to_header()),
            link_exts: packet.link_exts.iter().map(LaxLinkExtSlice::to_header).collect(),
            net: packet.net.map(|LaxNetSlice::Arp(arp)| NetHeaders::Arp(arp.to_packet())),
            transport: None,
            stop_err: packet.stop_err,
        }
    }

    /// The first VLAN tag, or the first two if there are more.
    #[must_use]
    pub fn vlan(&self) -> Option<VlanHeader> {
        first_headers(self.link_exts.iter().filter_map(|link_ext| match link_ext {
            LinkExtHeader::Vlan(tag) => Some(*tag),
            LinkExtHeader::Macsec(_) => None,
        }))
    }

    /// The identifiers of the VLAN tags, outermost first.
    #[must_use]
    pub fn vlan_ids(&self) -> ArrayVec<VlanId, { LaxPacketHeaders::LINK_EXTS_CAP }> {
        let tags = self.link_exts.iter().filter_map(|link_ext| match link_ext {
            LinkExtHeader::Vlan(tag) => Some(tag.vlan_id),
            LinkExtHeader::Macsec(_) => None,
        });
        tags.collect()
    }
}

/// What follows the headers of a packet.
fn payload_of<'a>(packet: &LaxSlicedPacket<'a>) -> LaxPayloadSlice<'a> {
    if packet.net.is_some() {
        return LaxPayloadSlice::Empty;
    }
    if let Some(payload) = packet.ether_payload() {
        return LaxPayloadSlice::Ether(payload);
    }
    match (packet.link_exts.last(), &packet.link) {
        (Some(LaxLinkExtSlice::Macsec(tag)), _) => match tag.payload {
            LaxMacsecPayloadSlice::Modified { incomplete, payload } => {
                LaxPayloadSlice::MacsecModified { payload, incomplete }
            }
            LaxMacsecPayloadSlice::Unmodified(_) => LaxPayloadSlice::Empty, // it has an ether type
        },
        (_, Some(LinkSlice::LinuxSll(link))) => LaxPayloadSlice::LinuxSll(link.payload()),
        _ => LaxPayloadSlice::Empty,
    }
}
