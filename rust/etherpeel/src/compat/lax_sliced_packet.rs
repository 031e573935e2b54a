//! The headers of a packet that may be cut short, as views.

use super::lax_walk::{LaxUnit, LaxWalk};
use super::vlan_tags::{MOST_LINK_EXTS, first_slices};
use super::{LaxEtherPayloadSlice, LaxLinkExtSlice, LaxNetSlice, TransportSlice};
use crate::err::packet::SliceError;
use crate::err::{Layer, LenError, linux_sll};
use crate::{
    EtherPayloadSlice, EtherType, Ethernet2Header, Ethernet2Slice, LenSource, LinkSlice, LinuxSllHeader, LinuxSllSlice,
    VlanId, VlanSlice,
};
use arrayvec::ArrayVec;

/// The headers of a packet that may be cut short, as views that borrow it.
///
/// A packet is read as far as it goes: `stop_err` says what stopped. The payload of a SecTag may be shorter than the
/// tag says. After three VLAN tags and SecTags in all, the next one is payload.
#[derive(Clone, PartialEq, Eq, Debug)]
pub struct LaxSlicedPacket<'a> {
    /// The header of the link; of a packet that begins with an ether type, the whole packet.
    pub link: Option<LinkSlice<'a>>,
    /// The VLAN tags and SecTags, outermost first.
    pub link_exts: ArrayVec<LaxLinkExtSlice<'a>, { LaxSlicedPacket::LINK_EXTS_CAP }>,
    /// The ARP packet, if the packet has one.
    pub net: Option<LaxNetSlice<'a>>,
    /// Always `None`.
    pub transport: Option<TransportSlice<'a>>,
    /// Why a header after that of the link was refused, and in which layer.
    pub stop_err: Option<(SliceError, Layer)>,
}

impl<'a> LaxSlicedPacket<'a> {
    /// The most VLAN tags and SecTags that are read.
    pub const LINK_EXTS_CAP: usize = MOST_LINK_EXTS;

    /// Reads a packet that begins with an Ethernet II header, and has no frame check sequence.
    ///
    /// # Errors
    ///
    /// The packet is shorter than that header.
    pub fn from_ethernet(slice: &'a [u8]) -> Result<LaxSlicedPacket<'a>, LenError> {
        let link = Ethernet2Slice::from_slice_without_fcs(slice)?;
        Ok(LaxSlicedPacket::walked(LinkSlice::Ethernet2(link), Ethernet2Header::LEN))
    }

    /// Reads a packet that begins with a header of Linux cooked capture v1.
    ///
    /// # Errors
    ///
    /// The packet is shorter than that header, or a field has a value that is not supported.
    pub fn from_linux_sll(slice: &'a [u8]) -> Result<LaxSlicedPacket<'a>, linux_sll::HeaderSliceError> {
        let link = LinuxSllSlice::from_slice(slice)?;
        Ok(LaxSlicedPacket::walked(LinkSlice::LinuxSll(link), LinuxSllHeader::LEN))
    }

    /// Reads a packet that begins with what an ether type announces.
    #[must_use]
    pub fn from_ether_type(ether_type: EtherType, slice: &'a [u8]) -> LaxSlicedPacket<'a> {
        let payload = EtherPayloadSlice { ether_type, len_source: LenSource::Slice, payload: slice };
        LaxSlicedPacket::walked(LinkSlice::EtherPayload(payload), 0)
    }

    /// Reads what follows a link, whose payload starts there in the packet.
    fn walked(link: LinkSlice<'a>, start: usize) -> LaxSlicedPacket<'a> {
        let payload = link.ether_payload();
        let mut packet = LaxSlicedPacket {
            link: Some(link),
            link_exts: ArrayVec::new(),
            net: None,
            transport: None,
            stop_err: None,
        };
        for unit in payload.into_iter().flat_map(|payload| LaxWalk::new(payload, start)) {
            match unit {
                LaxUnit::Ext(slice) => packet.link_exts.push(slice),
                LaxUnit::Arp(slice) => packet.net = Some(LaxNetSlice::Arp(slice)),
                LaxUnit::Stop(error, layer) => packet.stop_err = Some((error, layer)),
            }
        }
        packet
    }

    /// The payload of the last header of the link layer, if it has an ether type. An ARP packet is such a payload, with
    /// the bytes after it.
    #[must_use]
    pub fn ether_payload(&self) -> Option<LaxEtherPayloadSlice<'a>> {
        match self.link_exts.last() {
            Some(link_ext) => link_ext.ether_payload(),
            None => Some(LaxEtherPayloadSlice::whole(self.link.as_ref()?.ether_payload()?)),
        }
    }

    /// The first VLAN tag, or the first two if there are more.
    #[must_use]
    pub fn vlan(&self) -> Option<VlanSlice<'a>> {
        first_slices(self.link_exts.iter().filter_map(|link_ext| match link_ext {
            LaxLinkExtSlice::Vlan(tag) => Some(tag.clone()),
            LaxLinkExtSlice::Macsec(_) => None,
        }))
    }

    /// The identifiers of the VLAN tags, outermost first.
    #[must_use]
    pub fn vlan_ids(&self) -> ArrayVec<VlanId, { LaxSlicedPacket::LINK_EXTS_CAP }> {
        let tags = self.link_exts.iter().filter_map(|link_ext| match link_ext {
            LaxLinkExtSlice::Vlan(tag) => Some(tag.vlan_identifier()),
            LaxLinkExtSlice::Macsec(_) => None,
        });
        tags.collect()
    }
}
