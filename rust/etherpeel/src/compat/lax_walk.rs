//! A walk that goes on in the payload of a SecTag that is cut short.

use super::vlan_tags::MOST_LINK_EXTS;
use super::{LaxLinkExtSlice, LaxMacsecPayloadSlice, LaxMacsecSlice};
use crate::err::packet::SliceError;
use crate::err::{Layer, LenError};
use crate::ether_peel::{Peel, PeelError, PeelUnit, Start};
use crate::{ArpPacketSlice, EtherPayloadSlice, EtherType, LenSource};

/// An ether type that announces nothing.
const UNANNOUNCED: EtherType = EtherType(0);

/// What follows the header of a link.
pub(super) enum LaxUnit<'a> {
    Ext(LaxLinkExtSlice<'a>),
    Arp(ArpPacketSlice<'a>),
    /// What ends the walk, and the layer that is refused.
    Stop(SliceError, Layer),
}

/// A walk over what follows the header of a link.
pub(super) struct LaxWalk<'a> {
    /// The walk through the frame, or through the payload of the last SecTag that was cut short.
    peel: Peel<'a>,
    /// Where that payload starts in the frame, and what bounds it.
    start: usize,
    bound: LenSource,
    /// How many VLAN tags and SecTags may still be read.
    left: usize,
}

impl<'a> LaxWalk<'a> {
    /// Begins a walk at a payload that starts there in the frame.
    pub(super) fn new(payload: EtherPayloadSlice<'a>, start: usize) -> LaxWalk<'a> {
        LaxWalk {
            peel: Peel::with_limit(Start::EtherType(payload.ether_type), payload.payload, MOST_LINK_EXTS),
            start,
            bound: LenSource::Slice,
            left: MOST_LINK_EXTS,
        }
    }

    fn ext(&mut self, slice: LaxLinkExtSlice<'a>) -> LaxUnit<'a> {
        self.left -= 1;
        LaxUnit::Ext(slice)
    }

    /// Goes on in the payload of the SecTag that the walk has stopped at.
    fn cut_short(&mut self, slice: LaxMacsecSlice<'a>) -> LaxUnit<'a> {
        let (ether_type, payload) = match &slice.payload {
            LaxMacsecPayloadSlice::Unmodified(payload) => (payload.ether_type, payload.payload),
            LaxMacsecPayloadSlice::Modified { payload, .. } => (UNANNOUNCED, *payload),
        };
        self.start += self.peel.offset() + slice.header.header_len();
        self.bound = self.bound_here();
        let unit = self.ext(LaxLinkExtSlice::Macsec(slice));
        self.peel = Peel::with_limit(Start::EtherType(ether_type), payload, self.left);
        unit
    }

    /// What bounds the bytes that are left.
    fn bound_here(&self) -> LenSource {
        match self.peel.bound() {
            LenSource::Slice => self.bound,
            bound => bound,
        }
    }

    /// Ends the walk, or goes on after a SecTag of which only the payload is cut short.
    fn refused(&mut self, error: PeelError) -> LaxUnit<'a> {
        match error {
            PeelError::Len(error) => match LaxMacsecSlice::from_slice(self.peel.rest()) {
                Ok(slice) if error.layer == Layer::MacsecPacket => self.cut_short(slice),
                _ => LaxUnit::Stop(SliceError::Len(self.moved(error)), error.layer),
            },
            PeelError::LinuxSll(error) => LaxUnit::Stop(SliceError::LinuxSll(error), Layer::LinuxSllHeader),
            PeelError::Macsec(error) => LaxUnit::Stop(SliceError::Macsec(error), Layer::MacsecHeader),
        }
    }

    /// The error with its place in the frame, and with what bounds the bytes that it was found in.
    fn moved(&self, error: LenError) -> LenError {
        let len_source = match error.len_source {
            LenSource::Slice => self.bound,
            len_source => len_source,
        };
        LenError { len_source, ..error.add_offset(self.start) }
    }
}

impl<'a> Iterator for LaxWalk<'a> {
    type Item = LaxUnit<'a>;

    fn next(&mut self) -> Option<LaxUnit<'a>> {
        match self.peel.next()? {
            Ok(PeelUnit::Vlan(slice)) => Some(self.ext(LaxLinkExtSlice::Vlan(slice))),
            Ok(PeelUnit::Macsec(slice)) => Some(self.ext(LaxLinkExtSlice::Macsec(LaxMacsecSlice::whole(slice)))),
            Ok(PeelUnit::Arp(slice)) => Some(LaxUnit::Arp(slice)),
            Ok(PeelUnit::Ethernet2(_) | PeelUnit::LinuxSll(_)) => None, // only a frame begins with these
            Err(fault) => Some(self.refused(fault.error)),
        }
    }
}
