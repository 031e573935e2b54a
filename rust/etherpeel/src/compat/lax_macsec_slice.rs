//! A view of a SecTag and its payload, which may be cut short.

use crate::err::Layer;
use crate::err::macsec::HeaderSliceError;
use crate::{EtherPayloadSlice, EtherType, LenSource, MacsecHeaderSlice, MacsecPayloadSlice, MacsecSlice};

/// A payload with an ether type, which may be cut short.
#[derive(Clone, PartialEq, Eq, Debug)]
pub struct LaxEtherPayloadSlice<'a> {
    /// Whether the payload is cut short.
    pub incomplete: bool,
    /// What the payload is.
    pub ether_type: EtherType,
    /// What gives its length: the slice, if it is cut short.
    pub len_source: LenSource,
    /// The bytes that are there.
    pub payload: &'a [u8],
}

/// The payload of a SecTag, which may be cut short.
#[derive(Clone, PartialEq, Eq, Debug)]
pub enum LaxMacsecPayloadSlice<'a> {
    /// A payload that is neither encrypted nor changed.
    Unmodified(LaxEtherPayloadSlice<'a>),
    /// A payload that is encrypted or changed.
    Modified {
        /// Whether the payload is cut short.
        incomplete: bool,
        /// The bytes that are there.
        payload: &'a [u8],
    },
}

/// A view of a SecTag and its payload, which may be cut short.
#[derive(Clone, PartialEq, Eq, Debug)]
pub struct LaxMacsecSlice<'a> {
    /// The SecTag, with the ether type of the payload if it has one.
    pub header: MacsecHeaderSlice<'a>,
    /// The payload.
    pub payload: LaxMacsecPayloadSlice<'a>,
}

impl<'a> LaxEtherPayloadSlice<'a> {
    pub(super) fn whole(payload: EtherPayloadSlice<'a>) -> LaxEtherPayloadSlice<'a> {
        LaxEtherPayloadSlice {
            incomplete: false,
            ether_type: payload.ether_type,
            len_source: payload.len_source,
            payload: payload.payload,
        }
    }
}

impl<'a> LaxMacsecSlice<'a> {
    /// Reads a SecTag and its payload, which may be shorter than the tag says.
    ///
    /// # Errors
    ///
    /// The tag is cut short, or a field has a value that is not allowed.
    pub fn from_slice(slice: &'a [u8]) -> Result<LaxMacsecSlice<'a>, HeaderSliceError> {
        match MacsecSlice::from_slice(slice) {
            Ok(packet) => Ok(LaxMacsecSlice::whole(packet)),
            Err(HeaderSliceError::Len(error)) if error.layer == Layer::MacsecPacket => {
                let header = MacsecHeaderSlice::from_slice(slice)?;
                Ok(LaxMacsecSlice { header, payload: cut_short(header, &slice[header.header_len()..]) })
            }
            Err(error) => Err(error),
        }
    }

    pub(super) fn whole(packet: MacsecSlice<'a>) -> LaxMacsecSlice<'a> {
        let payload = match packet.payload {
            MacsecPayloadSlice::Unmodified(payload) => {
                LaxMacsecPayloadSlice::Unmodified(LaxEtherPayloadSlice::whole(payload))
            }
            MacsecPayloadSlice::Modified(payload) => LaxMacsecPayloadSlice::Modified { incomplete: false, payload },
        };
        LaxMacsecSlice { header: packet.header, payload }
    }

    /// The payload, if it is neither encrypted nor changed.
    #[must_use]
    pub fn ether_payload(&self) -> Option<LaxEtherPayloadSlice<'a>> {
        match &self.payload {
            LaxMacsecPayloadSlice::Unmodified(payload) => Some(payload.clone()),
            LaxMacsecPayloadSlice::Modified { .. } => None,
        }
    }

    /// The ether type of the payload, if it is neither encrypted nor changed.
    #[must_use]
    pub fn next_ether_type(&self) -> Option<EtherType> {
        self.header.next_ether_type()
    }
}

/// The payload of a SecTag that names more bytes than there are.
fn cut_short<'a>(header: MacsecHeaderSlice<'a>, payload: &'a [u8]) -> LaxMacsecPayloadSlice<'a> {
    match header.next_ether_type() {
        Some(ether_type) => LaxMacsecPayloadSlice::Unmodified(LaxEtherPayloadSlice {
            incomplete: true,
            ether_type,
            len_source: LenSource::Slice,
            payload,
        }),
        None => LaxMacsecPayloadSlice::Modified { incomplete: true, payload },
    }
}
