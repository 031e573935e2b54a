//! A view of a VLAN tag or SecTag and its payload, which may be cut short.

use super::{LaxEtherPayloadSlice, LaxMacsecSlice};
use crate::{LinkExtHeader, SingleVlanSlice};

/// A view of a VLAN tag or SecTag and its payload, which may be cut short.
#[derive(Clone, PartialEq, Eq, Debug)]
pub enum LaxLinkExtSlice<'a> {
    /// A VLAN tag.
    Vlan(SingleVlanSlice<'a>),
    /// A MACsec SecTag.
    Macsec(LaxMacsecSlice<'a>),
}

impl<'a> LaxLinkExtSlice<'a> {
    /// The length of the header in bytes.
    #[must_use]
    pub fn header_len(&self) -> usize {
        match self {
            LaxLinkExtSlice::Vlan(slice) => slice.header_len(),
            LaxLinkExtSlice::Macsec(slice) => slice.header.header_len(),
        }
    }

    /// The header as a value.
    #[must_use]
    pub fn to_header(&self) -> LinkExtHeader {
        match self {
            LaxLinkExtSlice::Vlan(slice) => LinkExtHeader::Vlan(slice.to_header()),
            LaxLinkExtSlice::Macsec(slice) => LinkExtHeader::Macsec(slice.header.to_header()),
        }
    }

    /// The payload, if it has an ether type: that of a VLAN tag always has, as no length of its own.
    #[must_use]
    pub fn ether_payload(&self) -> Option<LaxEtherPayloadSlice<'a>> {
        match self {
            LaxLinkExtSlice::Vlan(slice) => Some(LaxEtherPayloadSlice::whole(slice.payload())),
            LaxLinkExtSlice::Macsec(slice) => slice.ether_payload(),
        }
    }
}
