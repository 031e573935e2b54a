//! A view of a link extension and its payload.

use crate::ether_tags::{EtherPayloadSlice, LinkExtHeader, MacsecSlice, SingleVlanSlice};

/// A view of a VLAN tag or a MACsec SecTag, and of its payload.
///
/// ```
/// use etherpeel::{EtherPayloadSlice, EtherType, LenSource, LinkExtSlice, SingleVlanSlice};
///
/// # fn main() -> Result<(), Box<dyn std::error::Error>> {
/// let tag = SingleVlanSlice::from_slice(&[0xB1, 0x23, 0x08, 0x00, 0x45])?;
/// let ext = LinkExtSlice::Vlan(tag);
/// let payload = EtherPayloadSlice {
///     ether_type: EtherType::IPV4,
///     len_source: LenSource::Slice,
///     payload: &[0x45],
/// };
/// assert_eq!(ext.header_len(), 4);
/// assert_eq!(ext.ether_payload(), Some(payload));
/// # Ok(())
/// # }
/// ```
#[derive(Clone, PartialEq, Eq, Debug)]
pub enum LinkExtSlice<'a> {
    /// A VLAN tag and its payload.
    Vlan(SingleVlanSlice<'a>),
    /// A MACsec SecTag and its payload.
    Macsec(MacsecSlice<'a>),
}

impl<'a> LinkExtSlice<'a> {
    /// The length of the tag in bytes: 4 for a VLAN tag, 6 to 16 for a MACsec SecTag.
    ///
    /// <details><summary>Contract</summary>
    ///
    /// ```text
    /// ensures { result ≡ ext_slice_len self.now }
    /// ```
    ///
    /// Words: [`ext_slice_len`](crate::definitions::ether_tags#def.ext_slice_len).
    /// [Notation](crate::definitions::notation)
    ///
    /// </details>
    #[must_use]
    #[inline]
    pub fn header_len(&self) -> usize {
        match self {
            LinkExtSlice::Vlan(slice) => slice.header_len(),
            LinkExtSlice::Macsec(slice) => slice.header.header_len(),
        }
    }

    /// The tag as a value.
    ///
    /// <details><summary>Contract</summary>
    ///
    /// ```text
    /// ensures { ext_header_view result ≡ ext_slice_header self.now }
    /// ```
    ///
    /// Words: [`ext_header_view`](crate::definitions::ether_tags#def.ext_header_view),
    /// [`ext_slice_header`](crate::definitions::ether_tags#def.ext_slice_header).
    /// [Notation](crate::definitions::notation)
    ///
    /// </details>
    #[must_use]
    #[inline]
    pub fn to_header(&self) -> LinkExtHeader {
        match self {
            LinkExtSlice::Vlan(slice) => LinkExtHeader::Vlan(slice.to_header()),
            LinkExtSlice::Macsec(slice) => LinkExtHeader::Macsec(slice.header.to_header()),
        }
    }

    /// The payload and its ether type; `None` if a MACsec SecTag says that it is encrypted or changed.
    ///
    /// <details><summary>Contract</summary>
    ///
    /// ```text
    /// ensures { HoldsExtPayload self.now result }
    /// ```
    ///
    /// Words: [`HoldsExtPayload`](crate::definitions::ether_tags#def.HoldsExtPayload).
    /// [Notation](crate::definitions::notation)
    ///
    /// </details>
    #[must_use]
    #[inline]
    pub fn ether_payload(&self) -> Option<EtherPayloadSlice<'a>> {
        match self {
            LinkExtSlice::Vlan(slice) => Some(slice.payload()),
            LinkExtSlice::Macsec(slice) => slice.ether_payload(),
        }
    }
}
