//! A view of one VLAN tag or two, and the payload.

use crate::ether_tags::{DoubleVlanSlice, EtherPayloadSlice, SingleVlanSlice, VlanHeader};

/// A view of one VLAN tag or two, and of the payload of the last one.
///
/// ```
/// use etherpeel::{EtherType, SingleVlanSlice, VlanSlice};
///
/// # fn main() -> Result<(), Box<dyn std::error::Error>> {
/// let bytes = [0xB1, 0x23, 0x08, 0x00, 0x45];
/// let tags = VlanSlice::SingleVlan(SingleVlanSlice::from_slice(&bytes)?);
/// assert_eq!(tags.to_header().next_header(), EtherType::IPV4);
/// assert_eq!(tags.payload().payload, [0x45].as_slice());
/// # Ok(())
/// # }
/// ```
#[derive(Clone, PartialEq, Eq, Debug)]
pub enum VlanSlice<'a> {
    /// One tag.
    SingleVlan(SingleVlanSlice<'a>),
    /// Two tags.
    DoubleVlan(DoubleVlanSlice<'a>),
}

impl<'a> VlanSlice<'a> {
    /// The tags as a value.
    ///
    /// <details><summary>Contract</summary>
    ///
    /// ```text
    /// ensures { header_tags result ≡ slice_tags self.now }
    /// ```
    ///
    /// Words: [`header_tags`](crate::definitions::ether_tags#def.header_tags),
    /// [`slice_tags`](crate::definitions::ether_tags#def.slice_tags). [Notation](crate::definitions::notation)
    ///
    /// </details>
    #[must_use]
    #[inline]
    pub fn to_header(&self) -> VlanHeader {
        match self {
            VlanSlice::SingleVlan(slice) => VlanHeader::Single(slice.to_header()),
            VlanSlice::DoubleVlan(slice) => VlanHeader::Double(slice.to_header()),
        }
    }

    /// The payload of the last tag and its ether type. Its `len_source` is `LenSource::Slice`.
    ///
    /// <details><summary>Contract</summary>
    ///
    /// ```text
    /// ensures ether_type { result.ether_type.0 ≡ (vlan_of (innermost self.now)).ether_type }
    /// ensures len_source { result.len_source ≡ sources.Slice }
    /// ensures bytes { result.payload.now
    ///     ≡ slice_range (innermost self.now) 4 (length (innermost self.now)) }
    /// ```
    ///
    /// Words: [`vlan_of`](crate::definitions::ether_base#def.vlan_of),
    /// [`innermost`](crate::definitions::ether_tags#def.innermost), `sources` (`LenSource`).
    /// [Notation](crate::definitions::notation)
    ///
    /// </details>
    #[must_use]
    #[inline]
    pub fn payload(&self) -> EtherPayloadSlice<'a> {
        match self {
            VlanSlice::SingleVlan(slice) => slice.payload(),
            VlanSlice::DoubleVlan(slice) => slice.payload(),
        }
    }
}
