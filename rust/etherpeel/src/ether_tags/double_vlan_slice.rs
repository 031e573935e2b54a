//! A view of two VLAN tags and their payload.

use crate::ether_tags::{DoubleVlanHeader, EtherPayloadSlice, SingleVlanSlice};
use core::fmt;

/// A view of two VLAN tags (QinQ) and their payload.
///
/// Public fields are not checked against each other: in a packet the inner view is the payload of the outer one.
///
/// ```
/// use etherpeel::{DoubleVlanSlice, SingleVlanSlice};
///
/// # fn main() -> Result<(), Box<dyn std::error::Error>> {
/// let bytes = [0x00, 0x0A, 0x81, 0x00, 0x00, 0x64, 0x08, 0x00, 0x45];
/// let outer = SingleVlanSlice::from_slice(&bytes)?;
/// let inner = SingleVlanSlice::from_slice(outer.payload_slice())?;
/// let tags = DoubleVlanSlice { outer, inner };
/// assert_eq!(tags.outer.vlan_identifier().value(), 10);
/// assert_eq!(tags.inner.vlan_identifier().value(), 100);
/// assert_eq!(tags.payload_slice(), [0x45].as_slice());
/// # Ok(())
/// # }
/// ```
#[derive(Clone, PartialEq, Eq)]
pub struct DoubleVlanSlice<'a> {
    /// The tag that comes first, and its payload.
    pub outer: SingleVlanSlice<'a>,
    /// The tag after it, and its payload.
    pub inner: SingleVlanSlice<'a>,
}

impl<'a> DoubleVlanSlice<'a> {
    /// Both tags as a value.
    ///
    /// <details><summary>Contract</summary>
    ///
    /// ```text
    /// ensures outer { vlan_view result.outer ≡ vlan_of self.now.outer }
    /// ensures inner { vlan_view result.inner ≡ vlan_of self.now.inner }
    /// ```
    ///
    /// Words: [`vlan_view`](crate::definitions::ether_tags#def.vlan_view),
    /// [`vlan_of`](crate::definitions::ether_base#def.vlan_of). [Notation](crate::definitions::notation)
    ///
    /// </details>
    #[must_use]
    #[inline]
    pub fn to_header(&self) -> DoubleVlanHeader {
        DoubleVlanHeader {
            outer: self.outer.to_header(),
            inner: self.inner.to_header(),
        }
    }

    /// The payload of the inner tag and its ether type. The payload ends with the inner view, so its `len_source` is
    /// `LenSource::Slice`.
    ///
    /// <details><summary>Contract</summary>
    ///
    /// ```text
    /// ensures ether_type { result.ether_type.0 ≡ (vlan_of self.now.inner).ether_type }
    /// ensures len_source { result.len_source ≡ sources.Slice }
    /// ensures bytes { result.payload.now ≡ slice_range self.now.inner 4 (length self.now.inner) }
    /// ```
    ///
    /// Words: [`vlan_of`](crate::definitions::ether_base#def.vlan_of), `sources` (`LenSource`).
    /// [Notation](crate::definitions::notation)
    ///
    /// </details>
    #[must_use]
    #[inline]
    pub fn payload(&self) -> EtherPayloadSlice<'a> {
        self.inner.payload()
    }

    /// The bytes of the payload of the inner tag.
    ///
    /// <details><summary>Contract</summary>
    ///
    /// ```text
    /// ensures { result.now ≡ slice_range self.now.inner 4 (length self.now.inner) }
    /// ```
    ///
    /// [Notation](crate::definitions::notation)
    ///
    /// </details>
    #[must_use]
    #[inline]
    pub fn payload_slice(&self) -> &'a [u8] {
        self.inner.payload_slice()
    }
}

impl fmt::Debug for DoubleVlanSlice<'_> {
    fn fmt(&self, f: &mut fmt::Formatter<'_>) -> fmt::Result {
        f.debug_struct("DoubleVlanSlice")
            .field("outer", &self.outer.to_header())
            .field("inner", &self.inner.to_header())
            .field("payload", &self.payload())
            .finish()
    }
}
