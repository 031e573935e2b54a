//! A view of a VLAN tag and its payload.

use crate::ether_tags::{EtherPayloadSlice, SingleVlanHeader, vlan_fields};
use crate::ether_base::err::{Layer, LenError};
use crate::ether_base::slice_len::too_short;
use crate::ether_base::{EtherType, LenSource, VlanId, VlanPcp};
use core::fmt;

/// A view of a VLAN tag and its payload, which borrows the bytes from the tag's TCI on
/// ([`SingleVlanHeader`] has a picture of them).
///
/// Two views are equal if their bytes are equal, wherever they are in memory.
///
/// ```
/// use etherpeel::{EtherType, SingleVlanSlice};
///
/// # fn main() -> Result<(), Box<dyn std::error::Error>> {
/// let tag = SingleVlanSlice::from_slice(&[0xB1, 0x23, 0x08, 0x00, 0x45])?;
/// assert_eq!(tag.vlan_identifier().value(), 0x123);
/// assert_eq!(tag.ether_type(), EtherType::IPV4);
/// assert_eq!(tag.payload_slice(), [0x45].as_slice());
/// # Ok(())
/// # }
/// ```
pub struct SingleVlanSlice<'a> {
    slice: &'a [u8],
}

impl<'a> SingleVlanSlice<'a> {
    /// Borrows the tag at the front of a slice, and its payload, which reaches to the end of the slice.
    ///
    /// # Errors
    ///
    /// The slice has fewer than 4 bytes: `required_len` is 4, `len` the slice's length, `len_source` is
    /// [`LenSource::Slice`], `layer` is [`Layer::VlanHeader`] and `layer_start_offset` is 0.
    ///
    /// <details><summary>Contract</summary>
    ///
    /// ```text
    /// ensures bytes { IfOk result (λ v. v ≡ slice.now) }
    /// ensures accepted { IfOk result (λ v. Accepts sources.Slice slice.now kinds.Vlan) }
    /// ensures value { IfOk result (λ v. Means slice.now (headers.Vlan (vlan_of slice.now))) }
    /// ensures refused { IfErr result (IsRefusedLen slice.now kinds.Vlan) }
    /// ensures short { OnErr result (length slice.now < 4) }
    /// ```
    ///
    /// Words: [`Accepts`](crate::definitions::ether_base#def.Accepts), `sources` (`LenSource`),
    /// [`kinds.Vlan`](crate::definitions::ether_base#def.Kind), [`Means`](crate::definitions::ether_base#def.Means),
    /// [`headers.Vlan`](crate::definitions::ether_base#def.Header),
    /// [`vlan_of`](crate::definitions::ether_base#def.vlan_of),
    /// [`IsRefusedLen`](crate::definitions::ether_base#def.IsRefusedLen). [Notation](crate::definitions::notation)
    ///
    /// </details>
    #[inline]
    pub fn from_slice(slice: &'a [u8]) -> Result<SingleVlanSlice<'a>, LenError> {
        if slice.len() < SingleVlanHeader::LEN {
            return Err(too_short(
                SingleVlanHeader::LEN,
                slice.len(),
                LenSource::Slice,
                Layer::VlanHeader,
            ));
        }
        Ok(SingleVlanSlice { slice })
    }

    /// All bytes of the tag and its payload.
    ///
    /// <details><summary>Contract</summary>
    ///
    /// ```text
    /// ensures { result.now ≡ self.now }
    /// ```
    ///
    /// [Notation](crate::definitions::notation)
    ///
    /// </details>
    #[must_use]
    #[inline]
    pub fn slice(&self) -> &'a [u8] {
        self.slice
    }

    /// The 4 bytes of the tag.
    ///
    /// <details><summary>Contract</summary>
    ///
    /// ```text
    /// ensures bytes { result.now ≡ slice_range self.now 0 4 }
    /// ensures len { length result.now ≡ 4 }
    /// ```
    ///
    /// [Notation](crate::definitions::notation)
    ///
    /// </details>
    #[must_use]
    #[inline]
    pub fn header_slice(&self) -> &[u8] {
        &self.slice[..SingleVlanHeader::LEN]
    }

    /// The priority code point (PCP).
    ///
    /// <details><summary>Contract</summary>
    ///
    /// ```text
    /// ensures { result ≡ (vlan_of self.now).pcp }
    /// ```
    ///
    /// Words: [`vlan_of`](crate::definitions::ether_base#def.vlan_of). [Notation](crate::definitions::notation)
    ///
    /// </details>
    #[must_use]
    #[inline]
    pub fn priority_code_point(&self) -> VlanPcp {
        vlan_fields::priority_code_point(self.slice)
    }

    /// The drop eligible indicator (DEI): whether the frame may be dropped first under congestion.
    ///
    /// <details><summary>Contract</summary>
    ///
    /// ```text
    /// ensures { bit result ≡ (vlan_of self.now).dei }
    /// ```
    ///
    /// Words: [`bit`](crate::definitions::ether_base#def.bit),
    /// [`vlan_of`](crate::definitions::ether_base#def.vlan_of). [Notation](crate::definitions::notation)
    ///
    /// </details>
    #[must_use]
    #[inline]
    pub fn drop_eligible_indicator(&self) -> bool {
        vlan_fields::drop_eligible_indicator(self.slice)
    }

    /// The VLAN identifier (VID).
    ///
    /// <details><summary>Contract</summary>
    ///
    /// ```text
    /// ensures { result ≡ (vlan_of self.now).vid }
    /// ```
    ///
    /// Words: [`vlan_of`](crate::definitions::ether_base#def.vlan_of). [Notation](crate::definitions::notation)
    ///
    /// </details>
    #[must_use]
    #[inline]
    pub fn vlan_identifier(&self) -> VlanId {
        vlan_fields::vlan_identifier(self.slice)
    }

    /// The next ether type, which names the protocol of the payload.
    ///
    /// <details><summary>Contract</summary>
    ///
    /// ```text
    /// ensures { result.0 ≡ (vlan_of self.now).ether_type }
    /// ```
    ///
    /// Words: [`vlan_of`](crate::definitions::ether_base#def.vlan_of). [Notation](crate::definitions::notation)
    ///
    /// </details>
    #[must_use]
    #[inline]
    pub fn ether_type(&self) -> EtherType {
        vlan_fields::ether_type(self.slice)
    }

    /// The tag as a value.
    ///
    /// <details><summary>Contract</summary>
    ///
    /// ```text
    /// ensures { vlan_view result ≡ vlan_of self.now }
    /// ```
    ///
    /// Words: [`vlan_view`](crate::definitions::ether_tags#def.vlan_view),
    /// [`vlan_of`](crate::definitions::ether_base#def.vlan_of). [Notation](crate::definitions::notation)
    ///
    /// </details>
    #[must_use]
    #[inline]
    pub fn to_header(&self) -> SingleVlanHeader {
        vlan_fields::header(self.slice)
    }

    /// The payload and its ether type. The payload ends with the slice, so its `len_source` is [`LenSource::Slice`].
    ///
    /// <details><summary>Contract</summary>
    ///
    /// ```text
    /// ensures ether_type { result.ether_type.0 ≡ (vlan_of self.now).ether_type }
    /// ensures len_source { result.len_source ≡ sources.Slice }
    /// ensures bytes { result.payload.now ≡ slice_range self.now 4 (length self.now) }
    /// ```
    ///
    /// Words: [`vlan_of`](crate::definitions::ether_base#def.vlan_of), `sources` (`LenSource`).
    /// [Notation](crate::definitions::notation)
    ///
    /// </details>
    #[must_use]
    #[inline]
    pub fn payload(&self) -> EtherPayloadSlice<'a> {
        EtherPayloadSlice {
            ether_type: self.ether_type(),
            len_source: LenSource::Slice,
            payload: self.payload_slice(),
        }
    }

    /// The bytes of the payload.
    ///
    /// <details><summary>Contract</summary>
    ///
    /// ```text
    /// ensures { result.now ≡ slice_range self.now 4 (length self.now) }
    /// ```
    ///
    /// [Notation](crate::definitions::notation)
    ///
    /// </details>
    #[must_use]
    #[inline]
    pub fn payload_slice(&self) -> &'a [u8] {
        let slice = self.slice;
        &slice[SingleVlanHeader::LEN..]
    }

    /// The length of the tag in bytes, which is [`SingleVlanHeader::LEN`].
    ///
    /// <details><summary>Contract</summary>
    ///
    /// ```text
    /// ensures { result ≡ 4 }
    /// ```
    ///
    /// [Notation](crate::definitions::notation)
    ///
    /// </details>
    #[must_use]
    #[inline]
    pub const fn header_len(&self) -> usize {
        SingleVlanHeader::LEN
    }
}

impl<'a> Clone for SingleVlanSlice<'a> {
    #[inline]
    fn clone(&self) -> Self {
        SingleVlanSlice { slice: self.slice }
    }
}

impl<'a> PartialEq for SingleVlanSlice<'a> {
    #[inline]
    fn eq(&self, other: &SingleVlanSlice<'a>) -> bool {
        self.slice == other.slice
    }
}

impl<'a> Eq for SingleVlanSlice<'a> {}

impl fmt::Debug for SingleVlanSlice<'_> {
    fn fmt(&self, f: &mut fmt::Formatter<'_>) -> fmt::Result {
        f.debug_struct("SingleVlanSlice")
            .field("header", &self.to_header())
            .field("payload", &self.payload())
            .finish()
    }
}
