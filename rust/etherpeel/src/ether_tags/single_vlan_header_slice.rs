//! A view of a VLAN tag.

use crate::ether_tags::{SingleVlanHeader, vlan_fields};
use crate::ether_base::err::{Layer, LenError};
use crate::ether_base::slice_len::too_short;
use crate::ether_base::{EtherType, LenSource, VlanId, VlanPcp};

/// A view of a VLAN tag, which borrows the 4 bytes of its TCI and the next ether type from a packet
/// ([`SingleVlanHeader`] has a picture of them).
///
/// Two views are equal if their bytes are equal, wherever they are in memory.
///
/// ```
/// use etherpeel::{EtherType, SingleVlanHeaderSlice};
///
/// # fn main() -> Result<(), Box<dyn std::error::Error>> {
/// let tag = SingleVlanHeaderSlice::from_slice(&[0xB1, 0x23, 0x08, 0x00, 0x45])?;
/// assert_eq!(tag.priority_code_point().value(), 5);
/// assert!(tag.drop_eligible_indicator());
/// assert_eq!(tag.vlan_identifier().value(), 0x123);
/// assert_eq!(tag.ether_type(), EtherType::IPV4);
/// # Ok(())
/// # }
/// ```
#[derive(Debug)]
pub struct SingleVlanHeaderSlice<'a> {
    slice: &'a [u8],
}

impl<'a> SingleVlanHeaderSlice<'a> {
    /// Borrows the tag at the front of a slice. The bytes after it are not part of the view.
    ///
    /// # Errors
    ///
    /// The slice has fewer than 4 bytes: `required_len` is 4, `len` the slice's length, `len_source` is
    /// [`LenSource::Slice`], `layer` is [`Layer::VlanHeader`] and `layer_start_offset` is 0.
    ///
    /// <details><summary>Contract</summary>
    ///
    /// ```text
    /// ensures bytes { IfOk result (λ h. h ≡ slice_range slice.now 0 4) }
    /// ensures accepted { IfOk result (λ h. Accepts sources.Slice slice.now kinds.Vlan) }
    /// ensures value { IfOk result (λ h. Means slice.now (headers.Vlan (vlan_of h))) }
    /// ensures refused { IfErr result (IsRefusedLen slice.now kinds.Vlan) }
    /// ensures short { OnErr result (length slice.now < 4) }
    /// ```
    ///
    /// Words: [`Accepts`](crate::definitions::ether_base#def.Accepts), `sources` (`LenSource`),
    /// [`kinds.Vlan`](crate::definitions::ether_base#def.Kind), [`Means`](crate::definitions::ether_base#def.Means),
    /// [`headers.Vlan`](crate::definitions::ether_base#def.Header),
    /// [`vlan_of`](crate::definitions::ether_base#def.vlan_of),
    /// [`IsRefusedLen`](crate::definitions::ether_base#def.IsRefusedLen). [Notation](crate::definitions::notation)
    ///
    /// </details>
    #[inline]
    pub fn from_slice(slice: &'a [u8]) -> Result<SingleVlanHeaderSlice<'a>, LenError> {
        if slice.len() < SingleVlanHeader::LEN {
            return Err(too_short(
                SingleVlanHeader::LEN,
                slice.len(),
                LenSource::Slice,
                Layer::VlanHeader,
            ));
        }
        Ok(SingleVlanHeaderSlice {
            slice: &slice[..SingleVlanHeader::LEN],
        })
    }

    /// The 4 bytes of the tag.
    ///
    /// <details><summary>Contract</summary>
    ///
    /// ```text
    /// ensures bytes { result.now ≡ self.now }
    /// ensures len { length result.now ≡ 4 }
    /// ```
    ///
    /// [Notation](crate::definitions::notation)
    ///
    /// </details>
    #[must_use]
    #[inline]
    pub fn slice(&self) -> &'a [u8] {
        // Its length is then a constant for the compiler.
        &self.slice[..SingleVlanHeader::LEN]
    }

    /// The priority code point (PCP).
    ///
    /// <details><summary>Contract</summary>
    ///
    /// ```text
    /// ensures { result ≡ (vlan_of self.now).pcp }
    /// ```
    ///
    /// Words: [`vlan_of`](crate::definitions::ether_base#def.vlan_of). [Notation](crate::definitions::notation)
    ///
    /// </details>
    #[must_use]
    #[inline]
    pub fn priority_code_point(&self) -> VlanPcp {
        vlan_fields::priority_code_point(self.slice)
    }

    /// The drop eligible indicator (DEI): whether the frame may be dropped first under congestion.
    ///
    /// <details><summary>Contract</summary>
    ///
    /// ```text
    /// ensures { bit result ≡ (vlan_of self.now).dei }
    /// ```
    ///
    /// Words: [`bit`](crate::definitions::ether_base#def.bit),
    /// [`vlan_of`](crate::definitions::ether_base#def.vlan_of). [Notation](crate::definitions::notation)
    ///
    /// </details>
    #[must_use]
    #[inline]
    pub fn drop_eligible_indicator(&self) -> bool {
        vlan_fields::drop_eligible_indicator(self.slice)
    }

    /// The VLAN identifier (VID).
    ///
    /// <details><summary>Contract</summary>
    ///
    /// ```text
    /// ensures { result ≡ (vlan_of self.now).vid }
    /// ```
    ///
    /// Words: [`vlan_of`](crate::definitions::ether_base#def.vlan_of). [Notation](crate::definitions::notation)
    ///
    /// </details>
    #[must_use]
    #[inline]
    pub fn vlan_identifier(&self) -> VlanId {
        vlan_fields::vlan_identifier(self.slice)
    }

    /// The next ether type, which names the protocol of what follows the tag.
    ///
    /// <details><summary>Contract</summary>
    ///
    /// ```text
    /// ensures { result.0 ≡ (vlan_of self.now).ether_type }
    /// ```
    ///
    /// Words: [`vlan_of`](crate::definitions::ether_base#def.vlan_of). [Notation](crate::definitions::notation)
    ///
    /// </details>
    #[must_use]
    #[inline]
    pub fn ether_type(&self) -> EtherType {
        vlan_fields::ether_type(self.slice)
    }

    /// The tag as a value.
    ///
    /// <details><summary>Contract</summary>
    ///
    /// ```text
    /// ensures { vlan_view result ≡ vlan_of self.now }
    /// ```
    ///
    /// Words: [`vlan_view`](crate::definitions::ether_tags#def.vlan_view),
    /// [`vlan_of`](crate::definitions::ether_base#def.vlan_of). [Notation](crate::definitions::notation)
    ///
    /// </details>
    #[must_use]
    #[inline]
    pub fn to_header(&self) -> SingleVlanHeader {
        vlan_fields::header(self.slice)
    }
}

impl<'a> Clone for SingleVlanHeaderSlice<'a> {
    #[inline]
    fn clone(&self) -> Self {
        SingleVlanHeaderSlice { slice: self.slice }
    }
}

impl<'a> PartialEq for SingleVlanHeaderSlice<'a> {
    #[inline]
    fn eq(&self, other: &SingleVlanHeaderSlice<'a>) -> bool {
        vlan_fields::tag(self.slice) == vlan_fields::tag(other.slice)
    }
}

impl<'a> Eq for SingleVlanHeaderSlice<'a> {}
