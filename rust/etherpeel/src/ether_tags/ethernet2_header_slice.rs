//! A view of an Ethernet II header.

use crate::ether_tags::{Ethernet2Header, ethernet2_fields};
use crate::ether_base::err::{Layer, LenError};
use crate::ether_base::slice_len::too_short;
use crate::ether_base::{EtherType, LenSource};

/// A view of an Ethernet II header, which borrows its 14 bytes from a packet.
///
/// Two views are equal if their bytes are equal, wherever they are in memory.
///
/// ```
/// use etherpeel::{EtherType, Ethernet2HeaderSlice};
///
/// # fn main() -> Result<(), Box<dyn std::error::Error>> {
/// let bytes = [
///     255, 255, 255, 255, 255, 255, 2, 0, 0, 0, 0, 1, 0x08, 0x00, 0x45,
/// ];
/// let header = Ethernet2HeaderSlice::from_slice(&bytes)?;
/// assert_eq!(header.destination(), [0xFF; 6]);
/// assert_eq!(header.source(), [2, 0, 0, 0, 0, 1]);
/// assert_eq!(header.ether_type(), EtherType::IPV4);
/// assert_eq!(header.slice(), &bytes[..14]);
/// # Ok(())
/// # }
/// ```
#[derive(Debug)]
pub struct Ethernet2HeaderSlice<'a> {
    slice: &'a [u8],
}

impl<'a> Ethernet2HeaderSlice<'a> {
    /// Borrows the header at the front of a slice. The bytes after it are not part of the view.
    ///
    /// # Errors
    ///
    /// The slice has fewer than 14 bytes: `required_len` is 14, `len` the slice's length, `len_source` is
    /// [`LenSource::Slice`], `layer` is [`Layer::Ethernet2Header`] and `layer_start_offset` is 0.
    ///
    /// <details><summary>Contract</summary>
    ///
    /// ```text
    /// ensures bytes { IfOk result (λ h. h ≡ slice_range slice.now 0 14) }
    /// ensures accepted { IfOk result (λ h. Accepts sources.Slice slice.now kinds.Ethernet2) }
    /// ensures value { IfOk result (λ h. Means slice.now (headers.Ethernet2 (ethernet2_of h))) }
    /// ensures refused { IfErr result (IsRefusedLen slice.now kinds.Ethernet2) }
    /// ensures short { OnErr result (length slice.now < 14) }
    /// ```
    ///
    /// Words: [`Accepts`](crate::definitions::ether_base#def.Accepts), `sources` (`LenSource`),
    /// [`kinds.Ethernet2`](crate::definitions::ether_base#def.Kind),
    /// [`Means`](crate::definitions::ether_base#def.Means),
    /// [`headers.Ethernet2`](crate::definitions::ether_base#def.Header),
    /// [`ethernet2_of`](crate::definitions::ether_base#def.ethernet2_of),
    /// [`IsRefusedLen`](crate::definitions::ether_base#def.IsRefusedLen). [Notation](crate::definitions::notation)
    ///
    /// </details>
    #[inline]
    pub fn from_slice(slice: &'a [u8]) -> Result<Ethernet2HeaderSlice<'a>, LenError> {
        if slice.len() < Ethernet2Header::LEN {
            return Err(too_short(
                Ethernet2Header::LEN,
                slice.len(),
                LenSource::Slice,
                Layer::Ethernet2Header,
            ));
        }
        Ok(Ethernet2HeaderSlice {
            slice: &slice[..Ethernet2Header::LEN],
        })
    }

    /// The 14 bytes of the header.
    ///
    /// <details><summary>Contract</summary>
    ///
    /// ```text
    /// ensures bytes { result.now ≡ self.now }
    /// ensures len { length result.now ≡ 14 }
    /// ```
    ///
    /// [Notation](crate::definitions::notation)
    ///
    /// </details>
    #[must_use]
    #[inline]
    pub fn slice(&self) -> &'a [u8] {
        // Its length is then a constant for the compiler.
        &self.slice[..Ethernet2Header::LEN]
    }

    /// The destination MAC address.
    ///
    /// <details><summary>Contract</summary>
    ///
    /// ```text
    /// ensures { result ≡ spelled 6 (ethernet2_of self.now).destination }
    /// ```
    ///
    /// Words: [`spelled`](crate::definitions::ether_base#def.spelled),
    /// [`ethernet2_of`](crate::definitions::ether_base#def.ethernet2_of). [Notation](crate::definitions::notation)
    ///
    /// </details>
    #[must_use]
    #[inline]
    pub fn destination(&self) -> [u8; 6] {
        ethernet2_fields::destination(self.slice)
    }

    /// The source MAC address.
    ///
    /// <details><summary>Contract</summary>
    ///
    /// ```text
    /// ensures { result ≡ spelled 6 (ethernet2_of self.now).source }
    /// ```
    ///
    /// Words: [`spelled`](crate::definitions::ether_base#def.spelled),
    /// [`ethernet2_of`](crate::definitions::ether_base#def.ethernet2_of). [Notation](crate::definitions::notation)
    ///
    /// </details>
    #[must_use]
    #[inline]
    pub fn source(&self) -> [u8; 6] {
        ethernet2_fields::source(self.slice)
    }

    /// The protocol of what follows the header, or its length if the number is at most 1500 (IEEE 802.3, 3.2.6).
    ///
    /// <details><summary>Contract</summary>
    ///
    /// ```text
    /// ensures { result.0 ≡ (ethernet2_of self.now).ether_type }
    /// ```
    ///
    /// Words: [`ethernet2_of`](crate::definitions::ether_base#def.ethernet2_of).
    /// [Notation](crate::definitions::notation)
    ///
    /// </details>
    #[must_use]
    #[inline]
    pub fn ether_type(&self) -> EtherType {
        ethernet2_fields::ether_type(self.slice)
    }

    /// The header as a value.
    ///
    /// <details><summary>Contract</summary>
    ///
    /// ```text
    /// ensures fields { result ≡ ethernet2_header_of self.now }
    /// ensures value { ethernet2_view result ≡ ethernet2_of self.now }
    /// ```
    ///
    /// Words: [`ethernet2_header_of`](crate::definitions::ether_tags#def.ethernet2_header_of),
    /// [`ethernet2_view`](crate::definitions::ether_tags#def.ethernet2_view),
    /// [`ethernet2_of`](crate::definitions::ether_base#def.ethernet2_of). [Notation](crate::definitions::notation)
    ///
    /// </details>
    #[must_use]
    #[inline]
    pub fn to_header(&self) -> Ethernet2Header {
        ethernet2_fields::header(self.slice)
    }
}

impl<'a> Clone for Ethernet2HeaderSlice<'a> {
    #[inline]
    fn clone(&self) -> Self {
        Ethernet2HeaderSlice { slice: self.slice }
    }
}

impl<'a> PartialEq for Ethernet2HeaderSlice<'a> {
    #[inline]
    fn eq(&self, other: &Ethernet2HeaderSlice<'a>) -> bool {
        ethernet2_fields::are_same(self.slice, other.slice)
    }
}

impl<'a> Eq for Ethernet2HeaderSlice<'a> {}
