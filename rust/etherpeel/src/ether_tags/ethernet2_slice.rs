//! A view of an Ethernet II frame.

use crate::ether_tags::{EtherPayloadSlice, Ethernet2Header, ethernet2_fields};
use crate::ether_base::err::{Layer, LenError};
use crate::ether_base::slice_len::too_short;
use crate::ether_base::{EtherType, LenSource};
use core::fmt;

/// The length of a frame check sequence in bytes.
const FCS_LEN: usize = 4;

/// A view of an Ethernet II frame, with or without a frame check sequence (FCS) at its end.
///
/// Two views are equal if their bytes are equal, and both or neither of them end in a frame check sequence.
///
/// ```
/// use etherpeel::{EtherType, Ethernet2Slice};
///
/// # fn main() -> Result<(), Box<dyn std::error::Error>> {
/// let bytes = [
///     255, 255, 255, 255, 255, 255, 2, 0, 0, 0, 0, 1, 0x08, 0x00, 0x45,
/// ];
/// let frame = Ethernet2Slice::from_slice_without_fcs(&bytes)?;
/// assert_eq!(frame.ether_type(), EtherType::IPV4);
/// assert_eq!(frame.payload_slice(), [0x45].as_slice());
/// assert_eq!(frame.fcs(), None);
/// # Ok(())
/// # }
/// ```
pub struct Ethernet2Slice<'a> {
    fcs_len: usize,
    slice: &'a [u8],
}

impl<'a> Ethernet2Slice<'a> {
    /// Borrows the frame in a slice that has no frame check sequence. The payload reaches to the end of the slice.
    ///
    /// # Errors
    ///
    /// The slice has fewer than 14 bytes: `required_len` is 14, `len` the slice's length, `len_source` is
    /// [`LenSource::Slice`], `layer` is [`Layer::Ethernet2Header`] and `layer_start_offset` is 0.
    ///
    /// <details><summary>Contract</summary>
    ///
    /// ```text
    /// ensures frame { IfOk result (λ f. f ≡ record { bytes = slice.now; has_fcs = false }) }
    /// ensures payload { IfOk result (λ f. payload_of f ≡ drop 14 slice.now) }
    /// ensures accepted { IfOk result (λ f. Accepts sources.Slice slice.now kinds.Ethernet2) }
    /// ensures value { IfOk result
    ///     (λ f. Means slice.now (headers.Ethernet2 (ethernet2_of slice.now))) }
    /// ensures refused { IfErr result (IsRefusedLen slice.now kinds.Ethernet2) }
    /// ensures short { OnErr result (length slice.now < 14) }
    /// ```
    ///
    /// Words: [`payload_of`](crate::definitions::ether_tags#def.payload_of),
    /// [`Accepts`](crate::definitions::ether_base#def.Accepts), `sources` (`LenSource`),
    /// [`kinds.Ethernet2`](crate::definitions::ether_base#def.Kind),
    /// [`Means`](crate::definitions::ether_base#def.Means),
    /// [`headers.Ethernet2`](crate::definitions::ether_base#def.Header),
    /// [`ethernet2_of`](crate::definitions::ether_base#def.ethernet2_of),
    /// [`IsRefusedLen`](crate::definitions::ether_base#def.IsRefusedLen). [Notation](crate::definitions::notation)
    ///
    /// </details>
    #[inline]
    pub fn from_slice_without_fcs(slice: &'a [u8]) -> Result<Ethernet2Slice<'a>, LenError> {
        if slice.len() < Ethernet2Header::LEN {
            return Err(too_short(
                Ethernet2Header::LEN,
                slice.len(),
                LenSource::Slice,
                Layer::Ethernet2Header,
            ));
        }
        Ok(Ethernet2Slice { fcs_len: 0, slice })
    }

    /// Borrows the frame in a slice whose last 4 bytes are a frame check sequence. The sequence is not verified.
    ///
    /// # Errors
    ///
    /// The slice has fewer than 18 bytes, those of a header and the sequence: `required_len` is 18, `len` the slice's
    /// length, `len_source` is [`LenSource::Slice`], `layer` is [`Layer::Ethernet2Header`] and `layer_start_offset` is
    /// 0.
    ///
    /// <details><summary>Contract</summary>
    ///
    /// ```text
    /// ensures frame { IfOk result (λ f. f ≡ record { bytes = slice.now; has_fcs = true }) }
    /// ensures accepted { IfOk result (λ f. Accepts sources.Slice slice.now kinds.Ethernet2Fcs) }
    /// ensures value { IfOk result
    ///     (λ f. Means slice.now (headers.Ethernet2Fcs (ethernet2_of slice.now))) }
    /// ensures refused { IfErr result (IsRefusedLen slice.now kinds.Ethernet2Fcs) }
    /// ensures short { OnErr result (length slice.now < 18) }
    /// ```
    ///
    /// Words: [`Accepts`](crate::definitions::ether_base#def.Accepts), `sources` (`LenSource`),
    /// [`kinds.Ethernet2Fcs`](crate::definitions::ether_base#def.Kind),
    /// [`Means`](crate::definitions::ether_base#def.Means),
    /// [`headers.Ethernet2Fcs`](crate::definitions::ether_base#def.Header),
    /// [`ethernet2_of`](crate::definitions::ether_base#def.ethernet2_of),
    /// [`IsRefusedLen`](crate::definitions::ether_base#def.IsRefusedLen). [Notation](crate::definitions::notation)
    ///
    /// </details>
    #[inline]
    pub fn from_slice_with_crc32_fcs(slice: &'a [u8]) -> Result<Ethernet2Slice<'a>, LenError> {
        if slice.len() < Ethernet2Header::LEN + FCS_LEN {
            return Err(too_short(
                Ethernet2Header::LEN + FCS_LEN,
                slice.len(),
                LenSource::Slice,
                Layer::Ethernet2Header,
            ));
        }
        Ok(Ethernet2Slice {
            fcs_len: FCS_LEN,
            slice,
        })
    }

    /// All bytes of the frame, including a frame check sequence.
    ///
    /// <details><summary>Contract</summary>
    ///
    /// ```text
    /// ensures { result.now ≡ self.now.bytes }
    /// ```
    ///
    /// [Notation](crate::definitions::notation)
    ///
    /// </details>
    #[must_use]
    #[inline]
    pub fn slice(&self) -> &'a [u8] {
        self.slice
    }

    /// The destination MAC address.
    ///
    /// <details><summary>Contract</summary>
    ///
    /// ```text
    /// ensures { result ≡ spelled 6 (ethernet2_of self.now.bytes).destination }
    /// ```
    ///
    /// Words: [`spelled`](crate::definitions::ether_base#def.spelled),
    /// [`ethernet2_of`](crate::definitions::ether_base#def.ethernet2_of). [Notation](crate::definitions::notation)
    ///
    /// </details>
    #[must_use]
    #[inline]
    pub fn destination(&self) -> [u8; 6] {
        ethernet2_fields::destination(self.slice)
    }

    /// The source MAC address.
    ///
    /// <details><summary>Contract</summary>
    ///
    /// ```text
    /// ensures { result ≡ spelled 6 (ethernet2_of self.now.bytes).source }
    /// ```
    ///
    /// Words: [`spelled`](crate::definitions::ether_base#def.spelled),
    /// [`ethernet2_of`](crate::definitions::ether_base#def.ethernet2_of). [Notation](crate::definitions::notation)
    ///
    /// </details>
    #[must_use]
    #[inline]
    pub fn source(&self) -> [u8; 6] {
        ethernet2_fields::source(self.slice)
    }

    /// The protocol of the payload, or its length if the number is at most 1500 (IEEE 802.3, 3.2.6).
    ///
    /// <details><summary>Contract</summary>
    ///
    /// ```text
    /// ensures { result.0 ≡ (ethernet2_of self.now.bytes).ether_type }
    /// ```
    ///
    /// Words: [`ethernet2_of`](crate::definitions::ether_base#def.ethernet2_of).
    /// [Notation](crate::definitions::notation)
    ///
    /// </details>
    #[must_use]
    #[inline]
    pub fn ether_type(&self) -> EtherType {
        ethernet2_fields::ether_type(self.slice)
    }

    /// The frame check sequence, the last 4 bytes of the frame, unverified. `None` if the frame was read without one.
    ///
    /// <details><summary>Contract</summary>
    ///
    /// ```text
    /// ensures { result ≡ fcs_of self.now }
    /// ```
    ///
    /// Words: [`fcs_of`](crate::definitions::ether_tags#def.fcs_of). [Notation](crate::definitions::notation)
    ///
    /// </details>
    #[must_use]
    #[inline]
    pub fn fcs(&self) -> Option<[u8; 4]> {
        if self.fcs_len == 0 {
            return None;
        }
        self.slice.last_chunk::<FCS_LEN>().copied()
    }

    /// The 14 bytes of the header.
    ///
    /// <details><summary>Contract</summary>
    ///
    /// ```text
    /// ensures bytes { result.now ≡ slice_range self.now.bytes 0 14 }
    /// ensures len { length result.now ≡ 14 }
    /// ```
    ///
    /// [Notation](crate::definitions::notation)
    ///
    /// </details>
    #[must_use]
    #[inline]
    pub fn header_slice(&self) -> &[u8] {
        &self.slice[..Ethernet2Header::LEN]
    }

    /// The header as a value.
    ///
    /// <details><summary>Contract</summary>
    ///
    /// ```text
    /// ensures fields { result ≡ ethernet2_header_of self.now.bytes }
    /// ensures value { ethernet2_view result ≡ ethernet2_of self.now.bytes }
    /// ```
    ///
    /// Words: [`ethernet2_header_of`](crate::definitions::ether_tags#def.ethernet2_header_of),
    /// [`ethernet2_view`](crate::definitions::ether_tags#def.ethernet2_view),
    /// [`ethernet2_of`](crate::definitions::ether_base#def.ethernet2_of). [Notation](crate::definitions::notation)
    ///
    /// </details>
    #[must_use]
    #[inline]
    pub fn to_header(&self) -> Ethernet2Header {
        ethernet2_fields::header(self.slice)
    }

    /// The payload and its ether type. The payload ends with the slice, before a frame check sequence if there is one,
    /// so its `len_source` is [`LenSource::Slice`].
    ///
    /// <details><summary>Contract</summary>
    ///
    /// ```text
    /// ensures ether_type { result.ether_type.0 ≡ (ethernet2_of self.now.bytes).ether_type }
    /// ensures len_source { result.len_source ≡ sources.Slice }
    /// ensures bytes { result.payload.now ≡ payload_of self.now }
    /// ```
    ///
    /// Words: [`ethernet2_of`](crate::definitions::ether_base#def.ethernet2_of), `sources` (`LenSource`),
    /// [`payload_of`](crate::definitions::ether_tags#def.payload_of). [Notation](crate::definitions::notation)
    ///
    /// </details>
    #[must_use]
    #[inline]
    pub fn payload(&self) -> EtherPayloadSlice<'a> {
        EtherPayloadSlice {
            ether_type: self.ether_type(),
            len_source: LenSource::Slice,
            payload: self.payload_slice(),
        }
    }

    /// The bytes of the payload, with neither header nor frame check sequence.
    ///
    /// <details><summary>Contract</summary>
    ///
    /// ```text
    /// ensures { result.now ≡ payload_of self.now }
    /// ```
    ///
    /// Words: [`payload_of`](crate::definitions::ether_tags#def.payload_of). [Notation](crate::definitions::notation)
    ///
    /// </details>
    #[must_use]
    #[inline]
    pub fn payload_slice(&self) -> &'a [u8] {
        let slice = self.slice;
        &slice[Ethernet2Header::LEN..slice.len() - self.fcs_len]
    }

    /// The length of the header in bytes, which is [`Ethernet2Header::LEN`].
    ///
    /// <details><summary>Contract</summary>
    ///
    /// ```text
    /// ensures { result ≡ 14 }
    /// ```
    ///
    /// [Notation](crate::definitions::notation)
    ///
    /// </details>
    #[must_use]
    #[inline]
    pub const fn header_len(&self) -> usize {
        Ethernet2Header::LEN
    }
}

impl<'a> Clone for Ethernet2Slice<'a> {
    #[inline]
    fn clone(&self) -> Self {
        Ethernet2Slice {
            fcs_len: self.fcs_len,
            slice: self.slice,
        }
    }
}

impl<'a> PartialEq for Ethernet2Slice<'a> {
    #[inline]
    fn eq(&self, other: &Ethernet2Slice<'a>) -> bool {
        self.slice == other.slice && self.fcs_len == other.fcs_len
    }
}

impl<'a> Eq for Ethernet2Slice<'a> {}

impl fmt::Debug for Ethernet2Slice<'_> {
    fn fmt(&self, f: &mut fmt::Formatter<'_>) -> fmt::Result {
        f.debug_struct("Ethernet2Slice")
            .field("header", &self.to_header())
            .field("payload", &self.payload())
            .field("fcs", &self.fcs())
            .finish()
    }
}
