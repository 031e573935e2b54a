//! The Ethernet II header as a value.

use crate::ether_tags::{Ethernet2HeaderSlice, ethernet2_fields};
use crate::ether_base::err::{Layer, LenError, SliceWriteSpaceError};
use crate::ether_base::{EtherType, write_front};

/// The header of an Ethernet II frame (IEEE 802.3, 3.1.1), 14 bytes on the wire:
///
/// ```text
/// byte 0             6             12     14
///      +-------------+-------------+------+
///      | destination |   source    | type |
///      +-------------+-------------+------+
/// ```
///
/// If a frame has a length in place of the type, which is at most 1500 (IEEE 802.3, 3.2.6), `ether_type` is that
/// length, unchanged.
///
/// ```
/// use etherpeel::{EtherType, Ethernet2Header};
///
/// let header = Ethernet2Header {
///     source: [2, 0, 0, 0, 0, 1],
///     destination: [0xFF; 6],
///     ether_type: EtherType::IPV4,
/// };
/// let bytes = [255, 255, 255, 255, 255, 255, 2, 0, 0, 0, 0, 1, 0x08, 0x00];
/// assert_eq!(header.to_bytes(), bytes);
/// assert_eq!(Ethernet2Header::from_bytes(bytes), header);
/// ```
#[cfg_attr(feature = "serde", derive(serde::Serialize, serde::Deserialize))]
#[derive(Clone, Copy, PartialEq, Eq, Hash, Debug, Default)]
pub struct Ethernet2Header {
    /// The source MAC address.
    pub source: [u8; 6],
    /// The destination MAC address.
    pub destination: [u8; 6],
    /// The protocol of what follows the header, or the length of what follows in an IEEE 802.3 frame.
    pub ether_type: EtherType,
}

impl Ethernet2Header {
    /// The length of the header in bytes.
    pub const LEN: usize = 14;

    /// The same as [`Ethernet2Header::LEN`], under its older name.
    pub const SERIALIZED_SIZE: usize = 14;

    /// Reads the header at the front of a slice, and returns it with the rest of the slice.
    ///
    /// # Errors
    ///
    /// The slice has fewer than 14 bytes: `required_len` is 14, `len` the slice's length, `len_source` is
    /// `LenSource::Slice`, `layer` is [`Layer::Ethernet2Header`] and `layer_start_offset` is 0.
    ///
    /// <details><summary>Contract</summary>
    ///
    /// ```text
    /// ensures accepted { IfOk result (λ answer. Accepts sources.Slice slice.now kinds.Ethernet2) }
    /// ensures fields { IfOk result (λ answer. answer.0 ≡ ethernet2_header_of slice.now) }
    /// ensures value { IfOk result
    ///     (λ answer. Means slice.now (headers.Ethernet2 (ethernet2_view answer.0))) }
    /// ensures rest { IfOk result
    ///     (λ answer. answer.1.now ≡ slice_range slice.now 14 (length slice.now)) }
    /// ensures refused { IfErr result (IsRefusedLen slice.now kinds.Ethernet2) }
    /// ensures short { OnErr result (length slice.now < 14) }
    /// ```
    ///
    /// Words: [`Accepts`](crate::definitions::ether_base#def.Accepts), `sources` (`LenSource`),
    /// [`kinds.Ethernet2`](crate::definitions::ether_base#def.Kind),
    /// [`ethernet2_header_of`](crate::definitions::ether_tags#def.ethernet2_header_of),
    /// [`Means`](crate::definitions::ether_base#def.Means),
    /// [`headers.Ethernet2`](crate::definitions::ether_base#def.Header),
    /// [`ethernet2_view`](crate::definitions::ether_tags#def.ethernet2_view),
    /// [`IsRefusedLen`](crate::definitions::ether_base#def.IsRefusedLen). [Notation](crate::definitions::notation)
    ///
    /// </details>
    #[inline]
    pub fn from_slice(slice: &[u8]) -> Result<(Ethernet2Header, &[u8]), LenError> {
        let header = Ethernet2HeaderSlice::from_slice(slice)?.to_header();
        Ok((header, &slice[Ethernet2Header::LEN..]))
    }

    /// The same as [`Ethernet2Header::from_slice`], under its older name.
    ///
    /// # Errors
    ///
    /// Those of [`Ethernet2Header::from_slice`].
    ///
    /// <details><summary>Contract</summary>
    ///
    /// ```text
    /// ensures accepted { IfOk result (λ answer. Accepts sources.Slice slice.now kinds.Ethernet2) }
    /// ensures fields { IfOk result (λ answer. answer.0 ≡ ethernet2_header_of slice.now) }
    /// ensures value { IfOk result
    ///     (λ answer. Means slice.now (headers.Ethernet2 (ethernet2_view answer.0))) }
    /// ensures rest { IfOk result
    ///     (λ answer. answer.1.now ≡ slice_range slice.now 14 (length slice.now)) }
    /// ensures refused { IfErr result (IsRefusedLen slice.now kinds.Ethernet2) }
    /// ensures short { OnErr result (length slice.now < 14) }
    /// ```
    ///
    /// Words: [`Accepts`](crate::definitions::ether_base#def.Accepts), `sources` (`LenSource`),
    /// [`kinds.Ethernet2`](crate::definitions::ether_base#def.Kind),
    /// [`ethernet2_header_of`](crate::definitions::ether_tags#def.ethernet2_header_of),
    /// [`Means`](crate::definitions::ether_base#def.Means),
    /// [`headers.Ethernet2`](crate::definitions::ether_base#def.Header),
    /// [`ethernet2_view`](crate::definitions::ether_tags#def.ethernet2_view),
    /// [`IsRefusedLen`](crate::definitions::ether_base#def.IsRefusedLen). [Notation](crate::definitions::notation)
    ///
    /// </details>
    #[inline]
    pub fn read_from_slice(slice: &[u8]) -> Result<(Ethernet2Header, &[u8]), LenError> {
        Ethernet2Header::from_slice(slice)
    }

    /// Reads the header from its 14 bytes. Any 14 bytes are a header.
    ///
    /// <details><summary>Contract</summary>
    ///
    /// ```text
    /// ensures fields { result ≡ ethernet2_header_of bytes }
    /// ensures value { IsEthernet2 bytes (ethernet2_view result) }
    /// ensures inverse { ethernet2_bytes (ethernet2_view result) ≡ bytes }
    /// ```
    ///
    /// Words: [`ethernet2_header_of`](crate::definitions::ether_tags#def.ethernet2_header_of),
    /// [`IsEthernet2`](crate::definitions::ether_base#def.IsEthernet2),
    /// [`ethernet2_view`](crate::definitions::ether_tags#def.ethernet2_view),
    /// [`ethernet2_bytes`](crate::definitions::ether_base#def.ethernet2_bytes).
    /// [Notation](crate::definitions::notation)
    ///
    /// </details>
    #[must_use]
    #[inline]
    pub fn from_bytes(bytes: [u8; 14]) -> Ethernet2Header {
        ethernet2_fields::header(&bytes)
    }

    /// The length of the header in bytes, which is [`Ethernet2Header::LEN`].
    ///
    /// <details><summary>Contract</summary>
    ///
    /// ```text
    /// ensures { result ≡ 14 }
    /// ```
    ///
    /// [Notation](crate::definitions::notation)
    ///
    /// </details>
    #[must_use]
    #[inline]
    pub fn header_len(&self) -> usize {
        Ethernet2Header::LEN
    }

    /// The bytes of the header on the wire.
    ///
    /// <details><summary>Contract</summary>
    ///
    /// ```text
    /// ensures value { result ≡ ethernet2_bytes (ethernet2_view self.now) }
    /// ensures len { length result ≡ 14 }
    /// ensures fits { FitsEthernet2 (ethernet2_view self.now) }
    /// ensures inverse { (e : Ethernet2Value)
    ///     → IsEthernet2 result e → e ≡ ethernet2_view self.now }
    /// ensures accepted { (more : List ℕ)
    ///     → Accepts sources.Slice (result ++ more) kinds.Ethernet2 }
    /// ensures read_back { (more : List ℕ) → ethernet2_header_of (result ++ more) ≡ self.now }
    /// ensures same { ethernet2_header_of result ≡ self.now }
    /// ```
    ///
    /// Words: [`ethernet2_bytes`](crate::definitions::ether_base#def.ethernet2_bytes),
    /// [`ethernet2_view`](crate::definitions::ether_tags#def.ethernet2_view),
    /// [`FitsEthernet2`](crate::definitions::ether_base#def.FitsEthernet2),
    /// [`Ethernet2Value`](crate::definitions::ether_base#def.Ethernet2Value),
    /// [`IsEthernet2`](crate::definitions::ether_base#def.IsEthernet2),
    /// [`Accepts`](crate::definitions::ether_base#def.Accepts), `sources` (`LenSource`),
    /// [`kinds.Ethernet2`](crate::definitions::ether_base#def.Kind),
    /// [`ethernet2_header_of`](crate::definitions::ether_tags#def.ethernet2_header_of).
    /// [Notation](crate::definitions::notation)
    ///
    /// </details>
    #[must_use]
    #[inline]
    pub fn to_bytes(&self) -> [u8; 14] {
        joined(&self.destination, &self.source, self.ether_type.0)
    }

    /// Writes the header to the front of a slice, and lends the rest of the slice for writing.
    ///
    /// # Errors
    ///
    /// The slice has fewer than 14 bytes, and is unchanged: `required_len` is 14, `len` the slice's length, `layer` is
    /// [`Layer::Ethernet2Header`] and `layer_start_offset` is 0.
    ///
    /// <details><summary>Contract</summary>
    ///
    /// ```text
    /// ensures* writes_back { sem 𝓛
    ///     (LendsRest (ethernet2_bytes (ethernet2_view self.now)) slice.entry result) }
    /// ensures answers { AnswersRest 14 Layer.Ethernet2Header slice.old result }
    /// ```
    ///
    /// Words: [`LendsRest`](crate::definitions::ether_base#def.LendsRest),
    /// [`ethernet2_bytes`](crate::definitions::ether_base#def.ethernet2_bytes),
    /// [`ethernet2_view`](crate::definitions::ether_tags#def.ethernet2_view),
    /// [`AnswersRest`](crate::definitions::ether_base#def.AnswersRest). [Notation](crate::definitions::notation)
    ///
    /// </details>
    #[inline]
    pub fn write_to_slice<'a>(
        &self,
        slice: &'a mut [u8],
    ) -> Result<&'a mut [u8], SliceWriteSpaceError> {
        let whole = self.put(slice);
        write_front::rest_from(whole, Ethernet2Header::LEN, Layer::Ethernet2Header)
    }

    /// Writes the header to the front of a slice, and returns the whole slice. One without room for it is unchanged.
    #[inline]
    fn put<'a>(&self, slice: &'a mut [u8]) -> &'a mut [u8] {
        write_front::put(self.to_bytes(), slice)
    }
}

/// The 14 bytes of a header with these two addresses of 6 bytes and this ether type.
#[inline]
fn joined(destination: &[u8], source: &[u8], ether_type: u16) -> [u8; 14] {
    let d = destination;
    let s = source;
    let t = ether_type.to_be_bytes();
    [
        d[0], d[1], d[2], d[3], d[4], d[5], s[0], s[1], s[2], s[3], s[4], s[5], t[0], t[1],
    ]
}
