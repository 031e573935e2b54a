//! A view of a MACsec SecTag.

use crate::ether_tags::{MacsecHeader, MacsecPType, macsec_fields};
use crate::ether_base::err::Layer;
use crate::ether_base::err::macsec::{HeaderError, HeaderSliceError};
use crate::ether_base::slice_len::too_short;
use crate::ether_base::{EtherType, LenSource, MacsecAn, MacsecShortLen};

/// A view of a MACsec SecTag, which borrows its 6 to 16 bytes from a packet ([`MacsecHeader`] has a picture of them).
///
/// Two views are equal if their bytes are equal, wherever they are in memory.
///
/// ```
/// use etherpeel::{EtherType, MacsecHeaderSlice};
///
/// # fn main() -> Result<(), Box<dyn std::error::Error>> {
/// let bytes = [0x53, 0x2A, 0x01, 0x02, 0x03, 0x04, 0x08, 0x00, 0x45];
/// let tag = MacsecHeaderSlice::from_slice(&bytes)?;
/// assert_eq!(tag.an().value(), 3);
/// assert_eq!(tag.packet_nr(), 0x0102_0304);
/// assert_eq!(tag.next_ether_type(), Some(EtherType::IPV4));
/// assert_eq!(tag.expected_payload_len(), Some(40));
/// assert_eq!(tag.slice(), &bytes[..8]);
/// # Ok(())
/// # }
/// ```
#[derive(Clone, Copy, PartialEq, Eq, Debug)]
pub struct MacsecHeaderSlice<'a> {
    slice: &'a [u8],
}

impl<'a> MacsecHeaderSlice<'a> {
    /// Borrows the tag at the front of a slice, including a next ether type. The bytes after it are not part of the
    /// view.
    ///
    /// # Errors
    ///
    /// The first of these that holds:
    ///
    /// - `HeaderSliceError::Len`: the slice has fewer than 6 bytes. `required_len` is 6.
    /// - `HeaderSliceError::Content` with [`HeaderError::UnexpectedVersion`]: the version bit V is 1.
    /// - `HeaderSliceError::Content` with [`HeaderError::InvalidUnmodifiedShortLen`]: the short length is 1 and the
    ///   bits E and C are clear, though the next ether type alone takes 2 bytes.
    /// - `HeaderSliceError::Len`: the slice ends within the tag. `required_len` is the length of the tag.
    ///
    /// In both length errors `len` is the slice's length, `len_source` is [`LenSource::Slice`], `layer` is
    /// [`Layer::MacsecHeader`] and `layer_start_offset` is 0.
    ///
    /// <details><summary>Contract</summary>
    ///
    /// ```text
    /// ensures bytes { IfOk result (λ h. tag_bytes h ≡ tag_in slice.now) }
    /// ensures whole { IfOk result
    ///     (λ h. sec_tag_len (sec_tag_front_in slice.now) ≤ length slice.now) }
    /// ensures accepted { IfOk result (λ h. AcceptsHeader sources.Slice slice.now kinds.Macsec) }
    /// ensures value { IfOk result
    ///     (λ h. Means slice.now (headers.Macsec (sec_tag_of (tag_bytes h)))) }
    /// ensures refused { IfErr result (IsRefusedTag slice.now) }
    /// ensures short { IfErr result (λ e. OnLen e (λ n. length slice.now < n.required_len)) }
    /// ```
    ///
    /// Words: [`tag_bytes`](crate::definitions::ether_tags#def.tag_bytes),
    /// [`tag_in`](crate::definitions::ether_tags#def.tag_in),
    /// [`sec_tag_len`](crate::definitions::ether_base#def.sec_tag_len),
    /// [`sec_tag_front_in`](crate::definitions::ether_base#def.sec_tag_front_in),
    /// [`AcceptsHeader`](crate::definitions::ether_base#def.AcceptsHeader), `sources` (`LenSource`),
    /// [`kinds.Macsec`](crate::definitions::ether_base#def.Kind),
    /// [`Means`](crate::definitions::ether_base#def.Means),
    /// [`headers.Macsec`](crate::definitions::ether_base#def.Header),
    /// [`sec_tag_of`](crate::definitions::ether_base#def.sec_tag_of),
    /// [`IsRefusedTag`](crate::definitions::ether_tags#def.IsRefusedTag),
    /// [`OnLen`](crate::definitions::ether_base#def.OnLen). [Notation](crate::definitions::notation)
    ///
    /// </details>
    #[inline]
    pub fn from_slice(slice: &'a [u8]) -> Result<MacsecHeaderSlice<'a>, HeaderSliceError> {
        if slice.len() < MacsecHeader::MIN_LEN {
            return Err(HeaderSliceError::Len(too_short(
                MacsecHeader::MIN_LEN,
                slice.len(),
                LenSource::Slice,
                Layer::MacsecHeader,
            )));
        }
        if macsec_fields::has_version_one(slice) {
            return Err(HeaderSliceError::Content(HeaderError::UnexpectedVersion));
        }
        if macsec_fields::is_too_short(slice) {
            return Err(HeaderSliceError::Content(HeaderError::InvalidUnmodifiedShortLen));
        }
        let len = macsec_fields::header_len(slice);
        if slice.len() < len {
            return Err(HeaderSliceError::Len(too_short(
                len,
                slice.len(),
                LenSource::Slice,
                Layer::MacsecHeader,
            )));
        }
        Ok(MacsecHeaderSlice {
            slice: &slice[..len],
        })
    }

    /// The 6 to 16 bytes of the tag, with the next ether type.
    ///
    /// <details><summary>Contract</summary>
    ///
    /// ```text
    /// ensures { result.now ≡ tag_bytes self.now }
    /// ```
    ///
    /// Words: [`tag_bytes`](crate::definitions::ether_tags#def.tag_bytes). [Notation](crate::definitions::notation)
    ///
    /// </details>
    #[must_use]
    #[inline]
    pub fn slice(&self) -> &'a [u8] {
        self.slice
    }

    /// The first byte of the tag: the bits V, ES, SC, SCB, E and C of the TCI (9.5), and the association number.
    ///
    /// <details><summary>Contract</summary>
    ///
    /// ```text
    /// ensures { result ≡ slice_index (tag_bytes self.now) 0 }
    /// ```
    ///
    /// Words: [`tag_bytes`](crate::definitions::ether_tags#def.tag_bytes). [Notation](crate::definitions::notation)
    ///
    /// </details>
    #[must_use]
    #[inline]
    pub fn tci_an_raw(&self) -> u8 {
        macsec_fields::tci_an(self.slice)
    }

    /// The end station bit (ES, 9.5). If it is set, the standard leaves out the SCI, which begins with the frame's
    /// source address.
    ///
    /// <details><summary>Contract</summary>
    ///
    /// ```text
    /// ensures { bit result ≡ (sec_tag_of (tag_bytes self.now)).end_station }
    /// ```
    ///
    /// Words: [`bit`](crate::definitions::ether_base#def.bit),
    /// [`sec_tag_of`](crate::definitions::ether_base#def.sec_tag_of),
    /// [`tag_bytes`](crate::definitions::ether_tags#def.tag_bytes). [Notation](crate::definitions::notation)
    ///
    /// </details>
    #[must_use]
    #[inline]
    pub fn endstation_id(&self) -> bool {
        macsec_fields::endstation_id(self.slice)
    }

    /// The single copy broadcast bit (SCB, 9.5), of a passive optical network.
    ///
    /// <details><summary>Contract</summary>
    ///
    /// ```text
    /// ensures { bit result ≡ (sec_tag_of (tag_bytes self.now)).single_copy_broadcast }
    /// ```
    ///
    /// Words: [`bit`](crate::definitions::ether_base#def.bit),
    /// [`sec_tag_of`](crate::definitions::ether_base#def.sec_tag_of),
    /// [`tag_bytes`](crate::definitions::ether_tags#def.tag_bytes). [Notation](crate::definitions::notation)
    ///
    /// </details>
    #[must_use]
    #[inline]
    pub fn tci_scb(&self) -> bool {
        macsec_fields::tci_scb(self.slice)
    }

    /// Whether the payload is encrypted: bit E (9.5).
    ///
    /// <details><summary>Contract</summary>
    ///
    /// ```text
    /// ensures { bit result ≡ (tag_front self.now).encrypted }
    /// ```
    ///
    /// Words: [`bit`](crate::definitions::ether_base#def.bit),
    /// [`tag_front`](crate::definitions::ether_tags#def.tag_front). [Notation](crate::definitions::notation)
    ///
    /// </details>
    #[must_use]
    #[inline]
    pub fn encrypted(&self) -> bool {
        macsec_fields::encrypted(self.slice)
    }

    /// Whether the payload is changed: bit C (9.5).
    ///
    /// <details><summary>Contract</summary>
    ///
    /// ```text
    /// ensures { bit result ≡ (tag_front self.now).changed }
    /// ```
    ///
    /// Words: [`bit`](crate::definitions::ether_base#def.bit),
    /// [`tag_front`](crate::definitions::ether_tags#def.tag_front). [Notation](crate::definitions::notation)
    ///
    /// </details>
    #[must_use]
    #[inline]
    pub fn userdata_changed(&self) -> bool {
        macsec_fields::userdata_changed(self.slice)
    }

    /// Whether the payload is neither encrypted nor changed: the bits E and C are clear, and a next ether type is part
    /// of the tag.
    ///
    /// <details><summary>Contract</summary>
    ///
    /// ```text
    /// ensures { IsTrue result ↔ IsUnmodified (tag_front self.now) }
    /// ```
    ///
    /// Words: [`IsUnmodified`](crate::definitions::ether_tags#def.IsUnmodified),
    /// [`tag_front`](crate::definitions::ether_tags#def.tag_front). [Notation](crate::definitions::notation)
    ///
    /// </details>
    #[must_use]
    #[inline]
    pub fn is_unmodified(&self) -> bool {
        macsec_fields::is_unmodified(self.slice)
    }

    /// Whether the payload is encrypted and changed (bits E and C), and its ether type if it is neither.
    ///
    /// <details><summary>Contract</summary>
    ///
    /// ```text
    /// ensures { payload_type_view result ≡ (sec_tag_of (tag_bytes self.now)).payload_type }
    /// ```
    ///
    /// Words: [`payload_type_view`](crate::definitions::ether_tags#def.payload_type_view),
    /// [`sec_tag_of`](crate::definitions::ether_base#def.sec_tag_of),
    /// [`tag_bytes`](crate::definitions::ether_tags#def.tag_bytes). [Notation](crate::definitions::notation)
    ///
    /// </details>
    #[must_use]
    #[inline]
    pub fn ptype(&self) -> MacsecPType {
        macsec_fields::ptype(self.slice)
    }

    /// The association number (AN, 9.6).
    ///
    /// <details><summary>Contract</summary>
    ///
    /// ```text
    /// ensures { result ≡ (sec_tag_of (tag_bytes self.now)).association_number }
    /// ```
    ///
    /// Words: [`sec_tag_of`](crate::definitions::ether_base#def.sec_tag_of),
    /// [`tag_bytes`](crate::definitions::ether_tags#def.tag_bytes). [Notation](crate::definitions::notation)
    ///
    /// </details>
    #[must_use]
    #[inline]
    pub fn an(&self) -> MacsecAn {
        macsec_fields::association_number(self.slice)
    }

    /// The short length (SL, 9.7), 0 to 63.
    ///
    /// <details><summary>Contract</summary>
    ///
    /// ```text
    /// ensures { result ≡ (sec_tag_of (tag_bytes self.now)).short_len }
    /// ```
    ///
    /// Words: [`sec_tag_of`](crate::definitions::ether_base#def.sec_tag_of),
    /// [`tag_bytes`](crate::definitions::ether_tags#def.tag_bytes). [Notation](crate::definitions::notation)
    ///
    /// </details>
    #[must_use]
    #[inline]
    pub fn short_len(&self) -> MacsecShortLen {
        macsec_fields::short_len(self.slice)
    }

    /// The packet number (PN, 9.8).
    ///
    /// <details><summary>Contract</summary>
    ///
    /// ```text
    /// ensures { result ≡ (sec_tag_of (tag_bytes self.now)).packet_number }
    /// ```
    ///
    /// Words: [`sec_tag_of`](crate::definitions::ether_base#def.sec_tag_of),
    /// [`tag_bytes`](crate::definitions::ether_tags#def.tag_bytes). [Notation](crate::definitions::notation)
    ///
    /// </details>
    #[must_use]
    #[inline]
    pub fn packet_nr(&self) -> u32 {
        macsec_fields::packet_nr(self.slice)
    }

    /// Whether the tag has an SCI: bit SC (9.5).
    ///
    /// <details><summary>Contract</summary>
    ///
    /// ```text
    /// ensures { bit result ≡ (tag_front self.now).sci_present }
    /// ```
    ///
    /// Words: [`bit`](crate::definitions::ether_base#def.bit),
    /// [`tag_front`](crate::definitions::ether_tags#def.tag_front). [Notation](crate::definitions::notation)
    ///
    /// </details>
    #[must_use]
    #[inline]
    pub fn sci_present(&self) -> bool {
        macsec_fields::sci_present(self.slice)
    }

    /// The secure channel identifier (SCI, 9.9); `None` if the tag has none.
    ///
    /// <details><summary>Contract</summary>
    ///
    /// ```text
    /// ensures { result ≡ (sec_tag_of (tag_bytes self.now)).sci }
    /// ```
    ///
    /// Words: [`sec_tag_of`](crate::definitions::ether_base#def.sec_tag_of),
    /// [`tag_bytes`](crate::definitions::ether_tags#def.tag_bytes). [Notation](crate::definitions::notation)
    ///
    /// </details>
    #[must_use]
    #[inline]
    pub fn sci(&self) -> Option<u64> {
        macsec_fields::sci(self.slice)
    }

    /// The ether type of the payload; `None` if the payload is encrypted or changed.
    ///
    /// <details><summary>Contract</summary>
    ///
    /// ```text
    /// ensures { number_of result ≡ readable_type (sec_tag_of (tag_bytes self.now)).payload_type }
    /// ```
    ///
    /// Words: [`number_of`](crate::definitions::ether_tags#def.number_of),
    /// [`readable_type`](crate::definitions::ether_tags#def.readable_type),
    /// [`sec_tag_of`](crate::definitions::ether_base#def.sec_tag_of),
    /// [`tag_bytes`](crate::definitions::ether_tags#def.tag_bytes). [Notation](crate::definitions::notation)
    ///
    /// </details>
    #[must_use]
    #[inline]
    pub fn next_ether_type(&self) -> Option<EtherType> {
        match self.ptype() {
            MacsecPType::Unmodified(ether_type) => Some(ether_type),
            _ => None,
        }
    }

    /// The length of the tag in bytes, with the next ether type, 6 to 16.
    ///
    /// <details><summary>Contract</summary>
    ///
    /// ```text
    /// ensures tag { result ≡ sec_tag_len (tag_front self.now) }
    /// ensures slice { result ≡ length (tag_bytes self.now) }
    /// ```
    ///
    /// Words: [`sec_tag_len`](crate::definitions::ether_base#def.sec_tag_len),
    /// [`tag_front`](crate::definitions::ether_tags#def.tag_front),
    /// [`tag_bytes`](crate::definitions::ether_tags#def.tag_bytes). [Notation](crate::definitions::notation)
    ///
    /// </details>
    #[must_use]
    #[inline]
    pub fn header_len(&self) -> usize {
        self.slice.len()
    }

    /// The length of the payload in bytes that the short length names, without the next ether type. `None` if the
    /// short length is 0, so that the payload and the integrity check value reach to the end of the frame.
    ///
    /// <details><summary>Contract</summary>
    ///
    /// ```text
    /// ensures { result ≡ known_payload_len (tag_front self.now) }
    /// ```
    ///
    /// Words: [`known_payload_len`](crate::definitions::ether_base#def.known_payload_len),
    /// [`tag_front`](crate::definitions::ether_tags#def.tag_front). [Notation](crate::definitions::notation)
    ///
    /// </details>
    #[must_use]
    #[inline]
    pub fn expected_payload_len(&self) -> Option<usize> {
        macsec_fields::expected_payload_len(self.slice)
    }

    /// The tag as a value.
    ///
    /// <details><summary>Contract</summary>
    ///
    /// ```text
    /// ensures { sec_tag_view result ≡ sec_tag_of (tag_bytes self.now) }
    /// ```
    ///
    /// Words: [`sec_tag_view`](crate::definitions::ether_tags#def.sec_tag_view),
    /// [`sec_tag_of`](crate::definitions::ether_base#def.sec_tag_of),
    /// [`tag_bytes`](crate::definitions::ether_tags#def.tag_bytes). [Notation](crate::definitions::notation)
    ///
    /// </details>
    #[must_use]
    #[inline]
    pub fn to_header(&self) -> MacsecHeader {
        MacsecHeader {
            ptype: self.ptype(),
            endstation_id: self.endstation_id(),
            scb: self.tci_scb(),
            an: self.an(),
            short_len: self.short_len(),
            packet_nr: self.packet_nr(),
            sci: self.sci(),
        }
    }
}
