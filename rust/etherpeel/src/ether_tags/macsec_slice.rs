//! A view of a MACsec SecTag and its payload.

use crate::ether_tags::{EtherPayloadSlice, MacsecHeaderSlice, MacsecPayloadSlice, macsec_fields};
use crate::ether_base::err::Layer;
use crate::ether_base::err::macsec::HeaderSliceError;
use crate::ether_base::slice_len::too_short;
use crate::ether_base::{EtherType, LenSource};

/// A view of a MACsec SecTag and its payload.
///
/// Public fields are not checked against each other.
///
/// ```
/// use etherpeel::{EtherPayloadSlice, EtherType, LenSource, MacsecSlice};
///
/// # fn main() -> Result<(), Box<dyn std::error::Error>> {
/// let bytes = [0x00, 0x03, 0, 0, 0, 1, 0x08, 0x00, 0x45, 0xEE];
/// let packet = MacsecSlice::from_slice(&bytes)?;
/// let payload = EtherPayloadSlice {
///     ether_type: EtherType::IPV4,
///     len_source: LenSource::MacsecShortLength,
///     payload: &[0x45],
/// };
/// assert_eq!(packet.header.packet_nr(), 1);
/// assert_eq!(packet.ether_payload(), Some(payload));
/// # Ok(())
/// # }
/// ```
#[derive(Clone, PartialEq, Eq, Debug)]
pub struct MacsecSlice<'a> {
    /// The tag.
    pub header: MacsecHeaderSlice<'a>,
    /// The payload after the tag.
    pub payload: MacsecPayloadSlice<'a>,
}

impl<'a> MacsecSlice<'a> {
    /// Borrows the tag at the front of a slice, and its payload.
    ///
    /// If the short length names a length, the payload ends there, and the integrity check value (ICV) is not part of
    /// it. Otherwise the payload is the rest of the slice, with the ICV at its end.
    ///
    /// # Errors
    ///
    /// Those of [`MacsecHeaderSlice::from_slice`] are tested first. Otherwise the error is `HeaderSliceError::Len` if
    /// the short length names a payload that ends after the slice: `required_len` is the length of tag and payload,
    /// `len` the slice's length, `len_source` is [`LenSource::MacsecShortLength`], `layer` is [`Layer::MacsecPacket`]
    /// and `layer_start_offset` is 0.
    ///
    /// <details><summary>Contract</summary>
    ///
    /// ```text
    /// ensures header { IfOk result (λ m. tag_bytes m.header ≡ tag_in slice.now) }
    /// ensures payload { IfOk result
    ///     (λ m. HoldsPayload m.payload (sec_tag_front_in slice.now) slice.now) }
    /// ensures accepted { IfOk result (λ m. Accepts sources.Slice slice.now kinds.Macsec) }
    /// ensures value { IfOk result
    ///     (λ m. Means slice.now (headers.Macsec (sec_tag_of (tag_bytes m.header)))) }
    /// ensures refused { IfErr result (IsRefusedPacket slice.now) }
    /// ensures short { IfErr result (λ e. OnLen e (λ n. length slice.now < n.required_len)) }
    /// ```
    ///
    /// Words: [`tag_bytes`](crate::definitions::ether_tags#def.tag_bytes),
    /// [`tag_in`](crate::definitions::ether_tags#def.tag_in),
    /// [`HoldsPayload`](crate::definitions::ether_tags#def.HoldsPayload),
    /// [`sec_tag_front_in`](crate::definitions::ether_base#def.sec_tag_front_in),
    /// [`Accepts`](crate::definitions::ether_base#def.Accepts), `sources` (`LenSource`),
    /// [`kinds.Macsec`](crate::definitions::ether_base#def.Kind),
    /// [`Means`](crate::definitions::ether_base#def.Means),
    /// [`headers.Macsec`](crate::definitions::ether_base#def.Header),
    /// [`sec_tag_of`](crate::definitions::ether_base#def.sec_tag_of),
    /// [`IsRefusedPacket`](crate::definitions::ether_tags#def.IsRefusedPacket),
    /// [`OnLen`](crate::definitions::ether_base#def.OnLen). [Notation](crate::definitions::notation)
    ///
    /// </details>
    #[inline]
    pub fn from_slice(slice: &'a [u8]) -> Result<MacsecSlice<'a>, HeaderSliceError> {
        let header = MacsecHeaderSlice::from_slice(slice)?;
        let start = header.header_len();
        let end = end_within(&header, slice.len())?;
        let payload = payload_of(
            header.next_ether_type(),
            source_of(&header),
            &slice[start..end],
        );
        Ok(MacsecSlice { header, payload })
    }

    /// The payload and its ether type; `None` if it is encrypted or changed.
    ///
    /// <details><summary>Contract</summary>
    ///
    /// ```text
    /// ensures { result ≡ readable_payload self.now.payload }
    /// ```
    ///
    /// Words: [`readable_payload`](crate::definitions::ether_tags#def.readable_payload).
    /// [Notation](crate::definitions::notation)
    ///
    /// </details>
    #[must_use]
    #[inline]
    pub fn ether_payload(&self) -> Option<EtherPayloadSlice<'a>> {
        match self.payload {
            MacsecPayloadSlice::Unmodified(payload) => Some(payload),
            MacsecPayloadSlice::Modified(_) => None,
        }
    }

    /// The ether type of the payload; `None` if the payload is encrypted or changed.
    ///
    /// <details><summary>Contract</summary>
    ///
    /// ```text
    /// ensures { number_of result
    ///     ≡ readable_type (sec_tag_of (tag_bytes self.now.header)).payload_type }
    /// ```
    ///
    /// Words: [`number_of`](crate::definitions::ether_tags#def.number_of),
    /// [`readable_type`](crate::definitions::ether_tags#def.readable_type),
    /// [`sec_tag_of`](crate::definitions::ether_base#def.sec_tag_of),
    /// [`tag_bytes`](crate::definitions::ether_tags#def.tag_bytes). [Notation](crate::definitions::notation)
    ///
    /// </details>
    #[must_use]
    #[inline]
    pub fn next_ether_type(&self) -> Option<EtherType> {
        self.header.next_ether_type()
    }
}

/// Returns where the payload after a tag ends, in bytes from the tag's start: after the length that the tag names, or
/// with the slice. It is an error if the slice ends before. E and C are not read, since the short length counts the
/// ether type.
#[inline]
fn end_within(header: &MacsecHeaderSlice<'_>, slice_len: usize) -> Result<usize, HeaderSliceError> {
    let named = usize::from(header.short_len().value());
    if named == 0 {
        return Ok(slice_len);
    }
    let end = macsec_fields::tag_len(header.sci_present(), false) + named;
    if slice_len < end {
        return Err(HeaderSliceError::Len(too_short(
            end,
            slice_len,
            LenSource::MacsecShortLength,
            Layer::MacsecPacket,
        )));
    }
    Ok(end)
}

/// What gives the length of the payload after a tag: the short length if it names one, otherwise the slice.
#[inline]
fn source_of(header: &MacsecHeaderSlice<'_>) -> LenSource {
    match header.short_len().value() {
        0 => LenSource::Slice,
        _ => LenSource::MacsecShortLength,
    }
}

/// A payload, with its ether type if that can be read.
#[inline]
fn payload_of<'a>(
    ether_type: Option<EtherType>,
    len_source: LenSource,
    payload: &'a [u8],
) -> MacsecPayloadSlice<'a> {
    match ether_type {
        Some(ether_type) => MacsecPayloadSlice::Unmodified(EtherPayloadSlice {
            ether_type,
            len_source,
            payload,
        }),
        None => MacsecPayloadSlice::Modified(payload),
    }
}
