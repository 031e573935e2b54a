//! A MACsec SecTag as a value.

use crate::ether_tags::{MacsecHeaderSlice, MacsecPType, macsec_fields};
use arrayvec::ArrayVec;
use crate::ether_base::big_endian::{bytes_of_u16, bytes_of_u32, bytes_of_u64};
use crate::ether_base::err::macsec::HeaderSliceError;
use crate::ether_base::{EtherType, MacsecAn, MacsecShortLen};

/// A MACsec SecTag (IEEE 802.1AE, 9.3), 6 to 16 bytes on the wire.
///
/// The standard counts the MACsec ether type 0x88E5 as the first two bytes of a SecTag. Here it is the `ether_type` of
/// the layer before, and the tag begins after it. If the bits E and C are clear, the ether type of the payload can be
/// read, and it counts as the end of the tag:
///
/// ```text
/// byte 0        1              2                6                     6 or 14
///      +--------+--------------+----------------+---------------------+-----------------+
///      | TCI,AN | short length | packet number  | SCI, if SC is set   | next ether type |
///      +--------+--------------+----------------+---------------------+-----------------+
///        1 byte   1 byte         4 bytes          8 bytes               2 bytes
///
/// bit of byte 0    7   6    5    4     3   2   1 0
///                +---+----+----+-----+---+---+-----+
///                | V | ES | SC | SCB | E | C | AN  |
///                +---+----+----+-----+---+---+-----+
/// ```
///
/// The version bit V is 0 in each tag. The short length is in the lower 6 bits of byte 1. The upper 2 are reserved:
/// they are ignored when a tag is read, and written as 0.
///
/// IEEE 802.1AE allows short lengths up to 47 (9.7). Here 48 to 63 are accepted too and name that many bytes, and
/// [`MacsecHeader::set_payload_len`] writes them.
///
/// Public fields are not checked against each other.
///
/// ```
/// use etherpeel::{EtherType, MacsecAn, MacsecHeader, MacsecPType, MacsecShortLen};
///
/// # fn main() -> Result<(), Box<dyn std::error::Error>> {
/// let mut tag = MacsecHeader {
///     ptype: MacsecPType::Unmodified(EtherType::IPV4),
///     endstation_id: false,
///     scb: false,
///     an: MacsecAn::try_new(2)?,
///     short_len: MacsecShortLen::ZERO,
///     packet_nr: 7,
///     sci: None,
/// };
/// tag.set_payload_len(40);
/// assert_eq!(tag.short_len.value(), 42);
///
/// let bytes = tag.to_bytes();
/// assert_eq!(
///     bytes.as_slice(),
///     [0x02, 42, 0, 0, 0, 7, 0x08, 0x00].as_slice()
/// );
/// assert_eq!(MacsecHeader::from_slice(bytes.as_slice()), Ok(tag));
/// # Ok(())
/// # }
/// ```
#[cfg_attr(feature = "serde", derive(serde::Serialize, serde::Deserialize))]
#[derive(Clone, Copy, PartialEq, Eq, Hash, Debug)]
pub struct MacsecHeader {
    /// Whether the payload is encrypted and changed (bits E and C), and its ether type if it is neither.
    pub ptype: MacsecPType,
    /// The end station bit (ES, 9.5). If it is set, the standard leaves out the SCI, which begins with the frame's
    /// source address.
    pub endstation_id: bool,
    /// The single copy broadcast bit (SCB, 9.5), of a passive optical network.
    pub scb: bool,
    /// The association number (AN, 9.6).
    pub an: MacsecAn,
    /// The short length (SL, 9.7): the number of bytes from the next ether type, or from the payload if there is none,
    /// up to the integrity check value. 0 names no length.
    pub short_len: MacsecShortLen,
    /// The packet number (PN, 9.8).
    pub packet_nr: u32,
    /// The secure channel identifier (SCI, 9.9), if the tag has one (bit SC).
    pub sci: Option<u64>,
}

impl MacsecHeader {
    /// The length in bytes of the shortest tag, with neither SCI nor next ether type.
    pub const MIN_LEN: usize = 6;

    /// The length in bytes of the longest tag, with both.
    pub const MAX_LEN: usize = 16;

    /// Reads the tag at the front of a slice. What follows it is ignored.
    ///
    /// # Errors
    ///
    /// Those of [`MacsecHeaderSlice::from_slice`].
    ///
    /// <details><summary>Contract</summary>
    ///
    /// ```text
    /// ensures accepted { IfOk result (λ h. AcceptsHeader sources.Slice slice.now kinds.Macsec) }
    /// ensures value { IfOk result (λ h. Means slice.now (headers.Macsec (sec_tag_view h))) }
    /// ensures refused { IfErr result (IsRefusedTag slice.now) }
    /// ensures short { IfErr result (λ e. OnLen e (λ n. length slice.now < n.required_len)) }
    /// ```
    ///
    /// Words: [`AcceptsHeader`](crate::definitions::ether_base#def.AcceptsHeader), `sources` (`LenSource`),
    /// [`kinds.Macsec`](crate::definitions::ether_base#def.Kind),
    /// [`Means`](crate::definitions::ether_base#def.Means),
    /// [`headers.Macsec`](crate::definitions::ether_base#def.Header),
    /// [`sec_tag_view`](crate::definitions::ether_tags#def.sec_tag_view),
    /// [`IsRefusedTag`](crate::definitions::ether_tags#def.IsRefusedTag),
    /// [`OnLen`](crate::definitions::ether_base#def.OnLen). [Notation](crate::definitions::notation)
    ///
    /// </details>
    #[inline]
    pub fn from_slice(slice: &[u8]) -> Result<MacsecHeader, HeaderSliceError> {
        Ok(MacsecHeaderSlice::from_slice(slice)?.to_header())
    }

    /// Whether the payload is encrypted: bit E.
    ///
    /// <details><summary>Contract</summary>
    ///
    /// ```text
    /// ensures { bit result ≡ encrypted_of (payload_type_view self.now.ptype) }
    /// ```
    ///
    /// Words: [`bit`](crate::definitions::ether_base#def.bit),
    /// [`encrypted_of`](crate::definitions::ether_base#def.encrypted_of),
    /// [`payload_type_view`](crate::definitions::ether_tags#def.payload_type_view).
    /// [Notation](crate::definitions::notation)
    ///
    /// </details>
    #[must_use]
    #[inline]
    pub fn encrypted(&self) -> bool {
        matches!(
            self.ptype,
            MacsecPType::Encrypted | MacsecPType::EncryptedUnmodified
        )
    }

    /// Whether the payload is changed: bit C.
    ///
    /// <details><summary>Contract</summary>
    ///
    /// ```text
    /// ensures { bit result ≡ changed_of (payload_type_view self.now.ptype) }
    /// ```
    ///
    /// Words: [`bit`](crate::definitions::ether_base#def.bit),
    /// [`changed_of`](crate::definitions::ether_base#def.changed_of),
    /// [`payload_type_view`](crate::definitions::ether_tags#def.payload_type_view).
    /// [Notation](crate::definitions::notation)
    ///
    /// </details>
    #[must_use]
    #[inline]
    pub fn userdata_changed(&self) -> bool {
        matches!(self.ptype, MacsecPType::Encrypted | MacsecPType::Modified)
    }

    /// The ether type of the payload; `None` if the payload is encrypted or changed.
    ///
    /// <details><summary>Contract</summary>
    ///
    /// ```text
    /// ensures { number_of result ≡ readable_type (payload_type_view self.now.ptype) }
    /// ```
    ///
    /// Words: [`number_of`](crate::definitions::ether_tags#def.number_of),
    /// [`readable_type`](crate::definitions::ether_tags#def.readable_type),
    /// [`payload_type_view`](crate::definitions::ether_tags#def.payload_type_view).
    /// [Notation](crate::definitions::notation)
    ///
    /// </details>
    #[must_use]
    #[inline]
    pub fn next_ether_type(&self) -> Option<EtherType> {
        match self.ptype {
            MacsecPType::Unmodified(ether_type) => Some(ether_type),
            _ => None,
        }
    }

    /// The length of the tag in bytes, with the next ether type: [`MacsecHeader::MIN_LEN`] to
    /// [`MacsecHeader::MAX_LEN`].
    ///
    /// <details><summary>Contract</summary>
    ///
    /// ```text
    /// ensures value { result ≡ sec_tag_len (header_front self.now) }
    /// ensures bound { result ≤ 16 }
    /// ```
    ///
    /// Words: [`sec_tag_len`](crate::definitions::ether_base#def.sec_tag_len),
    /// [`header_front`](crate::definitions::ether_tags#def.header_front). [Notation](crate::definitions::notation)
    ///
    /// </details>
    #[must_use]
    #[inline]
    pub fn header_len(&self) -> usize {
        macsec_fields::tag_len(self.sci.is_some(), self.next_ether_type().is_some())
    }

    /// The length of the payload in bytes that the short length names, without the next ether type. `None` if the
    /// short length is 0, or if it is 1 and there is a next ether type, which alone has 2 bytes.
    ///
    /// <details><summary>Contract</summary>
    ///
    /// ```text
    /// ensures { result ≡ known_payload_len (header_front self.now) }
    /// ```
    ///
    /// Words: [`known_payload_len`](crate::definitions::ether_base#def.known_payload_len),
    /// [`header_front`](crate::definitions::ether_tags#def.header_front). [Notation](crate::definitions::notation)
    ///
    /// </details>
    #[must_use]
    #[inline]
    pub fn expected_payload_len(&self) -> Option<usize> {
        macsec_fields::payload_len(self.short_len, self.next_ether_type().is_some())
    }

    /// Sets the short length so that it names a payload of `payload_len` bytes, or to 0, which names no length, if
    /// that is too long.
    ///
    /// A short length is at most 63, while IEEE 802.1AE ends at 47. It counts the 2 bytes of a next ether type, so
    /// with one the payload has at most 61 bytes. No short length names an encrypted or changed payload of 0 bytes.
    ///
    /// <details><summary>Contract</summary>
    ///
    /// ```text
    /// ensures short_len { self.new.short_len
    ///     ≡ short_len_for (payload_type_view self.old.ptype) payload_len }
    /// ensures named { known_payload_len (header_front self.new)
    ///     ≡ (if nat_eq self.new.short_len 0 then None else Some payload_len) }
    /// ensures others { self.new ≡ record self.old { short_len = self.new.short_len } }
    /// ```
    ///
    /// Words: [`short_len_for`](crate::definitions::ether_tags#def.short_len_for),
    /// [`payload_type_view`](crate::definitions::ether_tags#def.payload_type_view),
    /// [`known_payload_len`](crate::definitions::ether_base#def.known_payload_len),
    /// [`header_front`](crate::definitions::ether_tags#def.header_front). [Notation](crate::definitions::notation)
    ///
    /// </details>
    #[inline]
    pub fn set_payload_len(&mut self, payload_len: usize) {
        self.short_len = match self.ptype {
            MacsecPType::Unmodified(_) if payload_len <= MacsecShortLen::MAX_USIZE - 2 => {
                MacsecShortLen::from_len(payload_len + 2)
            }
            MacsecPType::Unmodified(_) => MacsecShortLen::ZERO,
            _ => MacsecShortLen::from_len(payload_len),
        };
    }

    /// The bytes of the tag on the wire. Their number is [`MacsecHeader::header_len`].
    ///
    /// They are read back as this tag, except that a short length of 1 with a next ether type is refused.
    ///
    /// <details><summary>Contract</summary>
    ///
    /// ```text
    /// ensures value { result.items ≡ sec_tag_bytes (sec_tag_view self.now) }
    /// ensures len { length result.items ≡ sec_tag_len (header_front self.now) }
    /// ensures fits { FitsSecTag (sec_tag_view self.now) }
    /// ensures read { (more : List ℕ)
    ///     → Means (result.items ++ more) (headers.Macsec (sec_tag_view self.now)) }
    /// ensures read_back { (more : List ℕ) (h : MacsecHeader)
    ///     → Means (result.items ++ more) (headers.Macsec (sec_tag_view h)) → h ≡ self.now }
    /// ensures accepted { (more : List ℕ) → (IsTooShort (header_front self.now) → ⊥)
    ///     → AcceptsHeader sources.Slice (result.items ++ more) kinds.Macsec }
    /// ensures refused { (more : List ℕ) → IsTooShort (header_front self.now)
    ///     → RefusesHeader sources.Slice (result.items ++ more) kinds.Macsec InvalidShortLen }
    /// ```
    ///
    /// Words: [`sec_tag_bytes`](crate::definitions::ether_base#def.sec_tag_bytes),
    /// [`sec_tag_view`](crate::definitions::ether_tags#def.sec_tag_view),
    /// [`sec_tag_len`](crate::definitions::ether_base#def.sec_tag_len),
    /// [`header_front`](crate::definitions::ether_tags#def.header_front),
    /// [`FitsSecTag`](crate::definitions::ether_base#def.FitsSecTag),
    /// [`Means`](crate::definitions::ether_base#def.Means),
    /// [`headers.Macsec`](crate::definitions::ether_base#def.Header),
    /// [`IsTooShort`](crate::definitions::ether_base#def.IsTooShort),
    /// [`AcceptsHeader`](crate::definitions::ether_base#def.AcceptsHeader), `sources` (`LenSource`),
    /// [`kinds.Macsec`](crate::definitions::ether_base#def.Kind),
    /// [`RefusesHeader`](crate::definitions::ether_base#def.RefusesHeader),
    /// [`InvalidShortLen`](crate::definitions::ether_base#def.Refusal). [Notation](crate::definitions::notation)
    ///
    /// </details>
    #[must_use]
    #[inline]
    pub fn to_bytes(&self) -> ArrayVec<u8, 16> {
        self.spelled()
    }

    /// The bytes of the tag. Each number fits in its field.
    #[inline]
    fn spelled(&self) -> ArrayVec<u8, 16> {
        let mut bytes = ArrayVec::new();
        append(&mut bytes, bytes_of_u16(self.front()));
        append(&mut bytes, bytes_of_u32(self.packet_nr));
        if let Some(sci) = self.sci {
            append(&mut bytes, bytes_of_u64(sci));
        }
        if let Some(ether_type) = self.next_ether_type() {
            append(&mut bytes, bytes_of_u16(ether_type.0));
        }
        bytes
    }

    /// The first two bytes as one number, version and reserved bits 0.
    #[inline]
    fn front(&self) -> u16 {
        0x4000 * u16::from(self.endstation_id)
            + 0x2000 * u16::from(self.sci.is_some())
            + 0x1000 * u16::from(self.scb)
            + 0x0800 * u16::from(self.encrypted())
            + 0x0400 * u16::from(self.userdata_changed())
            + 0x0100 * u16::from(self.an.value())
            + u16::from(self.short_len.value())
    }
}

/// Appends the bytes of a number.
#[inline]
fn append<const N: usize>(tag: &mut ArrayVec<u8, 16>, number: [u8; N]) {
    tag.try_extend_from_slice(&number).unwrap();
}
