//! The header of Linux cooked capture as a value.

use crate::ether_sll::{LinuxSllHeaderSlice, linux_sll_fields};
use crate::ether_base::err::linux_sll::{HeaderError, HeaderSliceError};
use crate::ether_base::err::{Layer, SliceWriteSpaceError};
use crate::ether_base::{ArpHardwareId, LinuxSllPacketType, LinuxSllProtocolType, write_front};

/// The header of Linux cooked capture v1 (LINKTYPE_LINUX_SLL), 16 bytes on the wire:
///
/// ```text
/// byte 0        2          4                6                  14         16
///      +--------+----------+----------------+------------------+----------+
///      | packet | hardware | address length | sender's address | protocol |
///      | type   | type     |                |                  | type     |
///      +--------+----------+----------------+------------------+----------+
/// ```
///
/// Public fields are not checked against each other.
///
/// ```
/// use etherpeel::{ArpHardwareId, EtherType, LinuxSllHeader, LinuxSllPacketType, LinuxSllProtocolType};
///
/// let bytes = [0, 4, 0, 1, 0, 6, 2, 0, 0, 0, 0, 1, 0, 0, 0x08, 0x00];
/// let header = LinuxSllHeader {
///     packet_type: LinuxSllPacketType::OUTGOING,
///     arp_hrd_type: ArpHardwareId::ETHERNET,
///     sender_address_valid_length: 6,
///     sender_address: [2, 0, 0, 0, 0, 1, 0, 0],
///     protocol_type: LinuxSllProtocolType::EtherType(EtherType::IPV4),
/// };
/// assert_eq!(LinuxSllHeader::from_bytes(bytes), Ok(header));
/// assert_eq!(header.to_bytes(), bytes);
/// ```
#[cfg_attr(feature = "serde", derive(serde::Serialize, serde::Deserialize))]
#[derive(Clone, Copy, PartialEq, Eq, Hash, Debug)]
pub struct LinuxSllHeader {
    /// The packet type: who sent the packet to whom.
    pub packet_type: LinuxSllPacketType,
    /// The hardware type (ARPHRD_) of the device that the packet was seen on.
    pub arp_hrd_type: ArpHardwareId,
    /// The length of the sender's address in bytes. May exceed 8, though the field holds only 8 bytes.
    pub sender_address_valid_length: u16,
    /// The sender's address, truncated to 8 bytes or padded.
    pub sender_address: [u8; 8],
    /// The protocol of what follows the header. When a header is read, the hardware type decides which variant the
    /// number has.
    pub protocol_type: LinuxSllProtocolType,
}

impl LinuxSllHeader {
    /// The length of the header in bytes.
    pub const LEN: usize = 16;

    /// Reads the header at the front of a slice, and returns it with the rest of the slice.
    ///
    /// # Errors
    ///
    /// The first of these that holds:
    ///
    /// - `HeaderSliceError::Len`: the slice has fewer than 16 bytes. `required_len` is 16, `len` the slice's length,
    ///   `len_source` is `LenSource::Slice`, `layer` is `Layer::LinuxSllHeader` and `layer_start_offset` is 0.
    /// - `HeaderSliceError::Content` with `HeaderError::UnsupportedPacketTypeField`: the packet type, which the error
    ///   names, is above 7.
    /// - `HeaderSliceError::Content` with `HeaderError::UnsupportedArpHardwareId`: the hardware type, which the error
    ///   names, is not one of `LinuxSllProtocolType::SUPPORTED_ARPHWD`.
    ///
    /// <details><summary>Contract</summary>
    ///
    /// ```text
    /// ensures accepted { IfOk result (λ answer. Accepts sources.Slice slice.now kinds.LinuxSll) }
    /// ensures value { IfOk result
    ///     (λ answer. Means slice.now (headers.LinuxSll (linux_sll_view answer.0))) }
    /// ensures protocol { IfOk result
    ///     (λ answer. answer.0.protocol_type ≡ protocol_type_of_header slice.now) }
    /// ensures rest { IfOk result
    ///     (λ answer. answer.1.now ≡ slice_range slice.now 16 (length slice.now)) }
    /// ensures refused { IfErr result (IsRefusedSll slice.now) }
    /// ensures short { IfErr result (λ e. OnLen e (λ _. length slice.now < 16)) }
    /// ```
    ///
    /// Words: [`Accepts`](crate::definitions::ether_base#def.Accepts), `sources` (`LenSource`),
    /// [`kinds.LinuxSll`](crate::definitions::ether_base#def.Kind),
    /// [`Means`](crate::definitions::ether_base#def.Means),
    /// [`headers.LinuxSll`](crate::definitions::ether_base#def.Header),
    /// [`linux_sll_view`](crate::definitions::ether_sll#def.linux_sll_view),
    /// [`protocol_type_of_header`](crate::definitions::ether_sll#def.protocol_type_of_header),
    /// [`IsRefusedSll`](crate::definitions::ether_sll#def.IsRefusedSll),
    /// [`OnLen`](crate::definitions::ether_base#def.OnLen). [Notation](crate::definitions::notation)
    ///
    /// </details>
    #[inline]
    pub fn from_slice(slice: &[u8]) -> Result<(LinuxSllHeader, &[u8]), HeaderSliceError> {
        let header = LinuxSllHeaderSlice::from_slice(slice)?.to_header();
        Ok((header, &slice[LinuxSllHeader::LEN..]))
    }

    /// Reads the header from its 16 bytes.
    ///
    /// # Errors
    ///
    /// [`HeaderError::UnsupportedPacketTypeField`] if the packet type is above 7, else
    /// [`HeaderError::UnsupportedArpHardwareId`] if the hardware type is not one of
    /// `LinuxSllProtocolType::SUPPORTED_ARPHWD`. Each error names the number.
    ///
    /// <details><summary>Contract</summary>
    ///
    /// ```text
    /// ensures answers { AnswersHeader bytes result }
    /// ensures inverse { IfOk result (λ h. linux_sll_bytes (linux_sll_view h) ≡ bytes) }
    /// ```
    ///
    /// Words: [`AnswersHeader`](crate::definitions::ether_sll#def.AnswersHeader),
    /// [`linux_sll_bytes`](crate::definitions::ether_base#def.linux_sll_bytes),
    /// [`linux_sll_view`](crate::definitions::ether_sll#def.linux_sll_view). [Notation](crate::definitions::notation)
    ///
    /// </details>
    #[inline]
    pub fn from_bytes(bytes: [u8; 16]) -> Result<LinuxSllHeader, HeaderError> {
        linux_sll_fields::require_content(&bytes)?;
        Ok(linux_sll_fields::header(&bytes))
    }

    /// The length of the header in bytes, which is [`LinuxSllHeader::LEN`].
    ///
    /// <details><summary>Contract</summary>
    ///
    /// ```text
    /// ensures { result ≡ 16 }
    /// ```
    ///
    /// [Notation](crate::definitions::notation)
    ///
    /// </details>
    #[must_use]
    #[inline]
    pub fn header_len(&self) -> usize {
        LinuxSllHeader::LEN
    }

    /// The bytes of the header on the wire.
    ///
    /// They hold the number of the protocol type but not its variant. When they are read back, the hardware type
    /// decides the variant, and a hardware type that is not supported is refused.
    ///
    /// <details><summary>Contract</summary>
    ///
    /// ```text
    /// ensures value { result ≡ linux_sll_bytes (linux_sll_view self.now) }
    /// ensures len { length result ≡ 16 }
    /// ensures fits { FitsLinuxSll (linux_sll_view self.now) }
    /// ensures packet_type { self.now.packet_type ≤ 7 }
    /// ensures read_back { (r : Result LinuxSllHeader header_error) → AnswersHeader result r
    ///     → ((r ≡ Ok self.now) ↔ HasOwnType self.now) }
    /// ```
    ///
    /// Words: [`linux_sll_bytes`](crate::definitions::ether_base#def.linux_sll_bytes),
    /// [`linux_sll_view`](crate::definitions::ether_sll#def.linux_sll_view),
    /// [`FitsLinuxSll`](crate::definitions::ether_base#def.FitsLinuxSll), `header_error` (`HeaderError`),
    /// [`AnswersHeader`](crate::definitions::ether_sll#def.AnswersHeader),
    /// [`HasOwnType`](crate::definitions::ether_sll#def.HasOwnType). [Notation](crate::definitions::notation)
    ///
    /// </details>
    #[must_use]
    #[inline]
    pub fn to_bytes(&self) -> [u8; 16] {
        joined(
            u16::from(self.packet_type),
            self.arp_hrd_type.0,
            self.sender_address_valid_length,
            &self.sender_address,
            u16::from(self.protocol_type),
        )
    }

    /// Writes the header to the front of a slice, and lends the rest of the slice for writing.
    ///
    /// # Errors
    ///
    /// The slice has fewer than 16 bytes, and is unchanged: `required_len` is 16, `len` the slice's length, `layer` is
    /// [`Layer::LinuxSllHeader`] and `layer_start_offset` is 0.
    ///
    /// <details><summary>Contract</summary>
    ///
    /// ```text
    /// ensures* writes_back { sem 𝓛
    ///     (LendsRest (linux_sll_bytes (linux_sll_view self.now)) slice.entry result) }
    /// ensures answers { AnswersRest 16 Layer.LinuxSllHeader slice.old result }
    /// ```
    ///
    /// Words: [`LendsRest`](crate::definitions::ether_base#def.LendsRest),
    /// [`linux_sll_bytes`](crate::definitions::ether_base#def.linux_sll_bytes),
    /// [`linux_sll_view`](crate::definitions::ether_sll#def.linux_sll_view),
    /// [`AnswersRest`](crate::definitions::ether_base#def.AnswersRest). [Notation](crate::definitions::notation)
    ///
    /// </details>
    #[inline]
    pub fn write_to_slice<'a>(
        &self,
        slice: &'a mut [u8],
    ) -> Result<&'a mut [u8], SliceWriteSpaceError> {
        let whole = self.put(slice);
        write_front::rest_from(whole, LinuxSllHeader::LEN, Layer::LinuxSllHeader)
    }

    /// Writes the header to the front of a slice, and returns the whole slice. A slice that is too short is unchanged.
    #[inline]
    fn put<'a>(&self, slice: &'a mut [u8]) -> &'a mut [u8] {
        write_front::put(self.to_bytes(), slice)
    }
}

/// The 16 bytes of a header with these numbers and this address of 8 bytes.
#[inline]
fn joined(
    packet_type: u16,
    hardware: u16,
    address_len: u16,
    address: &[u8],
    protocol: u16,
) -> [u8; 16] {
    let p = packet_type.to_be_bytes();
    let h = hardware.to_be_bytes();
    let l = address_len.to_be_bytes();
    let a = address;
    let t = protocol.to_be_bytes();
    [
        p[0], p[1], h[0], h[1], l[0], l[1], a[0], a[1], a[2], a[3], a[4], a[5], a[6], a[7], t[0],
        t[1],
    ]
}
