//! A view of a packet of Linux cooked capture.

use crate::ether_sll::{LinuxSllHeader, linux_sll_fields};
use crate::ether_base::err::linux_sll::HeaderSliceError;
use crate::ether_base::{ArpHardwareId, LinuxSllPacketType, LinuxSllProtocolType};
use crate::ether_tags::LinuxSllPayloadSlice;
use core::fmt;

/// A view of a packet of Linux cooked capture v1 (LINKTYPE_LINUX_SLL): a header ([`LinuxSllHeader`] has a picture of
/// it) and its payload. The packet type and the hardware type of a view are always supported ones.
///
/// Two views are equal if their bytes are equal, wherever they are in memory.
///
/// ```
/// use etherpeel::{EtherType, LinuxSllPacketType, LinuxSllProtocolType, LinuxSllSlice};
///
/// # fn main() -> Result<(), Box<dyn std::error::Error>> {
/// let bytes = [0, 4, 0, 1, 0, 6, 2, 0, 0, 0, 0, 1, 0, 0, 0x08, 0x00, 0x45];
/// let packet = LinuxSllSlice::from_slice(&bytes)?;
/// let ipv4 = LinuxSllProtocolType::EtherType(EtherType::IPV4);
/// assert_eq!(packet.packet_type(), LinuxSllPacketType::OUTGOING);
/// assert_eq!(packet.protocol_type(), ipv4);
/// assert_eq!(packet.payload_slice(), [0x45].as_slice());
/// # Ok(())
/// # }
/// ```
pub struct LinuxSllSlice<'a> {
    slice: &'a [u8],
}

impl<'a> LinuxSllSlice<'a> {
    /// Borrows the packet in a slice. The payload reaches to the end of the slice.
    ///
    /// # Errors
    ///
    /// The first of these that holds:
    ///
    /// - `HeaderSliceError::Len`: the slice has fewer than 16 bytes. `required_len` is 16, `len` the slice's length,
    ///   `len_source` is `LenSource::Slice`, `layer` is `Layer::LinuxSllHeader` and `layer_start_offset` is 0.
    /// - `HeaderSliceError::Content` with `HeaderError::UnsupportedPacketTypeField`: the packet type, which the error
    ///   names, is above 7.
    /// - `HeaderSliceError::Content` with `HeaderError::UnsupportedArpHardwareId`: the hardware type, which the error
    ///   names, is not one of `LinuxSllProtocolType::SUPPORTED_ARPHWD`.
    ///
    /// <details><summary>Contract</summary>
    ///
    /// ```text
    /// ensures bytes { IfOk result (λ p. p ≡ slice.now) }
    /// ensures accepted { IfOk result (λ p. Accepts sources.Slice slice.now kinds.LinuxSll) }
    /// ensures value { IfOk result (λ p. Means slice.now (headers.LinuxSll (linux_sll_of p))) }
    /// ensures refused { IfErr result (IsRefusedSll slice.now) }
    /// ensures short { IfErr result (λ e. OnLen e (λ _. length slice.now < 16)) }
    /// ```
    ///
    /// Words: [`Accepts`](crate::definitions::ether_base#def.Accepts), `sources` (`LenSource`),
    /// [`kinds.LinuxSll`](crate::definitions::ether_base#def.Kind),
    /// [`Means`](crate::definitions::ether_base#def.Means),
    /// [`headers.LinuxSll`](crate::definitions::ether_base#def.Header),
    /// [`linux_sll_of`](crate::definitions::ether_base#def.linux_sll_of),
    /// [`IsRefusedSll`](crate::definitions::ether_sll#def.IsRefusedSll),
    /// [`OnLen`](crate::definitions::ether_base#def.OnLen). [Notation](crate::definitions::notation)
    ///
    /// </details>
    #[inline]
    pub fn from_slice(slice: &'a [u8]) -> Result<LinuxSllSlice<'a>, HeaderSliceError> {
        linux_sll_fields::require_header(slice)?;
        Ok(LinuxSllSlice { slice })
    }

    /// All bytes of the packet.
    ///
    /// <details><summary>Contract</summary>
    ///
    /// ```text
    /// ensures { result.now ≡ self.now }
    /// ```
    ///
    /// [Notation](crate::definitions::notation)
    ///
    /// </details>
    #[must_use]
    #[inline]
    pub fn slice(&self) -> &'a [u8] {
        self.slice
    }

    /// The packet type: who sent the packet to whom.
    ///
    /// <details><summary>Contract</summary>
    ///
    /// ```text
    /// ensures { result ≡ (linux_sll_of self.now).packet_type }
    /// ```
    ///
    /// Words: [`linux_sll_of`](crate::definitions::ether_base#def.linux_sll_of).
    /// [Notation](crate::definitions::notation)
    ///
    /// </details>
    #[must_use]
    #[inline(always)]
    pub fn packet_type(&self) -> LinuxSllPacketType {
        linux_sll_fields::packet_type(self.slice)
    }

    /// The packet type as a number, 0 to 7.
    ///
    /// <details><summary>Contract</summary>
    ///
    /// ```text
    /// ensures { result ≡ (linux_sll_of self.now).packet_type }
    /// ```
    ///
    /// Words: [`linux_sll_of`](crate::definitions::ether_base#def.linux_sll_of).
    /// [Notation](crate::definitions::notation)
    ///
    /// </details>
    #[must_use]
    #[inline]
    pub fn packet_type_number(&self) -> u16 {
        linux_sll_fields::packet_type_number(self.slice)
    }

    /// The hardware type (ARPHRD_) of the device that the packet was seen on.
    ///
    /// <details><summary>Contract</summary>
    ///
    /// ```text
    /// ensures { result.0 ≡ (linux_sll_of self.now).hardware_type }
    /// ```
    ///
    /// Words: [`linux_sll_of`](crate::definitions::ether_base#def.linux_sll_of).
    /// [Notation](crate::definitions::notation)
    ///
    /// </details>
    #[must_use]
    #[inline]
    pub fn arp_hardware_type(&self) -> ArpHardwareId {
        linux_sll_fields::arp_hardware_type(self.slice)
    }

    /// The length of the sender's address in bytes. May exceed 8, though the field holds only 8 bytes.
    ///
    /// <details><summary>Contract</summary>
    ///
    /// ```text
    /// ensures { result ≡ (linux_sll_of self.now).address_len }
    /// ```
    ///
    /// Words: [`linux_sll_of`](crate::definitions::ether_base#def.linux_sll_of).
    /// [Notation](crate::definitions::notation)
    ///
    /// </details>
    #[must_use]
    #[inline]
    pub fn sender_address_valid_length(&self) -> u16 {
        linux_sll_fields::sender_address_valid_length(self.slice)
    }

    /// All 8 bytes of the address field: the sender's address, truncated or padded.
    ///
    /// <details><summary>Contract</summary>
    ///
    /// ```text
    /// ensures { result ≡ spelled 8 (linux_sll_of self.now).address }
    /// ```
    ///
    /// Words: [`spelled`](crate::definitions::ether_base#def.spelled),
    /// [`linux_sll_of`](crate::definitions::ether_base#def.linux_sll_of). [Notation](crate::definitions::notation)
    ///
    /// </details>
    #[must_use]
    #[inline]
    pub fn sender_address_full(&self) -> [u8; 8] {
        linux_sll_fields::sender_address_full(self.slice)
    }

    /// The sender's address, or its first 8 bytes if it is longer.
    ///
    /// <details><summary>Contract</summary>
    ///
    /// ```text
    /// ensures { result.now ≡ valid_address self.now }
    /// ```
    ///
    /// Words: [`valid_address`](crate::definitions::ether_sll#def.valid_address).
    /// [Notation](crate::definitions::notation)
    ///
    /// </details>
    #[must_use]
    #[inline]
    pub fn sender_address(&self) -> &'a [u8] {
        linux_sll_fields::sender_address(self.slice)
    }

    /// The protocol of the payload. The hardware type decides which variant its number has.
    ///
    /// <details><summary>Contract</summary>
    ///
    /// ```text
    /// ensures { result ≡ protocol_type_of_header self.now }
    /// ```
    ///
    /// Words: [`protocol_type_of_header`](crate::definitions::ether_sll#def.protocol_type_of_header).
    /// [Notation](crate::definitions::notation)
    ///
    /// </details>
    #[must_use]
    #[inline(always)]
    pub fn protocol_type(&self) -> LinuxSllProtocolType {
        linux_sll_fields::protocol_type(self.slice)
    }

    /// The protocol number, without the variant that the hardware type gives it.
    ///
    /// <details><summary>Contract</summary>
    ///
    /// ```text
    /// ensures { result ≡ (linux_sll_of self.now).protocol }
    /// ```
    ///
    /// Words: [`linux_sll_of`](crate::definitions::ether_base#def.linux_sll_of).
    /// [Notation](crate::definitions::notation)
    ///
    /// </details>
    #[must_use]
    #[inline]
    pub fn protocol_number(&self) -> u16 {
        linux_sll_fields::protocol_number(self.slice)
    }

    /// The 16 bytes of the header.
    ///
    /// <details><summary>Contract</summary>
    ///
    /// ```text
    /// ensures bytes { result.now ≡ slice_range self.now 0 16 }
    /// ensures len { length result.now ≡ 16 }
    /// ```
    ///
    /// [Notation](crate::definitions::notation)
    ///
    /// </details>
    #[must_use]
    #[inline]
    pub fn header_slice(&self) -> &[u8] {
        &self.slice[..LinuxSllHeader::LEN]
    }

    /// The header as a value.
    ///
    /// <details><summary>Contract</summary>
    ///
    /// ```text
    /// ensures view { linux_sll_view result ≡ linux_sll_of self.now }
    /// ensures protocol { result.protocol_type ≡ protocol_type_of_header self.now }
    /// ```
    ///
    /// Words: [`linux_sll_view`](crate::definitions::ether_sll#def.linux_sll_view),
    /// [`linux_sll_of`](crate::definitions::ether_base#def.linux_sll_of),
    /// [`protocol_type_of_header`](crate::definitions::ether_sll#def.protocol_type_of_header).
    /// [Notation](crate::definitions::notation)
    ///
    /// </details>
    #[must_use]
    #[inline]
    pub fn to_header(&self) -> LinuxSllHeader {
        linux_sll_fields::header(self.slice)
    }

    /// The payload and its protocol.
    ///
    /// <details><summary>Contract</summary>
    ///
    /// ```text
    /// ensures protocol { result.protocol_type ≡ protocol_type_of_header self.now }
    /// ensures bytes { result.payload.now ≡ slice_range self.now 16 (length self.now) }
    /// ```
    ///
    /// Words: [`protocol_type_of_header`](crate::definitions::ether_sll#def.protocol_type_of_header).
    /// [Notation](crate::definitions::notation)
    ///
    /// </details>
    #[must_use]
    #[inline]
    pub fn payload(&self) -> LinuxSllPayloadSlice<'a> {
        LinuxSllPayloadSlice {
            protocol_type: self.protocol_type(),
            payload: self.payload_slice(),
        }
    }

    /// The bytes of the payload.
    ///
    /// <details><summary>Contract</summary>
    ///
    /// ```text
    /// ensures { result.now ≡ slice_range self.now 16 (length self.now) }
    /// ```
    ///
    /// [Notation](crate::definitions::notation)
    ///
    /// </details>
    #[must_use]
    #[inline]
    pub fn payload_slice(&self) -> &'a [u8] {
        let slice = self.slice;
        &slice[LinuxSllHeader::LEN..]
    }

    /// The length of the header in bytes, which is [`LinuxSllHeader::LEN`].
    ///
    /// <details><summary>Contract</summary>
    ///
    /// ```text
    /// ensures { result ≡ 16 }
    /// ```
    ///
    /// [Notation](crate::definitions::notation)
    ///
    /// </details>
    #[must_use]
    #[inline]
    pub const fn header_len(&self) -> usize {
        LinuxSllHeader::LEN
    }
}

impl<'a> Clone for LinuxSllSlice<'a> {
    #[inline]
    fn clone(&self) -> Self {
        LinuxSllSlice { slice: self.slice }
    }
}

impl<'a> PartialEq for LinuxSllSlice<'a> {
    #[inline]
    fn eq(&self, other: &LinuxSllSlice<'a>) -> bool {
        self.slice == other.slice
    }
}

impl<'a> Eq for LinuxSllSlice<'a> {}

impl fmt::Debug for LinuxSllSlice<'_> {
    fn fmt(&self, f: &mut fmt::Formatter<'_>) -> fmt::Result {
        f.debug_struct("LinuxSllSlice")
            .field("header", &self.to_header())
            .field("payload", &self.payload())
            .finish()
    }
}
