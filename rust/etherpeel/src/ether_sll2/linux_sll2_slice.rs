//! A view of a packet of Linux cooked capture v2.

use crate::ether_sll2::{LinuxSll2Error, LinuxSll2Header, linux_sll2_fields};
use crate::ether_base::{ArpHardwareId, EtherType, LinuxSllPacketType, LinuxSllProtocolType};
use crate::ether_peel::Start;
use crate::ether_tags::LinuxSllPayloadSlice;
use core::fmt;

/// A view of a packet of Linux cooked capture v2 (LINKTYPE_LINUX_SLL2): a header ([`LinuxSll2Header`] has a picture of
/// it) and its payload, which `ether_peel` walks. The packet type of a view is always a supported one.
///
/// Two views are equal if their bytes are equal, including the reserved ones, wherever they are in memory.
///
/// ```
/// use etherpeel::ether_peel::{Peel, PeelUnit};
/// use etherpeel::ether_sll2::LinuxSll2Slice;
///
/// # fn main() -> Result<(), Box<dyn std::error::Error>> {
/// let bytes = [
///     0x81, 0x00, 0x00, 0x00, 0x00, 0x00, 0x00, 0x03, 0x00, 0x01, 0x04, 0x06, // up to the address length
///     0x02, 0x00, 0x00, 0x00, 0x00, 0x01, 0x00, 0x00, // sender's address
///     0xB1, 0x23, 0x08, 0x00, // VLAN
///     0x45,
/// ];
/// let packet = LinuxSll2Slice::from_slice(&bytes)?;
/// assert_eq!(packet.interface_index(), 3);
/// assert_eq!(packet.payload_slice(), &bytes[20..]);
/// if let Some(start) = packet.start() {
///     let mut peel = Peel::new(start, packet.payload_slice());
///     assert!(matches!(peel.next(), Some(Ok(PeelUnit::Vlan(_)))));
/// }
/// # Ok(())
/// # }
/// ```
pub struct LinuxSll2Slice<'a> {
    slice: &'a [u8],
}

impl<'a> LinuxSll2Slice<'a> {
    /// Borrows the packet in a slice. The payload reaches to the end of the slice.
    ///
    /// # Errors
    ///
    /// The first of these that holds:
    ///
    /// - `LinuxSll2Error::Len`: the slice has fewer than 20 bytes. `required_len` is 20, `len` the slice's length.
    /// - `LinuxSll2Error::PacketType`: the packet type, which the error names, is above 7.
    ///
    /// No hardware type is refused.
    ///
    /// <details><summary>Contract</summary>
    ///
    /// ```text
    /// ensures bytes { IfOk result (λ p. p ≡ slice.now) }
    /// ensures accepted { IfOk result (λ p. AcceptsLinuxSll2 slice.now) }
    /// ensures value { IfOk result (λ p. BeginsLinuxSll2 slice.now (linux_sll2_of p)) }
    /// ensures refused { IfErr result (IsRefusedSll2 slice.now) }
    /// ensures short { IfErr result (IsShort slice.now) }
    /// ```
    ///
    /// Words: [`AcceptsLinuxSll2`](crate::definitions::ether_sll2#def.AcceptsLinuxSll2),
    /// [`BeginsLinuxSll2`](crate::definitions::ether_sll2#def.BeginsLinuxSll2),
    /// [`linux_sll2_of`](crate::definitions::ether_sll2#def.linux_sll2_of),
    /// [`IsRefusedSll2`](crate::definitions::ether_sll2#def.IsRefusedSll2),
    /// [`IsShort`](crate::definitions::ether_sll2#def.IsShort). [Notation](crate::definitions::notation)
    ///
    /// </details>
    #[inline]
    pub fn from_slice(slice: &'a [u8]) -> Result<LinuxSll2Slice<'a>, LinuxSll2Error> {
        linux_sll2_fields::require_header(slice)?;
        Ok(LinuxSll2Slice { slice })
    }

    /// All bytes of the packet.
    ///
    /// <details><summary>Contract</summary>
    ///
    /// ```text
    /// ensures { result.now ≡ self.now }
    /// ```
    ///
    /// [Notation](crate::definitions::notation)
    ///
    /// </details>
    #[must_use]
    #[inline]
    pub fn slice(&self) -> &'a [u8] {
        self.slice
    }

    /// The protocol of the payload. The hardware type decides which variant its number has.
    ///
    /// <details><summary>Contract</summary>
    ///
    /// ```text
    /// ensures { result ≡ protocol_of_header self.now }
    /// ```
    ///
    /// Words: [`protocol_of_header`](crate::definitions::ether_sll2#def.protocol_of_header).
    /// [Notation](crate::definitions::notation)
    ///
    /// </details>
    #[must_use]
    #[inline(always)]
    pub fn protocol_type(&self) -> LinuxSllProtocolType {
        linux_sll2_fields::protocol_type(self.slice)
    }

    /// The protocol number, without the variant that the hardware type gives it.
    ///
    /// <details><summary>Contract</summary>
    ///
    /// ```text
    /// ensures { result ≡ (linux_sll2_of self.now).protocol }
    /// ```
    ///
    /// Words: [`linux_sll2_of`](crate::definitions::ether_sll2#def.linux_sll2_of).
    /// [Notation](crate::definitions::notation)
    ///
    /// </details>
    #[must_use]
    #[inline]
    pub fn protocol_number(&self) -> u16 {
        linux_sll2_fields::protocol_number(self.slice)
    }

    /// The index of the interface that the packet was seen on, as the capturing machine numbers its interfaces.
    ///
    /// <details><summary>Contract</summary>
    ///
    /// ```text
    /// ensures { result ≡ (linux_sll2_of self.now).interface_index }
    /// ```
    ///
    /// Words: [`linux_sll2_of`](crate::definitions::ether_sll2#def.linux_sll2_of).
    /// [Notation](crate::definitions::notation)
    ///
    /// </details>
    #[must_use]
    #[inline]
    pub fn interface_index(&self) -> u32 {
        linux_sll2_fields::interface_index(self.slice)
    }

    /// The hardware type (ARPHRD_) of that interface.
    ///
    /// <details><summary>Contract</summary>
    ///
    /// ```text
    /// ensures { result.0 ≡ (linux_sll2_of self.now).hardware_type }
    /// ```
    ///
    /// Words: [`linux_sll2_of`](crate::definitions::ether_sll2#def.linux_sll2_of).
    /// [Notation](crate::definitions::notation)
    ///
    /// </details>
    #[must_use]
    #[inline]
    pub fn arp_hardware_type(&self) -> ArpHardwareId {
        linux_sll2_fields::arp_hardware_type(self.slice)
    }

    /// The packet type: who sent the packet to whom.
    ///
    /// <details><summary>Contract</summary>
    ///
    /// ```text
    /// ensures { result ≡ (linux_sll2_of self.now).packet_type }
    /// ```
    ///
    /// Words: [`linux_sll2_of`](crate::definitions::ether_sll2#def.linux_sll2_of).
    /// [Notation](crate::definitions::notation)
    ///
    /// </details>
    #[must_use]
    #[inline(always)]
    pub fn packet_type(&self) -> LinuxSllPacketType {
        linux_sll2_fields::packet_type(self.slice)
    }

    /// The packet type as a number, 0 to 7.
    ///
    /// <details><summary>Contract</summary>
    ///
    /// ```text
    /// ensures { result ≡ (linux_sll2_of self.now).packet_type }
    /// ```
    ///
    /// Words: [`linux_sll2_of`](crate::definitions::ether_sll2#def.linux_sll2_of).
    /// [Notation](crate::definitions::notation)
    ///
    /// </details>
    #[must_use]
    #[inline]
    pub fn packet_type_number(&self) -> u8 {
        linux_sll2_fields::packet_type_number(self.slice)
    }

    /// The length of the sender's address in bytes. May exceed 8, though the field holds only 8 bytes.
    ///
    /// <details><summary>Contract</summary>
    ///
    /// ```text
    /// ensures { result ≡ (linux_sll2_of self.now).address_len }
    /// ```
    ///
    /// Words: [`linux_sll2_of`](crate::definitions::ether_sll2#def.linux_sll2_of).
    /// [Notation](crate::definitions::notation)
    ///
    /// </details>
    #[must_use]
    #[inline]
    pub fn sender_address_valid_length(&self) -> u8 {
        linux_sll2_fields::sender_address_valid_length(self.slice)
    }

    /// All 8 bytes of the address field: the sender's address, truncated or padded.
    ///
    /// <details><summary>Contract</summary>
    ///
    /// ```text
    /// ensures { result ≡ spelled 8 (linux_sll2_of self.now).address }
    /// ```
    ///
    /// Words: [`spelled`](crate::definitions::ether_base#def.spelled),
    /// [`linux_sll2_of`](crate::definitions::ether_sll2#def.linux_sll2_of). [Notation](crate::definitions::notation)
    ///
    /// </details>
    #[must_use]
    #[inline]
    pub fn sender_address_full(&self) -> [u8; 8] {
        linux_sll2_fields::sender_address_full(self.slice)
    }

    /// The sender's address, or its first 8 bytes if it is longer.
    ///
    /// <details><summary>Contract</summary>
    ///
    /// ```text
    /// ensures { result.now ≡ valid_address self.now }
    /// ```
    ///
    /// Words: [`valid_address`](crate::definitions::ether_sll2#def.valid_address).
    /// [Notation](crate::definitions::notation)
    ///
    /// </details>
    #[must_use]
    #[inline]
    pub fn sender_address(&self) -> &'a [u8] {
        linux_sll2_fields::sender_address(self.slice)
    }

    /// The 20 bytes of the header.
    ///
    /// <details><summary>Contract</summary>
    ///
    /// ```text
    /// ensures bytes { result.now ≡ slice_range self.now 0 20 }
    /// ensures len { length result.now ≡ 20 }
    /// ```
    ///
    /// [Notation](crate::definitions::notation)
    ///
    /// </details>
    #[must_use]
    #[inline]
    pub fn header_slice(&self) -> &[u8] {
        &self.slice[..LinuxSll2Header::LEN]
    }

    /// The length of the header in bytes, which is [`LinuxSll2Header::LEN`].
    ///
    /// <details><summary>Contract</summary>
    ///
    /// ```text
    /// ensures { result ≡ 20 }
    /// ```
    ///
    /// [Notation](crate::definitions::notation)
    ///
    /// </details>
    #[must_use]
    #[inline]
    pub fn header_len(&self) -> usize {
        LinuxSll2Header::LEN
    }

    /// The header as a value.
    ///
    /// <details><summary>Contract</summary>
    ///
    /// ```text
    /// ensures view { linux_sll2_view result ≡ linux_sll2_of self.now }
    /// ensures protocol { result.protocol_type ≡ protocol_of_header self.now }
    /// ```
    ///
    /// Words: [`linux_sll2_view`](crate::definitions::ether_sll2#def.linux_sll2_view),
    /// [`linux_sll2_of`](crate::definitions::ether_sll2#def.linux_sll2_of),
    /// [`protocol_of_header`](crate::definitions::ether_sll2#def.protocol_of_header).
    /// [Notation](crate::definitions::notation)
    ///
    /// </details>
    #[must_use]
    #[inline]
    pub fn to_header(&self) -> LinuxSll2Header {
        linux_sll2_fields::header(self.slice)
    }

    /// The payload and its protocol.
    ///
    /// <details><summary>Contract</summary>
    ///
    /// ```text
    /// ensures protocol { result.protocol_type ≡ protocol_of_header self.now }
    /// ensures bytes { result.payload.now ≡ slice_range self.now 20 (length self.now) }
    /// ```
    ///
    /// Words: [`protocol_of_header`](crate::definitions::ether_sll2#def.protocol_of_header).
    /// [Notation](crate::definitions::notation)
    ///
    /// </details>
    #[must_use]
    #[inline]
    pub fn payload(&self) -> LinuxSllPayloadSlice<'a> {
        LinuxSllPayloadSlice {
            protocol_type: self.protocol_type(),
            payload: self.payload_slice(),
        }
    }

    /// The bytes of the payload.
    ///
    /// <details><summary>Contract</summary>
    ///
    /// ```text
    /// ensures { result.now ≡ slice_range self.now 20 (length self.now) }
    /// ```
    ///
    /// [Notation](crate::definitions::notation)
    ///
    /// </details>
    #[must_use]
    #[inline]
    pub fn payload_slice(&self) -> &'a [u8] {
        let slice = self.slice;
        &slice[LinuxSll2Header::LEN..]
    }

    /// What a walk through [`payload_slice`](Self::payload_slice) starts with, to be passed to `Peel::new` and the
    /// other calls that take a [`Start`]. `None` if the protocol is a netlink, GRE or ignored one.
    ///
    /// A number that Linux has below the ether types is used as an ether type, as after cooked capture v1, and
    /// announces nothing. Offsets of the walk count from the start of the payload.
    ///
    /// <details><summary>Contract</summary>
    ///
    /// ```text
    /// ensures { result ≡ start_in self.now }
    /// ```
    ///
    /// Words: [`start_in`](crate::definitions::ether_sll2#def.start_in). [Notation](crate::definitions::notation)
    ///
    /// </details>
    #[must_use]
    #[inline]
    pub fn start(&self) -> Option<Start> {
        match self.protocol_type() {
            LinuxSllProtocolType::EtherType(ether_type) => Some(Start::EtherType(ether_type)),
            LinuxSllProtocolType::LinuxNonstandardEtherType(number) => {
                Some(Start::EtherType(EtherType(u16::from(number))))
            }
            _ => None,
        }
    }
}

impl<'a> Clone for LinuxSll2Slice<'a> {
    #[inline]
    fn clone(&self) -> Self {
        LinuxSll2Slice { slice: self.slice }
    }
}

impl<'a> PartialEq for LinuxSll2Slice<'a> {
    #[inline]
    fn eq(&self, other: &LinuxSll2Slice<'a>) -> bool {
        self.slice == other.slice
    }
}

impl<'a> Eq for LinuxSll2Slice<'a> {}

impl fmt::Debug for LinuxSll2Slice<'_> {
    fn fmt(&self, f: &mut fmt::Formatter<'_>) -> fmt::Result {
        f.debug_struct("LinuxSll2Slice")
            .field("header", &self.to_header())
            .field("payload", &self.payload())
            .finish()
    }
}
