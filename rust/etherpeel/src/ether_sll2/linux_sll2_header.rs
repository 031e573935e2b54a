//! The header of Linux cooked capture v2 as a value.

use crate::ether_sll2::{LinuxSll2Error, LinuxSll2HeaderSlice, linux_sll2_fields};
use crate::ether_base::big_endian::{bytes_of_u16, bytes_of_u32};
use crate::ether_base::{ArpHardwareId, LinuxSllPacketType, LinuxSllProtocolType};

/// The header of Linux cooked capture v2 (LINKTYPE_LINUX_SLL2), 20 bytes on the wire:
///
/// ```text
/// byte 0          2          4           8          10       11        12                 20
///      +----------+----------+-----------+----------+--------+---------+------------------+
///      | protocol | reserved | interface | hardware | packet | address | sender's address |
///      | type     |          | index     | type     | type   | length  |                  |
///      +----------+----------+-----------+----------+--------+---------+------------------+
/// ```
///
/// The reserved bytes are ignored when a header is read, and written as 0. Public fields are not checked against each
/// other.
///
/// ```
/// use etherpeel::{ArpHardwareId, EtherType, LinuxSllPacketType, LinuxSllProtocolType};
/// use etherpeel::ether_sll2::LinuxSll2Header;
///
/// let bytes = [
///     0x81, 0x00, 0x00, 0x00, 0x00, 0x00, 0x00, 0x03, 0x00, 0x01, 0x04, 0x06, // up to the address length
///     0x02, 0x00, 0x00, 0x00, 0x00, 0x01, 0x00, 0x00, // sender's address
/// ];
/// let header = LinuxSll2Header {
///     protocol_type: LinuxSllProtocolType::EtherType(EtherType::VLAN_TAGGED_FRAME),
///     interface_index: 3,
///     arp_hrd_type: ArpHardwareId::ETHERNET,
///     packet_type: LinuxSllPacketType::OUTGOING,
///     sender_address_valid_length: 6,
///     sender_address: [2, 0, 0, 0, 0, 1, 0, 0],
/// };
/// assert_eq!(LinuxSll2Header::from_bytes(bytes), Ok(header));
/// assert_eq!(header.to_bytes(), bytes);
/// ```
#[cfg_attr(feature = "serde", derive(serde::Serialize, serde::Deserialize))]
#[derive(Clone, Copy, PartialEq, Eq, Hash, Debug)]
pub struct LinuxSll2Header {
    /// The protocol of what follows the header. When a header is read, the hardware type decides which variant the
    /// number has.
    pub protocol_type: LinuxSllProtocolType,
    /// The index of the interface that the packet was seen on, as the capturing machine numbers its interfaces.
    pub interface_index: u32,
    /// The hardware type (ARPHRD_) of that interface.
    pub arp_hrd_type: ArpHardwareId,
    /// The packet type: who sent the packet to whom.
    pub packet_type: LinuxSllPacketType,
    /// The length of the sender's address in bytes. May exceed 8, though the field holds only 8 bytes.
    pub sender_address_valid_length: u8,
    /// The address field: the sender's address, truncated to 8 bytes or padded.
    pub sender_address: [u8; 8],
}

impl LinuxSll2Header {
    /// The length of the header in bytes.
    pub const LEN: usize = 20;

    /// Reads the header at the front of a slice, and returns it with the rest of the slice.
    ///
    /// # Errors
    ///
    /// The first of these that holds:
    ///
    /// - `LinuxSll2Error::Len`: the slice has fewer than 20 bytes. `required_len` is 20, `len` the slice's length.
    /// - `LinuxSll2Error::PacketType`: the packet type, which the error names, is above 7.
    ///
    /// No hardware type is refused.
    ///
    /// <details><summary>Contract</summary>
    ///
    /// ```text
    /// ensures accepted { IfOk result (λ answer. AcceptsLinuxSll2 slice.now) }
    /// ensures value { IfOk result (λ answer. BeginsLinuxSll2 slice.now (linux_sll2_view answer.0)) }
    /// ensures protocol { IfOk result
    ///     (λ answer. answer.0.protocol_type ≡ protocol_of_header slice.now) }
    /// ensures rest { IfOk result
    ///     (λ answer. answer.1.now ≡ slice_range slice.now 20 (length slice.now)) }
    /// ensures refused { IfErr result (IsRefusedSll2 slice.now) }
    /// ensures short { IfErr result (IsShort slice.now) }
    /// ```
    ///
    /// Words: [`AcceptsLinuxSll2`](crate::definitions::ether_sll2#def.AcceptsLinuxSll2),
    /// [`BeginsLinuxSll2`](crate::definitions::ether_sll2#def.BeginsLinuxSll2),
    /// [`linux_sll2_view`](crate::definitions::ether_sll2#def.linux_sll2_view),
    /// [`protocol_of_header`](crate::definitions::ether_sll2#def.protocol_of_header),
    /// [`IsRefusedSll2`](crate::definitions::ether_sll2#def.IsRefusedSll2),
    /// [`IsShort`](crate::definitions::ether_sll2#def.IsShort). [Notation](crate::definitions::notation)
    ///
    /// </details>
    #[inline]
    pub fn from_slice(slice: &[u8]) -> Result<(LinuxSll2Header, &[u8]), LinuxSll2Error> {
        let header = LinuxSll2HeaderSlice::from_slice(slice)?.to_header();
        Ok((header, &slice[LinuxSll2Header::LEN..]))
    }

    /// Reads the header from its 20 bytes.
    ///
    /// # Errors
    ///
    /// [`LinuxSll2Error::PacketType`] if the packet type, which the error names, is above 7.
    ///
    /// <details><summary>Contract</summary>
    ///
    /// ```text
    /// ensures answers { AnswersHeader bytes result }
    /// ensures inverse { IfOk result (λ h. linux_sll2_bytes (linux_sll2_view h) ≡ cleared bytes) }
    /// ```
    ///
    /// Words: [`AnswersHeader`](crate::definitions::ether_sll2#def.AnswersHeader),
    /// [`linux_sll2_bytes`](crate::definitions::ether_sll2#def.linux_sll2_bytes),
    /// [`linux_sll2_view`](crate::definitions::ether_sll2#def.linux_sll2_view),
    /// [`cleared`](crate::definitions::ether_sll2#def.cleared). [Notation](crate::definitions::notation)
    ///
    /// </details>
    #[inline]
    pub fn from_bytes(bytes: [u8; 20]) -> Result<LinuxSll2Header, LinuxSll2Error> {
        linux_sll2_fields::require_packet_type(&bytes)?;
        Ok(linux_sll2_fields::header(&bytes))
    }

    /// The length of the header in bytes, which is [`LinuxSll2Header::LEN`].
    ///
    /// <details><summary>Contract</summary>
    ///
    /// ```text
    /// ensures { result ≡ 20 }
    /// ```
    ///
    /// [Notation](crate::definitions::notation)
    ///
    /// </details>
    #[must_use]
    #[inline]
    pub fn header_len(&self) -> usize {
        LinuxSll2Header::LEN
    }

    /// The bytes of the header on the wire. The reserved ones are 0.
    ///
    /// They hold the number of the protocol type but not its variant. When they are read back, the hardware type
    /// decides the variant.
    ///
    /// <details><summary>Contract</summary>
    ///
    /// ```text
    /// ensures value { result ≡ linux_sll2_bytes (linux_sll2_view self.now) }
    /// ensures len { length result ≡ 20 }
    /// ensures fits { FitsLinuxSll2 (linux_sll2_view self.now) }
    /// ensures packet_type { self.now.packet_type ≤ 7 }
    /// ensures read_back { (r : Result LinuxSll2Header sll2_error) → AnswersHeader result r
    ///     → ((r ≡ Ok self.now) ↔ HasOwnType self.now) }
    /// ```
    ///
    /// Words: [`linux_sll2_bytes`](crate::definitions::ether_sll2#def.linux_sll2_bytes),
    /// [`linux_sll2_view`](crate::definitions::ether_sll2#def.linux_sll2_view),
    /// [`FitsLinuxSll2`](crate::definitions::ether_sll2#def.FitsLinuxSll2), `sll2_error` (`LinuxSll2Error`),
    /// [`AnswersHeader`](crate::definitions::ether_sll2#def.AnswersHeader),
    /// [`HasOwnType`](crate::definitions::ether_sll2#def.HasOwnType). [Notation](crate::definitions::notation)
    ///
    /// </details>
    #[must_use]
    #[inline]
    pub fn to_bytes(&self) -> [u8; 20] {
        joined(
            u16::from(self.protocol_type),
            self.interface_index,
            self.arp_hrd_type.0,
            u16::from(self.packet_type) as u8,
            self.sender_address_valid_length,
            &self.sender_address,
        )
    }
}

/// The 20 bytes of a header with these numbers and this address of 8 bytes. The reserved ones are 0.
#[inline]
fn joined(
    protocol: u16,
    interface_index: u32,
    hardware: u16,
    packet_type: u8,
    address_len: u8,
    address: &[u8],
) -> [u8; 20] {
    let p = bytes_of_u16(protocol);
    let i = bytes_of_u32(interface_index);
    let h = bytes_of_u16(hardware);
    let a = address;
    [
        p[0],
        p[1],
        0,
        0,
        i[0],
        i[1],
        i[2],
        i[3],
        h[0],
        h[1],
        packet_type,
        address_len,
        a[0],
        a[1],
        a[2],
        a[3],
        a[4],
        a[5],
        a[6],
        a[7],
    ]
}
