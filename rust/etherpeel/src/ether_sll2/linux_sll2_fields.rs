//! The fields of a header of Linux cooked capture v2 (LINKTYPE_LINUX_SLL2) in bytes that begin with one: protocol (2
//! bytes), reserved (2 bytes), interface index (4 bytes), ARPHRD_ type (2 bytes), packet type and length of the
//! sender's address (1 byte each), and the sender's address (8 bytes), in this order.

use crate::ether_sll2::{LinuxSll2Error, LinuxSll2Header};
use crate::ether_base::big_endian::{bytes_of_u64, u16_in, u32_in, u64_in};
use crate::ether_base::{
    ArpHardwareId, EtherType, LinuxNonstandardEtherType, LinuxSllPacketType, LinuxSllProtocolType,
};
use core::ops::Range;

/// The bytes of the protocol.
const PROTOCOL: Range<usize> = 0..2;

/// The bytes of the interface index.
const INTERFACE_INDEX: Range<usize> = 4..8;

/// The bytes of the ARPHRD_ type.
const HARDWARE_TYPE: Range<usize> = 8..10;

/// The byte of the packet type.
const PACKET_TYPE: usize = 10;

/// The byte of the length of the sender's address.
const ADDRESS_LENGTH: usize = 11;

/// Where the sender's address begins.
const ADDRESS: usize = 12;

/// Tests that a slice begins with a header whose packet type is supported. Errors are those of
/// `LinuxSll2Header::from_slice`.
///
/// <details><summary>Contract</summary>
///
/// ```text
/// ensures holds { IfOk result (λ _. HoldsLinuxSll2 slice.now) }
/// ensures refused { IfErr result (IsRefusedSll2 slice.now) }
/// ensures short { IfErr result (IsShort slice.now) }
/// ```
///
/// Words: [`HoldsLinuxSll2`](crate::definitions::ether_sll2#def.HoldsLinuxSll2),
/// [`IsRefusedSll2`](crate::definitions::ether_sll2#def.IsRefusedSll2),
/// [`IsShort`](crate::definitions::ether_sll2#def.IsShort). [Notation](crate::definitions::notation)
///
/// </details>
#[inline]
pub fn require_header(slice: &[u8]) -> Result<(), LinuxSll2Error> {
    if slice.len() < LinuxSll2Header::LEN {
        return Err(LinuxSll2Error::Len {
            required_len: LinuxSll2Header::LEN,
            len: slice.len(),
        });
    }
    require_packet_type(slice)
}

/// Tests that the packet type is at most 7. The error has the packet type.
///
/// # Panics
///
/// The call may panic, or return something else, if a `requires` of its contract is not met.
///
/// <details><summary>Contract</summary>
///
/// ```text
/// requires { 20 ≤ length bytes.now }
/// ensures holds { IfOk result (λ _. HoldsLinuxSll2 bytes.now) }
/// ensures refused { IfErr result (IsRefusedSll2 bytes.now) }
/// ensures short { IfErr result (IsShort bytes.now) }
/// ```
///
/// Words: [`HoldsLinuxSll2`](crate::definitions::ether_sll2#def.HoldsLinuxSll2),
/// [`IsRefusedSll2`](crate::definitions::ether_sll2#def.IsRefusedSll2),
/// [`IsShort`](crate::definitions::ether_sll2#def.IsShort). [Notation](crate::definitions::notation)
///
/// </details>
#[inline]
pub fn require_packet_type(bytes: &[u8]) -> Result<(), LinuxSll2Error> {
    let number = packet_type_number(bytes);
    match LinuxSllPacketType::try_from(u16::from(number)) {
        Ok(_) => Ok(()),
        Err(_) => Err(LinuxSll2Error::PacketType(number)),
    }
}

/// The protocol type, in the variant that the hardware type gives it.
///
/// # Panics
///
/// The call may panic, or return something else, if a `requires` of its contract is not met.
///
/// <details><summary>Contract</summary>
///
/// ```text
/// requires { 20 ≤ length bytes.now }
/// ensures { result ≡ protocol_of_header bytes.now }
/// ```
///
/// Words: [`protocol_of_header`](crate::definitions::ether_sll2#def.protocol_of_header).
/// [Notation](crate::definitions::notation)
///
/// </details>
#[must_use]
#[inline(always)]
pub fn protocol_type(bytes: &[u8]) -> LinuxSllProtocolType {
    protocol_type_on(arp_hardware_type(bytes), protocol_number(bytes))
}

/// The index of the interface on the capturing machine.
///
/// # Panics
///
/// The call may panic, or return something else, if a `requires` of its contract is not met.
///
/// <details><summary>Contract</summary>
///
/// ```text
/// requires { 20 ≤ length bytes.now }
/// ensures { result ≡ (linux_sll2_of bytes.now).interface_index }
/// ```
///
/// Words: [`linux_sll2_of`](crate::definitions::ether_sll2#def.linux_sll2_of).
/// [Notation](crate::definitions::notation)
///
/// </details>
#[must_use]
#[inline]
pub fn interface_index(bytes: &[u8]) -> u32 {
    u32_in(&bytes[INTERFACE_INDEX])
}

/// The ARPHRD_ type of the interface.
///
/// # Panics
///
/// The call may panic, or return something else, if a `requires` of its contract is not met.
///
/// <details><summary>Contract</summary>
///
/// ```text
/// requires { 20 ≤ length bytes.now }
/// ensures { result.0 ≡ (linux_sll2_of bytes.now).hardware_type }
/// ```
///
/// Words: [`linux_sll2_of`](crate::definitions::ether_sll2#def.linux_sll2_of).
/// [Notation](crate::definitions::notation)
///
/// </details>
#[must_use]
#[inline]
pub fn arp_hardware_type(bytes: &[u8]) -> ArpHardwareId {
    ArpHardwareId(u16_in(&bytes[HARDWARE_TYPE]))
}

/// The packet type as a number.
///
/// # Panics
///
/// The call may panic, or return something else, if a `requires` of its contract is not met.
///
/// <details><summary>Contract</summary>
///
/// ```text
/// requires { 20 ≤ length bytes.now }
/// ensures { result ≡ (linux_sll2_of bytes.now).packet_type }
/// ```
///
/// Words: [`linux_sll2_of`](crate::definitions::ether_sll2#def.linux_sll2_of).
/// [Notation](crate::definitions::notation)
///
/// </details>
#[must_use]
#[inline(always)]
pub fn packet_type_number(bytes: &[u8]) -> u8 {
    byte_at(bytes, PACKET_TYPE)
}

/// The protocol as a number.
///
/// # Panics
///
/// The call may panic, or return something else, if a `requires` of its contract is not met.
///
/// <details><summary>Contract</summary>
///
/// ```text
/// requires { 20 ≤ length bytes.now }
/// ensures { result ≡ (linux_sll2_of bytes.now).protocol }
/// ```
///
/// Words: [`linux_sll2_of`](crate::definitions::ether_sll2#def.linux_sll2_of).
/// [Notation](crate::definitions::notation)
///
/// </details>
#[must_use]
#[inline(always)]
pub fn protocol_number(bytes: &[u8]) -> u16 {
    u16_in(&bytes[PROTOCOL])
}

/// The packet type.
///
/// # Panics
///
/// The call may panic, or return something else, if a `requires` of its contract is not met.
///
/// <details><summary>Contract</summary>
///
/// ```text
/// requires { HoldsLinuxSll2 bytes.now }
/// ensures { result ≡ (linux_sll2_of bytes.now).packet_type }
/// ```
///
/// Words: [`HoldsLinuxSll2`](crate::definitions::ether_sll2#def.HoldsLinuxSll2),
/// [`linux_sll2_of`](crate::definitions::ether_sll2#def.linux_sll2_of). [Notation](crate::definitions::notation)
///
/// </details>
#[must_use]
#[inline(always)]
pub fn packet_type(bytes: &[u8]) -> LinuxSllPacketType {
    match LinuxSllPacketType::try_from(u16::from(packet_type_number(bytes))) {
        Ok(packet_type) => packet_type,
        Err(_) => unreachable!(),
    }
}

/// The length of the sender's address in bytes. May exceed 8, though the field holds only 8 bytes.
///
/// # Panics
///
/// The call may panic, or return something else, if a `requires` of its contract is not met.
///
/// <details><summary>Contract</summary>
///
/// ```text
/// requires { 20 ≤ length bytes.now }
/// ensures { result ≡ (linux_sll2_of bytes.now).address_len }
/// ```
///
/// Words: [`linux_sll2_of`](crate::definitions::ether_sll2#def.linux_sll2_of).
/// [Notation](crate::definitions::notation)
///
/// </details>
#[must_use]
#[inline]
pub fn sender_address_valid_length(bytes: &[u8]) -> u8 {
    byte_at(bytes, ADDRESS_LENGTH)
}

/// All 8 bytes of the address field: the sender's address, truncated or padded.
///
/// # Panics
///
/// The call may panic, or return something else, if a `requires` of its contract is not met.
///
/// <details><summary>Contract</summary>
///
/// ```text
/// requires { 20 ≤ length bytes.now }
/// ensures { result ≡ spelled 8 (linux_sll2_of bytes.now).address }
/// ```
///
/// Words: [`spelled`](crate::definitions::ether_base#def.spelled),
/// [`linux_sll2_of`](crate::definitions::ether_sll2#def.linux_sll2_of). [Notation](crate::definitions::notation)
///
/// </details>
#[must_use]
#[inline]
pub fn sender_address_full(bytes: &[u8]) -> [u8; 8] {
    bytes_of_u64(u64_in(&bytes[ADDRESS..ADDRESS + 8]))
}

/// The sender's address, or its first 8 bytes if it is longer.
///
/// # Panics
///
/// The call may panic, or return something else, if a `requires` of its contract is not met.
///
/// <details><summary>Contract</summary>
///
/// ```text
/// requires { 20 ≤ length bytes.now }
/// ensures { result.now ≡ valid_address bytes.now }
/// ```
///
/// Words: [`valid_address`](crate::definitions::ether_sll2#def.valid_address).
/// [Notation](crate::definitions::notation)
///
/// </details>
#[must_use]
#[inline]
pub fn sender_address(bytes: &[u8]) -> &[u8] {
    let valid = sender_address_valid_length(bytes);
    let len = if valid < 8 { usize::from(valid) } else { 8 };
    &bytes[ADDRESS..ADDRESS + len]
}

/// The header with all its fields.
///
/// # Panics
///
/// The call may panic, or return something else, if a `requires` of its contract is not met.
///
/// <details><summary>Contract</summary>
///
/// ```text
/// requires { HoldsLinuxSll2 bytes.now }
/// ensures view { linux_sll2_view result ≡ linux_sll2_of bytes.now }
/// ensures address { result.sender_address ≡ slice_range bytes.now 12 20 }
/// ensures protocol { result.protocol_type ≡ protocol_of_header bytes.now }
/// ensures bytes { IsBytes bytes.now }
/// ```
///
/// Words: [`HoldsLinuxSll2`](crate::definitions::ether_sll2#def.HoldsLinuxSll2),
/// [`linux_sll2_view`](crate::definitions::ether_sll2#def.linux_sll2_view),
/// [`linux_sll2_of`](crate::definitions::ether_sll2#def.linux_sll2_of),
/// [`protocol_of_header`](crate::definitions::ether_sll2#def.protocol_of_header),
/// [`IsBytes`](crate::definitions::ether_base#def.IsBytes). [Notation](crate::definitions::notation)
///
/// </details>
#[must_use]
#[inline]
pub fn header(bytes: &[u8]) -> LinuxSll2Header {
    LinuxSll2Header {
        protocol_type: protocol_type(bytes),
        interface_index: interface_index(bytes),
        arp_hrd_type: arp_hardware_type(bytes),
        packet_type: packet_type(bytes),
        sender_address_valid_length: sender_address_valid_length(bytes),
        sender_address: address(bytes),
    }
}

/// What a protocol number means on a link of this hardware type. Types other than netlink, GRE over IP, radiotap and
/// frame relay are treated like Ethernet.
#[inline]
fn protocol_type_on(hardware: ArpHardwareId, number: u16) -> LinuxSllProtocolType {
    match hardware {
        ArpHardwareId::NETLINK => LinuxSllProtocolType::NetlinkProtocolType(number),
        ArpHardwareId::IPGRE => {
            LinuxSllProtocolType::GenericRoutingEncapsulationProtocolType(number)
        }
        ArpHardwareId::IEEE80211_RADIOTAP => LinuxSllProtocolType::Ignored(number),
        ArpHardwareId::FRAD => LinuxSllProtocolType::Ignored(number),
        _ => on_ethernet(number),
    }
}

/// What a protocol number means on Ethernet: one that Linux numbers below the ether types, or an ether type.
#[inline]
fn on_ethernet(number: u16) -> LinuxSllProtocolType {
    match LinuxNonstandardEtherType::try_from(number) {
        Ok(ether_type) => LinuxSllProtocolType::LinuxNonstandardEtherType(ether_type),
        Err(()) => LinuxSllProtocolType::EtherType(EtherType(number)),
    }
}

/// The 8 bytes of the sender's address in their order on the wire.
#[inline]
fn address(bytes: &[u8]) -> [u8; 8] {
    sender_address_full(bytes)
}

/// The number in a field of one byte.
#[inline]
fn byte_at(bytes: &[u8], at: usize) -> u8 {
    bytes[at]
}
