//! The fields of an ARP packet in the bytes that begin with it (RFC 826, "Packet format"): hardware type, protocol
//! type, the two sizes and the operation in eight bytes, then the addresses of the sender and those of the target.

use crate::ether_base::big_endian::u16_in;
use crate::ether_base::err::{Layer, LenError};
use crate::ether_base::slice_len::too_short;
use crate::ether_base::{ArpHardwareId, ArpOperation, EtherType, LenSource};
use core::ops::Range;

/// The bytes of the hardware type.
const HARDWARE_TYPE: Range<usize> = 0..2;

/// The bytes of the protocol type.
const PROTOCOL_TYPE: Range<usize> = 2..4;

/// The byte with the size of a hardware address.
const HARDWARE_SIZE: usize = 4;

/// The byte with the size of a protocol address.
const PROTOCOL_SIZE: usize = 5;

/// The bytes of the operation.
const OPERATION: Range<usize> = 6..8;

/// The length of the part before the addresses, in bytes.
const FRONT_LEN: usize = 8;

/// The bytes of the packet that a slice begins with, 8 to 1028. Errors are those of `ArpPacketSlice::from_slice`.
///
/// <details><summary>Contract</summary>
///
/// ```text
/// ensures bytes { IfOk result
///     (λ packet. packet.now ≡ slice_range slice.now 0 (arp_len (arp_front_in slice.now))) }
/// ensures begins { IfOk result (λ _. BeginsWithArp slice.now) }
/// ensures refused { IfErr result (IsRefusedLen slice.now kinds.Arp) }
/// ensures short { IfErr result (λ e. length slice.now < e.required_len) }
/// ```
///
/// Words: [`arp_len`](crate::definitions::ether_base#def.arp_len),
/// [`arp_front_in`](crate::definitions::ether_base#def.arp_front_in),
/// [`BeginsWithArp`](crate::definitions::ether_arp#def.BeginsWithArp),
/// [`IsRefusedLen`](crate::definitions::ether_base#def.IsRefusedLen),
/// [`kinds.Arp`](crate::definitions::ether_base#def.Kind). [Notation](crate::definitions::notation)
///
/// </details>
#[inline]
pub fn packet(slice: &[u8]) -> Result<&[u8], LenError> {
    if slice.len() < FRONT_LEN {
        return Err(too_short(FRONT_LEN, slice.len(), LenSource::Slice, Layer::Arp));
    }
    let required_len = packet_len(slice);
    if slice.len() < required_len {
        return Err(too_short(
            required_len,
            slice.len(),
            LenSource::ArpAddrLengths,
            Layer::Arp,
        ));
    }
    Ok(&slice[..required_len])
}

/// The length of the packet in bytes, from the two sizes: 8 to 1028.
#[inline]
fn packet_len(packet: &[u8]) -> usize {
    FRONT_LEN + 2 * usize::from(hw_addr_size(packet)) + 2 * usize::from(proto_addr_size(packet))
}

/// The hardware type.
///
/// # Panics
///
/// The call may panic, or return something else, if a `requires` of its contract is not met.
///
/// <details><summary>Contract</summary>
///
/// ```text
/// requires { 8 ≤ length packet.now }
/// ensures { result.0 ≡ (arp_front_in packet.now).hardware_type }
/// ```
///
/// Words: [`arp_front_in`](crate::definitions::ether_base#def.arp_front_in).
/// [Notation](crate::definitions::notation)
///
/// </details>
#[must_use]
#[inline]
pub fn hw_addr_type(packet: &[u8]) -> ArpHardwareId {
    ArpHardwareId(u16_in(&packet[HARDWARE_TYPE]))
}

/// The protocol type.
///
/// # Panics
///
/// The call may panic, or return something else, if a `requires` of its contract is not met.
///
/// <details><summary>Contract</summary>
///
/// ```text
/// requires { 8 ≤ length packet.now }
/// ensures { result.0 ≡ (arp_front_in packet.now).protocol_type }
/// ```
///
/// Words: [`arp_front_in`](crate::definitions::ether_base#def.arp_front_in).
/// [Notation](crate::definitions::notation)
///
/// </details>
#[must_use]
#[inline]
pub fn proto_addr_type(packet: &[u8]) -> EtherType {
    EtherType(u16_in(&packet[PROTOCOL_TYPE]))
}

/// The size of a hardware address in bytes.
///
/// # Panics
///
/// The call may panic, or return something else, if a `requires` of its contract is not met.
///
/// <details><summary>Contract</summary>
///
/// ```text
/// requires { 8 ≤ length packet.now }
/// ensures { result ≡ (arp_front_in packet.now).hardware_size }
/// ```
///
/// Words: [`arp_front_in`](crate::definitions::ether_base#def.arp_front_in).
/// [Notation](crate::definitions::notation)
///
/// </details>
#[must_use]
#[inline]
pub fn hw_addr_size(packet: &[u8]) -> u8 {
    packet[HARDWARE_SIZE]
}

/// The size of a protocol address in bytes.
///
/// # Panics
///
/// The call may panic, or return something else, if a `requires` of its contract is not met.
///
/// <details><summary>Contract</summary>
///
/// ```text
/// requires { 8 ≤ length packet.now }
/// ensures { result ≡ (arp_front_in packet.now).protocol_size }
/// ```
///
/// Words: [`arp_front_in`](crate::definitions::ether_base#def.arp_front_in).
/// [Notation](crate::definitions::notation)
///
/// </details>
#[must_use]
#[inline]
pub fn proto_addr_size(packet: &[u8]) -> u8 {
    packet[PROTOCOL_SIZE]
}

/// The operation.
///
/// # Panics
///
/// The call may panic, or return something else, if a `requires` of its contract is not met.
///
/// <details><summary>Contract</summary>
///
/// ```text
/// requires { 8 ≤ length packet.now }
/// ensures { result.0 ≡ (arp_front_in packet.now).operation }
/// ```
///
/// Words: [`arp_front_in`](crate::definitions::ether_base#def.arp_front_in).
/// [Notation](crate::definitions::notation)
///
/// </details>
#[must_use]
#[inline]
pub fn operation(packet: &[u8]) -> ArpOperation {
    ArpOperation(u16_in(&packet[OPERATION]))
}

/// The sender's hardware address.
///
/// # Panics
///
/// The call may panic, or return something else, if a `requires` of its contract is not met.
///
/// <details><summary>Contract</summary>
///
/// ```text
/// requires { BeginsWithArp packet.now }
/// ensures address { result.now ≡ (arp_of packet.now).sender_hardware }
/// ensures len { length result.now ≡ (arp_front_in packet.now).hardware_size }
/// ensures fits { length result.now ≤ 255 }
/// ```
///
/// Words: [`BeginsWithArp`](crate::definitions::ether_arp#def.BeginsWithArp),
/// [`arp_of`](crate::definitions::ether_base#def.arp_of),
/// [`arp_front_in`](crate::definitions::ether_base#def.arp_front_in). [Notation](crate::definitions::notation)
///
/// </details>
#[must_use]
#[inline]
pub fn sender_hw_addr(packet: &[u8]) -> &[u8] {
    let hardware = usize::from(hw_addr_size(packet));
    &packet[FRONT_LEN..FRONT_LEN + hardware]
}

/// The sender's protocol address.
///
/// # Panics
///
/// The call may panic, or return something else, if a `requires` of its contract is not met.
///
/// <details><summary>Contract</summary>
///
/// ```text
/// requires { BeginsWithArp packet.now }
/// ensures address { result.now ≡ (arp_of packet.now).sender_protocol }
/// ensures len { length result.now ≡ (arp_front_in packet.now).protocol_size }
/// ensures fits { length result.now ≤ 255 }
/// ```
///
/// Words: [`BeginsWithArp`](crate::definitions::ether_arp#def.BeginsWithArp),
/// [`arp_of`](crate::definitions::ether_base#def.arp_of),
/// [`arp_front_in`](crate::definitions::ether_base#def.arp_front_in). [Notation](crate::definitions::notation)
///
/// </details>
#[must_use]
#[inline]
pub fn sender_protocol_addr(packet: &[u8]) -> &[u8] {
    let start = FRONT_LEN + usize::from(hw_addr_size(packet));
    &packet[start..start + usize::from(proto_addr_size(packet))]
}

/// The target's hardware address.
///
/// # Panics
///
/// The call may panic, or return something else, if a `requires` of its contract is not met.
///
/// <details><summary>Contract</summary>
///
/// ```text
/// requires { BeginsWithArp packet.now }
/// ensures address { result.now ≡ (arp_of packet.now).target_hardware }
/// ensures len { length result.now ≡ (arp_front_in packet.now).hardware_size }
/// ensures fits { length result.now ≤ 255 }
/// ```
///
/// Words: [`BeginsWithArp`](crate::definitions::ether_arp#def.BeginsWithArp),
/// [`arp_of`](crate::definitions::ether_base#def.arp_of),
/// [`arp_front_in`](crate::definitions::ether_base#def.arp_front_in). [Notation](crate::definitions::notation)
///
/// </details>
#[must_use]
#[inline]
pub fn target_hw_addr(packet: &[u8]) -> &[u8] {
    let hardware = usize::from(hw_addr_size(packet));
    let start = FRONT_LEN + hardware + usize::from(proto_addr_size(packet));
    &packet[start..start + hardware]
}

/// The target's protocol address.
///
/// # Panics
///
/// The call may panic, or return something else, if a `requires` of its contract is not met.
///
/// <details><summary>Contract</summary>
///
/// ```text
/// requires { BeginsWithArp packet.now }
/// ensures address { result.now ≡ (arp_of packet.now).target_protocol }
/// ensures len { length result.now ≡ (arp_front_in packet.now).protocol_size }
/// ensures fits { length result.now ≤ 255 }
/// ```
///
/// Words: [`BeginsWithArp`](crate::definitions::ether_arp#def.BeginsWithArp),
/// [`arp_of`](crate::definitions::ether_base#def.arp_of),
/// [`arp_front_in`](crate::definitions::ether_base#def.arp_front_in). [Notation](crate::definitions::notation)
///
/// </details>
#[must_use]
#[inline]
pub fn target_protocol_addr(packet: &[u8]) -> &[u8] {
    let protocol = usize::from(proto_addr_size(packet));
    let start = FRONT_LEN + 2 * usize::from(hw_addr_size(packet)) + protocol;
    &packet[start..start + protocol]
}
