//! The fields of a header of Linux cooked capture v1 (LINKTYPE_LINUX_SLL) in bytes that begin with one: packet type,
//! ARPHRD_ type, length of the sender's address (2 bytes each), sender's address (8 bytes) and protocol (2 bytes), in
//! this order. The public functions also read a header that the views refuse. If bytes of a field are missing, they
//! read the others.

use crate::ether_sll::LinuxSllHeader;
use crate::ether_base::big_endian::{bytes_of_u64, u16_at, u64_at};
use crate::ether_base::err::Layer;
use crate::ether_base::err::linux_sll::{HeaderError, HeaderSliceError};
use crate::ether_base::slice_len::too_short;
use crate::ether_base::{ArpHardwareId, LenSource, LinuxSllPacketType, LinuxSllProtocolType};

/// Where the packet type begins.
const PACKET_TYPE: usize = 0;

/// Where the ARPHRD_ type begins.
const HARDWARE_TYPE: usize = 2;

/// Where the length of the sender's address begins.
const ADDRESS_LENGTH: usize = 4;

/// Where the sender's address begins.
const ADDRESS: usize = 6;

/// Where the protocol begins.
const PROTOCOL: usize = 14;

/// Tests that a slice begins with a header whose packet type and hardware type are supported. Errors are those of
/// `LinuxSllHeader::from_slice`.
#[inline]
pub(in crate::ether_sll) fn require_header(slice: &[u8]) -> Result<(), HeaderSliceError> {
    if slice.len() < LinuxSllHeader::LEN {
        return Err(HeaderSliceError::Len(too_short(
            LinuxSllHeader::LEN,
            slice.len(),
            LenSource::Slice,
            Layer::LinuxSllHeader,
        )));
    }
    match require_content(slice) {
        Ok(()) => Ok(()),
        Err(error) => Err(HeaderSliceError::Content(error)),
    }
}

/// Tests that the packet type is supported, and then that the hardware type is. The error names the number.
#[inline]
pub(in crate::ether_sll) fn require_content(bytes: &[u8]) -> Result<(), HeaderError> {
    LinuxSllPacketType::try_from(packet_type_number(bytes))?;
    LinuxSllProtocolType::try_from((arp_hardware_type(bytes), protocol_number(bytes)))?;
    Ok(())
}

/// The packet type.
#[inline(always)]
pub(in crate::ether_sll) fn packet_type(bytes: &[u8]) -> LinuxSllPacketType {
    match LinuxSllPacketType::try_from(packet_type_number(bytes)) {
        Ok(packet_type) => packet_type,
        Err(_) => unreachable!(),
    }
}

/// The ARPHRD_ type of the device.
///
/// <details><summary>Contract</summary>
///
/// ```text
/// ensures { result.0 ≡ (linux_sll_of bytes.now).hardware_type }
/// ```
///
/// Words: [`linux_sll_of`](crate::definitions::ether_base#def.linux_sll_of).
/// [Notation](crate::definitions::notation)
///
/// </details>
#[must_use]
#[inline(always)]
pub fn arp_hardware_type(bytes: &[u8]) -> ArpHardwareId {
    ArpHardwareId(u16_at(bytes, HARDWARE_TYPE))
}

/// The length of the sender's address in bytes. May exceed 8, though the field holds only 8 bytes.
///
/// <details><summary>Contract</summary>
///
/// ```text
/// ensures { result ≡ (linux_sll_of bytes.now).address_len }
/// ```
///
/// Words: [`linux_sll_of`](crate::definitions::ether_base#def.linux_sll_of).
/// [Notation](crate::definitions::notation)
///
/// </details>
#[must_use]
#[inline]
pub fn sender_address_valid_length(bytes: &[u8]) -> u16 {
    u16_at(bytes, ADDRESS_LENGTH)
}

/// The 8 bytes of the sender's address, used or not.
///
/// <details><summary>Contract</summary>
///
/// ```text
/// ensures { result ≡ spelled 8 (linux_sll_of bytes.now).address }
/// ```
///
/// Words: [`spelled`](crate::definitions::ether_base#def.spelled),
/// [`linux_sll_of`](crate::definitions::ether_base#def.linux_sll_of). [Notation](crate::definitions::notation)
///
/// </details>
#[must_use]
#[inline]
pub fn sender_address_full(bytes: &[u8]) -> [u8; 8] {
    bytes_of_u64(u64_at(bytes, ADDRESS))
}

/// The sender's address, or its first 8 bytes if it is longer.
#[inline]
pub(in crate::ether_sll) fn sender_address(bytes: &[u8]) -> &[u8] {
    let valid = sender_address_valid_length(bytes);
    let len = if valid < 8 { usize::from(valid) } else { 8 };
    &bytes[ADDRESS..ADDRESS + len]
}

/// The protocol type, in the variant that the hardware type gives it.
#[inline(always)]
pub(in crate::ether_sll) fn protocol_type(bytes: &[u8]) -> LinuxSllProtocolType {
    match LinuxSllProtocolType::try_from((arp_hardware_type(bytes), protocol_number(bytes))) {
        Ok(protocol_type) => protocol_type,
        Err(_) => unreachable!(),
    }
}

/// The header with all its fields.
#[inline]
pub(in crate::ether_sll) fn header(bytes: &[u8]) -> LinuxSllHeader {
    LinuxSllHeader {
        packet_type: packet_type(bytes),
        arp_hrd_type: arp_hardware_type(bytes),
        sender_address_valid_length: sender_address_valid_length(bytes),
        sender_address: address(bytes),
        protocol_type: protocol_type(bytes),
    }
}

/// The packet type as a number.
///
/// <details><summary>Contract</summary>
///
/// ```text
/// ensures { result ≡ (linux_sll_of bytes.now).packet_type }
/// ```
///
/// Words: [`linux_sll_of`](crate::definitions::ether_base#def.linux_sll_of).
/// [Notation](crate::definitions::notation)
///
/// </details>
#[must_use]
#[inline(always)]
pub fn packet_type_number(bytes: &[u8]) -> u16 {
    u16_at(bytes, PACKET_TYPE)
}

/// The protocol as a number.
///
/// <details><summary>Contract</summary>
///
/// ```text
/// ensures { result ≡ (linux_sll_of bytes.now).protocol }
/// ```
///
/// Words: [`linux_sll_of`](crate::definitions::ether_base#def.linux_sll_of).
/// [Notation](crate::definitions::notation)
///
/// </details>
#[must_use]
#[inline(always)]
pub fn protocol_number(bytes: &[u8]) -> u16 {
    u16_at(bytes, PROTOCOL)
}

/// The 8 bytes of the sender's address in their order on the wire.
#[inline]
fn address(bytes: &[u8]) -> [u8; 8] {
    sender_address_full(bytes)
}
