//! The fields of a MACsec SecTag in bytes that begin with one (IEEE 802.1AE, 9.3). Byte 0 is the TCI (9.5) with the
//! bits V, ES, SC, SCB, E and C, and the association number (2 bits, 9.6). Byte 1 is two reserved bits and the short
//! length (6 bits, 9.7). The packet number (4 bytes, 9.8) follows, then the SCI (8 bytes, 9.9) if SC is set, and then
//! the ether type of the user data if E and C are clear.

use crate::ether_tags::{MacsecHeader, MacsecPType};
use crate::ether_base::big_endian::{u16_in, u32_in, u64_in};
use crate::ether_base::{EtherType, MacsecAn, MacsecShortLen};
use core::ops::Range;

/// The byte with the TCI and the association number.
const TCI_AN: usize = 0;

/// The byte with the short length.
const SHORT_LENGTH: usize = 1;

/// The bytes of the packet number.
const PACKET_NUMBER: Range<usize> = 2..6;

/// The bytes of the SCI, if the tag has one.
const SCI: Range<usize> = 6..14;

/// The bit of the version in the first byte.
const V: u32 = 7;

/// The bit of the end station.
const ES: u32 = 6;

/// The bit that says whether there is an SCI.
const SC: u32 = 5;

/// The bit of the single copy broadcast.
const SCB: u32 = 4;

/// The bit of encryption.
const E: u32 = 3;

/// The bit of changed text.
const C: u32 = 2;

/// The first byte, with the TCI and the association number.
///
/// # Panics
///
/// The call may panic, or return something else, if a `requires` of its contract is not met.
///
/// <details><summary>Contract</summary>
///
/// ```text
/// requires { 2 ≤ length bytes.now }
/// ensures { result ≡ slice_index bytes.now 0 }
/// ```
///
/// [Notation](crate::definitions::notation)
///
/// </details>
#[must_use]
#[inline]
pub fn tci_an(bytes: &[u8]) -> u8 {
    bytes[TCI_AN]
}

/// Whether the version bit V is set.
///
/// # Panics
///
/// The call may panic, or return something else, if a `requires` of its contract is not met.
///
/// <details><summary>Contract</summary>
///
/// ```text
/// requires { 2 ≤ length bytes.now }
/// ensures { bit result ≡ (sec_tag_front_in bytes.now).version }
/// ```
///
/// Words: [`bit`](crate::definitions::ether_base#def.bit),
/// [`sec_tag_front_in`](crate::definitions::ether_base#def.sec_tag_front_in).
/// [Notation](crate::definitions::notation)
///
/// </details>
#[must_use]
#[inline]
pub fn has_version_one(bytes: &[u8]) -> bool {
    is_set(bytes, V)
}

/// Whether the end station bit ES is set.
///
/// # Panics
///
/// The call may panic, or return something else, if a `requires` of its contract is not met.
///
/// <details><summary>Contract</summary>
///
/// ```text
/// requires { 2 ≤ length bytes.now }
/// ensures { bit result ≡ (sec_tag_front_in bytes.now).end_station }
/// ```
///
/// Words: [`bit`](crate::definitions::ether_base#def.bit),
/// [`sec_tag_front_in`](crate::definitions::ether_base#def.sec_tag_front_in).
/// [Notation](crate::definitions::notation)
///
/// </details>
#[must_use]
#[inline]
pub fn endstation_id(bytes: &[u8]) -> bool {
    is_set(bytes, ES)
}

/// Whether the bit SC is set: the tag has an SCI.
///
/// # Panics
///
/// The call may panic, or return something else, if a `requires` of its contract is not met.
///
/// <details><summary>Contract</summary>
///
/// ```text
/// requires { 2 ≤ length bytes.now }
/// ensures { bit result ≡ (sec_tag_front_in bytes.now).sci_present }
/// ```
///
/// Words: [`bit`](crate::definitions::ether_base#def.bit),
/// [`sec_tag_front_in`](crate::definitions::ether_base#def.sec_tag_front_in).
/// [Notation](crate::definitions::notation)
///
/// </details>
#[must_use]
#[inline]
pub fn sci_present(bytes: &[u8]) -> bool {
    is_set(bytes, SC)
}

/// Whether the single copy broadcast bit SCB is set.
///
/// # Panics
///
/// The call may panic, or return something else, if a `requires` of its contract is not met.
///
/// <details><summary>Contract</summary>
///
/// ```text
/// requires { 2 ≤ length bytes.now }
/// ensures { bit result ≡ (sec_tag_front_in bytes.now).single_copy_broadcast }
/// ```
///
/// Words: [`bit`](crate::definitions::ether_base#def.bit),
/// [`sec_tag_front_in`](crate::definitions::ether_base#def.sec_tag_front_in).
/// [Notation](crate::definitions::notation)
///
/// </details>
#[must_use]
#[inline]
pub fn tci_scb(bytes: &[u8]) -> bool {
    is_set(bytes, SCB)
}

/// Whether the bit E is set: the user data is encrypted.
///
/// # Panics
///
/// The call may panic, or return something else, if a `requires` of its contract is not met.
///
/// <details><summary>Contract</summary>
///
/// ```text
/// requires { 2 ≤ length bytes.now }
/// ensures { bit result ≡ (sec_tag_front_in bytes.now).encrypted }
/// ```
///
/// Words: [`bit`](crate::definitions::ether_base#def.bit),
/// [`sec_tag_front_in`](crate::definitions::ether_base#def.sec_tag_front_in).
/// [Notation](crate::definitions::notation)
///
/// </details>
#[must_use]
#[inline]
pub fn encrypted(bytes: &[u8]) -> bool {
    is_set(bytes, E)
}

/// Whether the bit C is set: the user data is changed.
///
/// # Panics
///
/// The call may panic, or return something else, if a `requires` of its contract is not met.
///
/// <details><summary>Contract</summary>
///
/// ```text
/// requires { 2 ≤ length bytes.now }
/// ensures { bit result ≡ (sec_tag_front_in bytes.now).changed }
/// ```
///
/// Words: [`bit`](crate::definitions::ether_base#def.bit),
/// [`sec_tag_front_in`](crate::definitions::ether_base#def.sec_tag_front_in).
/// [Notation](crate::definitions::notation)
///
/// </details>
#[must_use]
#[inline]
pub fn userdata_changed(bytes: &[u8]) -> bool {
    is_set(bytes, C)
}

/// The association number AN.
///
/// # Panics
///
/// The call may panic, or return something else, if a `requires` of its contract is not met.
///
/// <details><summary>Contract</summary>
///
/// ```text
/// requires { 2 ≤ length bytes.now }
/// ensures { result ≡ (sec_tag_front_in bytes.now).association_number }
/// ```
///
/// Words: [`sec_tag_front_in`](crate::definitions::ether_base#def.sec_tag_front_in).
/// [Notation](crate::definitions::notation)
///
/// </details>
#[must_use]
#[inline]
pub fn association_number(bytes: &[u8]) -> MacsecAn {
    MacsecAn::try_new(bytes[TCI_AN] & 0x03).unwrap()
}

/// The short length SL.
///
/// # Panics
///
/// The call may panic, or return something else, if a `requires` of its contract is not met.
///
/// <details><summary>Contract</summary>
///
/// ```text
/// requires { 2 ≤ length bytes.now }
/// ensures { result ≡ (sec_tag_front_in bytes.now).short_len }
/// ```
///
/// Words: [`sec_tag_front_in`](crate::definitions::ether_base#def.sec_tag_front_in).
/// [Notation](crate::definitions::notation)
///
/// </details>
#[must_use]
#[inline]
pub fn short_len(bytes: &[u8]) -> MacsecShortLen {
    MacsecShortLen::try_from_u8(bytes[SHORT_LENGTH] & 0x3f).unwrap()
}

/// The packet number PN.
///
/// # Panics
///
/// The call may panic, or return something else, if a `requires` of its contract is not met.
///
/// <details><summary>Contract</summary>
///
/// ```text
/// requires { 6 ≤ length bytes.now }
/// ensures { result ≡ (sec_tag_of bytes.now).packet_number }
/// ```
///
/// Words: [`sec_tag_of`](crate::definitions::ether_base#def.sec_tag_of). [Notation](crate::definitions::notation)
///
/// </details>
#[must_use]
#[inline]
pub fn packet_nr(bytes: &[u8]) -> u32 {
    u32_in(&bytes[PACKET_NUMBER])
}

/// The secure channel identifier SCI, if SC is set.
///
/// # Panics
///
/// The call may panic, or return something else, if a `requires` of its contract is not met.
///
/// <details><summary>Contract</summary>
///
/// ```text
/// requires { sec_tag_len (sec_tag_front_in bytes.now) ≤ length bytes.now }
/// ensures { result ≡ (sec_tag_of bytes.now).sci }
/// ```
///
/// Words: [`sec_tag_len`](crate::definitions::ether_base#def.sec_tag_len),
/// [`sec_tag_front_in`](crate::definitions::ether_base#def.sec_tag_front_in),
/// [`sec_tag_of`](crate::definitions::ether_base#def.sec_tag_of). [Notation](crate::definitions::notation)
///
/// </details>
#[must_use]
#[inline]
pub fn sci(bytes: &[u8]) -> Option<u64> {
    if sci_present(bytes) {
        Some(u64_in(&bytes[SCI]))
    } else {
        None
    }
}

/// Whether the user data is encrypted and changed, and its ether type if it is neither. The bytes are those of the tag
/// alone, so that the ether type is at their end.
///
/// # Panics
///
/// The call may panic, or return something else, if a `requires` of its contract is not met.
///
/// <details><summary>Contract</summary>
///
/// ```text
/// requires { length bytes.now ≡ sec_tag_len (sec_tag_front_in bytes.now) }
/// ensures { payload_type_view result ≡ (sec_tag_of bytes.now).payload_type }
/// ```
///
/// Words: [`sec_tag_len`](crate::definitions::ether_base#def.sec_tag_len),
/// [`sec_tag_front_in`](crate::definitions::ether_base#def.sec_tag_front_in),
/// [`payload_type_view`](crate::definitions::ether_tags#def.payload_type_view),
/// [`sec_tag_of`](crate::definitions::ether_base#def.sec_tag_of). [Notation](crate::definitions::notation)
///
/// </details>
#[must_use]
#[inline]
pub fn ptype(bytes: &[u8]) -> MacsecPType {
    match (encrypted(bytes), userdata_changed(bytes)) {
        (false, false) => {
            let at = bytes.len() - 2;
            MacsecPType::Unmodified(EtherType(u16_in(&bytes[at..])))
        }
        (false, true) => MacsecPType::Modified,
        (true, false) => MacsecPType::EncryptedUnmodified,
        (true, true) => MacsecPType::Encrypted,
    }
}

/// Whether E and C are clear, so that the ether type of the user data follows the tag.
///
/// # Panics
///
/// The call may panic, or return something else, if a `requires` of its contract is not met.
///
/// <details><summary>Contract</summary>
///
/// ```text
/// requires { 2 ≤ length bytes.now }
/// ensures { IsTrue result ↔ IsUnmodified (sec_tag_front_in bytes.now) }
/// ```
///
/// Words: [`IsUnmodified`](crate::definitions::ether_tags#def.IsUnmodified),
/// [`sec_tag_front_in`](crate::definitions::ether_base#def.sec_tag_front_in).
/// [Notation](crate::definitions::notation)
///
/// </details>
#[must_use]
#[inline]
pub fn is_unmodified(bytes: &[u8]) -> bool {
    !encrypted(bytes) && !userdata_changed(bytes)
}

/// Whether an ether type follows the tag, and the short length, which counts its 2 bytes, is only 1.
///
/// # Panics
///
/// The call may panic, or return something else, if a `requires` of its contract is not met.
///
/// <details><summary>Contract</summary>
///
/// ```text
/// requires { 2 ≤ length bytes.now }
/// ensures { IsTrue result ↔ IsTooShort (sec_tag_front_in bytes.now) }
/// ```
///
/// Words: [`IsTooShort`](crate::definitions::ether_base#def.IsTooShort),
/// [`sec_tag_front_in`](crate::definitions::ether_base#def.sec_tag_front_in).
/// [Notation](crate::definitions::notation)
///
/// </details>
#[must_use]
#[inline]
pub fn is_too_short(bytes: &[u8]) -> bool {
    is_unmodified(bytes) && short_len(bytes).value() == 1
}

/// The length of the tag in bytes, with the ether type after it, 6 to 16.
///
/// # Panics
///
/// The call may panic, or return something else, if a `requires` of its contract is not met.
///
/// <details><summary>Contract</summary>
///
/// ```text
/// requires { 2 ≤ length bytes.now }
/// ensures { result ≡ sec_tag_len (sec_tag_front_in bytes.now) }
/// ```
///
/// Words: [`sec_tag_len`](crate::definitions::ether_base#def.sec_tag_len),
/// [`sec_tag_front_in`](crate::definitions::ether_base#def.sec_tag_front_in).
/// [Notation](crate::definitions::notation)
///
/// </details>
#[must_use]
#[inline]
pub fn header_len(bytes: &[u8]) -> usize {
    tag_len(sci_present(bytes), is_unmodified(bytes))
}

/// The length in bytes of the payload, without the ether type after the tag. `None` if the short length names none.
///
/// # Panics
///
/// The call may panic, or return something else, if a `requires` of its contract is not met.
///
/// <details><summary>Contract</summary>
///
/// ```text
/// requires { 2 ≤ length bytes.now }
/// ensures { result ≡ known_payload_len (sec_tag_front_in bytes.now) }
/// ```
///
/// Words: [`known_payload_len`](crate::definitions::ether_base#def.known_payload_len),
/// [`sec_tag_front_in`](crate::definitions::ether_base#def.sec_tag_front_in).
/// [Notation](crate::definitions::notation)
///
/// </details>
#[must_use]
#[inline]
pub fn expected_payload_len(bytes: &[u8]) -> Option<usize> {
    payload_len(short_len(bytes), is_unmodified(bytes))
}

/// The length of a tag in bytes: 6, and 8 for an SCI and 2 for an ether type if it has them.
///
/// <details><summary>Contract</summary>
///
/// ```text
/// ensures { result ≡ 6 + 8 * bit has_sci + 2 * bit is_unmodified }
/// ```
///
/// Words: [`bit`](crate::definitions::ether_base#def.bit). [Notation](crate::definitions::notation)
///
/// </details>
#[must_use]
#[inline]
pub fn tag_len(has_sci: bool, is_unmodified: bool) -> usize {
    let sci = if has_sci { 8 } else { 0 };
    let ether_type = if is_unmodified { 2 } else { 0 };
    MacsecHeader::MIN_LEN + sci + ether_type
}

/// The length in bytes of the payload that a short length names. The short length counts the ether type after the tag
/// too. `None` if it is 0, or 1 with such an ether type.
///
/// <details><summary>Contract</summary>
///
/// ```text
/// ensures { result ≡ known_len (2 * bit is_unmodified) short_len }
/// ```
///
/// Words: [`known_len`](crate::definitions::ether_base#def.known_len),
/// [`bit`](crate::definitions::ether_base#def.bit). [Notation](crate::definitions::notation)
///
/// </details>
#[must_use]
#[inline]
pub fn payload_len(short_len: MacsecShortLen, is_unmodified: bool) -> Option<usize> {
    let named = usize::from(short_len.value());
    let ether_type = if is_unmodified { 2 } else { 0 };
    if named > 0 && named >= ether_type {
        Some(named - ether_type)
    } else {
        None
    }
}

/// Whether bit `power` of the first byte is set.
#[inline]
fn is_set(bytes: &[u8], power: u32) -> bool {
    bit_of(bytes[TCI_AN], power)
}

/// Whether bit `power` of a byte is set. Bit 0 is the least significant one.
#[inline]
fn bit_of(byte: u8, power: u32) -> bool {
    byte >> power & 1 == 1
}
