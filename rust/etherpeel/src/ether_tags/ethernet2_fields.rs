//! The fields of an Ethernet II header in bytes that begin with one (IEEE 802.3, 3.1.1): destination address, source
//! address and type, in this order.

use crate::ether_tags::Ethernet2Header;
use crate::ether_base::EtherType;
use crate::ether_base::big_endian::u16_in;
use core::ops::Range;

/// The bytes of the destination address.
const DESTINATION: Range<usize> = 0..6;

/// The bytes of the source address.
const SOURCE: Range<usize> = 6..12;

/// The bytes of the type.
const ETHER_TYPE: Range<usize> = 12..14;

/// The destination MAC address (IEEE 802.3, 3.2.4).
///
/// # Panics
///
/// The call may panic, or return something else, if a `requires` of its contract is not met.
///
/// <details><summary>Contract</summary>
///
/// ```text
/// requires { 14 ≤ length bytes.now }
/// ensures { result ≡ spelled 6 (ethernet2_of bytes.now).destination }
/// ```
///
/// Words: [`spelled`](crate::definitions::ether_base#def.spelled),
/// [`ethernet2_of`](crate::definitions::ether_base#def.ethernet2_of). [Notation](crate::definitions::notation)
///
/// </details>
#[must_use]
#[inline]
pub fn destination(bytes: &[u8]) -> [u8; 6] {
    address_at(bytes, DESTINATION)
}

/// The source MAC address (IEEE 802.3, 3.2.5).
///
/// # Panics
///
/// The call may panic, or return something else, if a `requires` of its contract is not met.
///
/// <details><summary>Contract</summary>
///
/// ```text
/// requires { 14 ≤ length bytes.now }
/// ensures { result ≡ spelled 6 (ethernet2_of bytes.now).source }
/// ```
///
/// Words: [`spelled`](crate::definitions::ether_base#def.spelled),
/// [`ethernet2_of`](crate::definitions::ether_base#def.ethernet2_of). [Notation](crate::definitions::notation)
///
/// </details>
#[must_use]
#[inline]
pub fn source(bytes: &[u8]) -> [u8; 6] {
    address_at(bytes, SOURCE)
}

/// The ether type, which is a length if it is at most 1500 (IEEE 802.3, 3.2.6).
///
/// # Panics
///
/// The call may panic, or return something else, if a `requires` of its contract is not met.
///
/// <details><summary>Contract</summary>
///
/// ```text
/// requires { 14 ≤ length bytes.now }
/// ensures { result.0 ≡ (ethernet2_of bytes.now).ether_type }
/// ```
///
/// Words: [`ethernet2_of`](crate::definitions::ether_base#def.ethernet2_of).
/// [Notation](crate::definitions::notation)
///
/// </details>
#[must_use]
#[inline]
pub fn ether_type(bytes: &[u8]) -> EtherType {
    EtherType(u16_in(&bytes[ETHER_TYPE]))
}

/// The header with all its fields.
///
/// # Panics
///
/// The call may panic, or return something else, if a `requires` of its contract is not met.
///
/// <details><summary>Contract</summary>
///
/// ```text
/// requires { 14 ≤ length bytes.now }
/// ensures fields { result ≡ ethernet2_header_of bytes.now }
/// ensures value { ethernet2_view result ≡ ethernet2_of bytes.now }
/// ensures bytes { IsBytes bytes.now }
/// ```
///
/// Words: [`ethernet2_header_of`](crate::definitions::ether_tags#def.ethernet2_header_of),
/// [`ethernet2_view`](crate::definitions::ether_tags#def.ethernet2_view),
/// [`ethernet2_of`](crate::definitions::ether_base#def.ethernet2_of),
/// [`IsBytes`](crate::definitions::ether_base#def.IsBytes). [Notation](crate::definitions::notation)
///
/// </details>
#[must_use]
#[inline(always)]
pub fn header(bytes: &[u8]) -> Ethernet2Header {
    Ethernet2Header {
        source: address_at(bytes, SOURCE),
        destination: address_at(bytes, DESTINATION),
        ether_type: ether_type(bytes),
    }
}

/// Whether two headers have the same bytes. They are compared as arrays of 8, 4 and 2 bytes, each in one piece; slices
/// would be compared by a call.
///
/// # Panics
///
/// The call may panic, or return something else, if a `requires` of its contract is not met.
///
/// <details><summary>Contract</summary>
///
/// ```text
/// requires first { length a.now ≡ 14 }
/// requires second { length b.now ≡ 14 }
/// ensures { result ≡ pointwise ◌==◌ a.now b.now }
/// ```
///
/// [Notation](crate::definitions::notation)
///
/// </details>
#[must_use]
#[inline]
pub fn are_same(a: &[u8], b: &[u8]) -> bool {
    [a[0], a[1], a[2], a[3], a[4], a[5], a[6], a[7]]
        == [b[0], b[1], b[2], b[3], b[4], b[5], b[6], b[7]]
        && [a[8], a[9], a[10], a[11]] == [b[8], b[9], b[10], b[11]]
        && [a[12], a[13]] == [b[12], b[13]]
}

/// The six bytes of an address, in their order on the wire.
#[inline]
fn address_at(bytes: &[u8], field: Range<usize>) -> [u8; 6] {
    let address = &bytes[field];
    [
        address[0], address[1], address[2], address[3], address[4], address[5],
    ]
}
