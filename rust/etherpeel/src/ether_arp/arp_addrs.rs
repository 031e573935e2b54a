//! The bytes of an address. There are at most 255, since the size of an address is one byte on the wire (RFC 826,
//! "Packet format").

use arrayvec::ArrayVec;

/// Copies at most 255 bytes into an address.
///
/// # Panics
///
/// The call may panic, or return something else, if a `requires` of its contract is not met.
///
/// <details><summary>Contract</summary>
///
/// ```text
/// requires { length bytes.now ≤ 255 }
/// ensures items { result.items ≡ bytes.now }
/// ensures bytes { IsBytes result.items }
/// ```
///
/// Words: [`IsBytes`](crate::definitions::ether_base#def.IsBytes). [Notation](crate::definitions::notation)
///
/// </details>
#[must_use]
#[inline]
pub fn address(bytes: &[u8]) -> ArrayVec<u8, 255> {
    let mut address = ArrayVec::new();
    append(&mut address, bytes);
    address
}

/// Appends bytes to a list that has room for them.
///
/// # Panics
///
/// The call may panic, or return something else, if a `requires` of its contract is not met.
///
/// <details><summary>Contract</summary>
///
/// ```text
/// requires { length bytes.old.items + length part.now ≤ N }
/// ensures items { bytes.new.items ≡ bytes.old.items ++ part.now }
/// ensures len { length bytes.new.items ≡ length bytes.old.items + length part.now }
/// ```
///
/// [Notation](crate::definitions::notation)
///
/// </details>
#[inline]
pub fn append<const N: usize>(bytes: &mut ArrayVec<u8, N>, part: &[u8]) {
    bytes.try_extend_from_slice(part).unwrap();
}
