//! Numbers of a fixed width and their bytes: the first byte is the most significant one, as on the wire.

/// The number of two bytes: `u16_of([0x88, 0xA8])` is `0x88A8`.
///
/// <details><summary>Contract</summary>
///
/// ```text
/// ensures value { result ≡ number bytes }
/// ensures bytes { IsBytes bytes }
/// ```
///
/// Words: [`number`](crate::definitions::ether_base#def.number),
/// [`IsBytes`](crate::definitions::ether_base#def.IsBytes). [Notation](crate::definitions::notation)
///
/// </details>
#[must_use]
#[inline]
pub fn u16_of(bytes: [u8; 2]) -> u16 {
    u16::from_be_bytes(bytes)
}

/// The number of four bytes: `u32_of([192, 0, 2, 1])` is `3_221_225_985`.
///
/// <details><summary>Contract</summary>
///
/// ```text
/// ensures value { result ≡ number bytes }
/// ensures bytes { IsBytes bytes }
/// ```
///
/// Words: [`number`](crate::definitions::ether_base#def.number),
/// [`IsBytes`](crate::definitions::ether_base#def.IsBytes). [Notation](crate::definitions::notation)
///
/// </details>
#[must_use]
#[inline]
pub fn u32_of(bytes: [u8; 4]) -> u32 {
    u32::from_be_bytes(bytes)
}

/// The number of eight bytes: `u64_of([0, 0, 0, 0, 0, 0, 1, 2])` is `258`.
///
/// <details><summary>Contract</summary>
///
/// ```text
/// ensures value { result ≡ number bytes }
/// ensures bytes { IsBytes bytes }
/// ```
///
/// Words: [`number`](crate::definitions::ether_base#def.number),
/// [`IsBytes`](crate::definitions::ether_base#def.IsBytes). [Notation](crate::definitions::notation)
///
/// </details>
#[must_use]
#[inline]
pub fn u64_of(bytes: [u8; 8]) -> u64 {
    u64::from_be_bytes(bytes)
}

/// Returns the number of the two bytes of a field: `u16_in(&[0x88, 0xA8])` is `0x88A8`. Of a longer slice it is the
/// number of the first two bytes, of a shorter one the number of all its bytes, which is 0 if there are none.
///
/// <details><summary>Contract</summary>
///
/// ```text
/// ensures value { result ≡ number (take 2 field.now) }
/// ensures field { length field.now ≤ 2 → result ≡ number field.now }
/// ```
///
/// Words: [`number`](crate::definitions::ether_base#def.number). [Notation](crate::definitions::notation)
///
/// </details>
#[must_use]
#[inline(always)]
pub fn u16_in(field: &[u8]) -> u16 {
    match field.first_chunk() {
        Some(bytes) => u16_of(*bytes),
        None => number_of(field) as u16,
    }
}

/// Returns the number of the four bytes of a field, of the first four of a longer slice, or of all of a shorter one.
///
/// <details><summary>Contract</summary>
///
/// ```text
/// ensures value { result ≡ number (take 4 field.now) }
/// ensures field { length field.now ≤ 4 → result ≡ number field.now }
/// ```
///
/// Words: [`number`](crate::definitions::ether_base#def.number). [Notation](crate::definitions::notation)
///
/// </details>
#[must_use]
#[inline(always)]
pub fn u32_in(field: &[u8]) -> u32 {
    match field.first_chunk() {
        Some(bytes) => u32_of(*bytes),
        None => number_of(field) as u32,
    }
}

/// Returns the number of the eight bytes of a field, of the first eight of a longer slice, or of all of a shorter one.
///
/// <details><summary>Contract</summary>
///
/// ```text
/// ensures value { result ≡ number (take 8 field.now) }
/// ensures field { length field.now ≤ 8 → result ≡ number field.now }
/// ```
///
/// Words: [`number`](crate::definitions::ether_base#def.number). [Notation](crate::definitions::notation)
///
/// </details>
#[must_use]
#[inline(always)]
pub fn u64_in(field: &[u8]) -> u64 {
    match field.first_chunk() {
        Some(bytes) => u64_of(*bytes),
        None => number_of(field),
    }
}

/// Returns the number of the two bytes from offset `at` on: `u16_at(&[0x45, 0x88, 0xA8], 1)` is `0x88A8`. If the
/// slice ends before `at + 2`, it is the number of the bytes that are left, which is 0 if there are none.
///
/// <details><summary>Contract</summary>
///
/// ```text
/// ensures { result ≡ number (slice_range bytes.now at (at + 2)) }
/// ```
///
/// Words: [`number`](crate::definitions::ether_base#def.number). [Notation](crate::definitions::notation)
///
/// </details>
#[must_use]
#[inline(always)]
pub fn u16_at(bytes: &[u8], at: usize) -> u16 {
    match array_at(bytes, at) {
        Some(array) => u16_of(array),
        None => number_from(bytes, at) as u16,
    }
}

/// Returns the number of the four bytes from offset `at` on. If the slice ends before `at + 4`, it is the number of
/// the bytes that are left, which is 0 if there are none.
///
/// <details><summary>Contract</summary>
///
/// ```text
/// ensures { result ≡ number (slice_range bytes.now at (at + 4)) }
/// ```
///
/// Words: [`number`](crate::definitions::ether_base#def.number). [Notation](crate::definitions::notation)
///
/// </details>
#[must_use]
#[inline(always)]
pub fn u32_at(bytes: &[u8], at: usize) -> u32 {
    match array_at(bytes, at) {
        Some(array) => u32_of(array),
        None => number_from(bytes, at) as u32,
    }
}

/// Returns the number of the eight bytes from offset `at` on. If the slice ends before `at + 8`, it is the number of
/// the bytes that are left, which is 0 if there are none.
///
/// <details><summary>Contract</summary>
///
/// ```text
/// ensures { result ≡ number (slice_range bytes.now at (at + 8)) }
/// ```
///
/// Words: [`number`](crate::definitions::ether_base#def.number). [Notation](crate::definitions::notation)
///
/// </details>
#[must_use]
#[inline(always)]
pub fn u64_at(bytes: &[u8], at: usize) -> u64 {
    match array_at(bytes, at) {
        Some(array) => u64_of(array),
        None => number_from(bytes, at),
    }
}

/// Returns the `N` bytes from offset `at` on, or `None` if the slice ends before `at + N`.
///
/// <details><summary>Contract</summary>
///
/// ```text
/// ensures some { IfSome result (λ array. array ≡ slice_range bytes.now at (at + N)) }
/// ensures within { IfSome result (λ _. at + N ≤ length bytes.now) }
/// ensures none { IfNone result (length bytes.now < at + N) }
/// ```
///
/// [Notation](crate::definitions::notation)
///
/// </details>
#[must_use]
#[inline(always)]
pub fn array_at<const N: usize>(bytes: &[u8], at: usize) -> Option<[u8; N]> {
    match bytes.get(at..) {
        Some(rest) => rest.first_chunk::<N>().copied(),
        None => None,
    }
}

/// Returns the number of all bytes from offset `at` on. They are fewer than eight, and perhaps none.
#[inline(never)]
fn number_from(bytes: &[u8], at: usize) -> u64 {
    match bytes.get(at..) {
        Some(rest) => number_of(rest),
        None => 0,
    }
}

/// Returns the number of a slice, which has fewer than eight bytes.
#[inline]
fn number_of(bytes: &[u8]) -> u64 {
    let mut number = 0;
    for byte in bytes {
        number = 256 * number + u64::from(*byte);
    }
    number
}

/// The two bytes of a number: `bytes_of_u16(0x88A8)` is `[0x88, 0xA8]`.
///
/// <details><summary>Contract</summary>
///
/// ```text
/// ensures { result ≡ spelled 2 number }
/// ```
///
/// Words: [`spelled`](crate::definitions::ether_base#def.spelled). [Notation](crate::definitions::notation)
///
/// </details>
#[must_use]
#[inline]
pub fn bytes_of_u16(number: u16) -> [u8; 2] {
    number.to_be_bytes()
}

/// The four bytes of a number: `bytes_of_u32(258)` is `[0, 0, 1, 2]`.
///
/// <details><summary>Contract</summary>
///
/// ```text
/// ensures { result ≡ spelled 4 number }
/// ```
///
/// Words: [`spelled`](crate::definitions::ether_base#def.spelled). [Notation](crate::definitions::notation)
///
/// </details>
#[must_use]
#[inline]
pub fn bytes_of_u32(number: u32) -> [u8; 4] {
    number.to_be_bytes()
}

/// The eight bytes of a number: `bytes_of_u64(258)` is `[0, 0, 0, 0, 0, 0, 1, 2]`.
///
/// <details><summary>Contract</summary>
///
/// ```text
/// ensures { result ≡ spelled 8 number }
/// ```
///
/// Words: [`spelled`](crate::definitions::ether_base#def.spelled). [Notation](crate::definitions::notation)
///
/// </details>
#[must_use]
#[inline]
pub fn bytes_of_u64(number: u64) -> [u8; 8] {
    number.to_be_bytes()
}
