//! Writes addresses and other bytes as hexadecimal digits.

use etherpeel::ether_output::digit_pair;

/// The twelve digits of a MAC address, in lower case.
///
/// <details><summary>Contract</summary>
///
/// ```text
/// ensures text { result ≡ hex_text address }
/// ensures pairs { result ≡ hex_byte false (slice_index address 0)
///     ++ (hex_byte false (slice_index address 1) ++ (hex_byte false (slice_index address 2)
///     ++ (hex_byte false (slice_index address 3) ++ (hex_byte false (slice_index address 4)
///     ++ hex_byte false (slice_index address 5))))) }
/// ```
///
/// </details>
#[inline(always)]
pub fn hex_address(address: [u8; 6]) -> [u8; 12] {
    let a = digit_pair(address[0]);
    let b = digit_pair(address[1]);
    let c = digit_pair(address[2]);
    let d = digit_pair(address[3]);
    let e = digit_pair(address[4]);
    let f = digit_pair(address[5]);
    [
        a[0], a[1], b[0], b[1], c[0], c[1], d[0], d[1], e[0], e[1], f[0], f[1],
    ]
}

/// The eight digits of a frame check sequence, in lower case.
///
/// <details><summary>Contract</summary>
///
/// ```text
/// ensures { result ≡ hex_text fcs }
/// ```
///
/// </details>
#[inline(always)]
pub fn hex_fcs(fcs: [u8; 4]) -> [u8; 8] {
    digits_of(&fcs)
}

/// The sixteen digits of eight bytes, in lower case.
///
/// <details><summary>Contract</summary>
///
/// ```text
/// ensures { result ≡ hex_text bytes }
/// ```
///
/// </details>
#[inline(always)]
pub fn hex_long(bytes: [u8; 8]) -> [u8; 16] {
    digits_of(&bytes)
}

/// Two digits for each byte, in lower case.
#[inline(always)]
fn digits_of<const N: usize>(bytes: &[u8]) -> [u8; N] {
    let mut digits = [0; N];
    hex::encode_to_slice(bytes, &mut digits).unwrap();
    digits
}
