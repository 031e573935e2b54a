//! The frame check sequence of Ethernet.

use crate::ether_make::check_tables::AFTER_STEPS;

/// The check sequence of bytes, in the order in which it is sent.
///
/// <details><summary>Contract</summary>
///
/// ```text
/// ensures { result ≡ check_sequence_in bytes.now }
/// ```
///
/// </details>
pub fn check_sequence(bytes: &[u8]) -> [u8; 4] {
    let mut register = u32::MAX;
    let mut rest = bytes;
    while let [a, b, c, d, tail @ ..] = rest {
        register = with_four(register, *a, *b, *c, *d);
        rest = tail;
    }
    complemented(with_bytes(register, rest))
}

/// The bytes of a remainder that is complemented.
fn complemented(register: u32) -> [u8; 4] {
    (!register).to_le_bytes()
}

/// Takes four bytes into the division at once.
#[inline(always)]
fn with_four(register: u32, a: u8, b: u8, c: u8, d: u8) -> u32 {
    let sum = register ^ u32::from_le_bytes([a, b, c, d]);
    AFTER_STEPS[3][(sum % 256) as usize]
        ^ AFTER_STEPS[2][(sum / 256 % 256) as usize]
        ^ AFTER_STEPS[1][(sum / 65_536 % 256) as usize]
        ^ AFTER_STEPS[0][(sum / 16_777_216) as usize]
}

/// Takes bytes into the division, one after the other.
fn with_bytes(register: u32, bytes: &[u8]) -> u32 {
    let mut after = register;
    for byte in bytes {
        after = with_byte(after, *byte);
    }
    after
}

/// Takes a byte into the division.
fn with_byte(register: u32, byte: u8) -> u32 {
    let sum = register ^ u32::from(byte);
    AFTER_STEPS[0][(sum % 256) as usize] ^ (sum / 256)
}
