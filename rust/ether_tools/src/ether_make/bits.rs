//! Bits of numbers and bytes.

use crate::ether_make::memory::{AllocError, Taking};

/// Appends the last `count` bits of a number.
///
/// <details><summary>Contract</summary>
///
/// ```text
/// ensures { OnOk result (bits.new.items ≡ bits.old.items ++ bits_in count value) }
/// ```
///
/// </details>
pub fn push_bits(bits: &mut Vec<bool>, count: usize, value: u64) -> Result<(), AllocError> {
    let mut left = count;
    while left > 0 {
        left -= 1;
        bits.try_push(bit_of(value, left))?;
    }
    Ok(())
}

/// Appends the bits of bytes.
///
/// <details><summary>Contract</summary>
///
/// ```text
/// ensures { OnOk result (bits.new.items ≡ bits.old.items ++ bits_of bytes.now) }
/// ```
///
/// </details>
pub fn push_bytes(bits: &mut Vec<bool>, bytes: &[u8]) -> Result<(), AllocError> {
    for byte in bytes {
        push_bits(bits, 8, u64::from(*byte))?;
    }
    Ok(())
}

/// Appends the bytes of bits.
///
/// <details><summary>Contract</summary>
///
/// ```text
/// ensures { OnOk result (bytes.new.items ≡ bytes.old.items ++ packed bits.now) }
/// ```
///
/// </details>
pub fn pack(bytes: &mut Vec<u8>, bits: &[bool]) -> Result<(), AllocError> {
    let mut at = 0;
    while at + 8 <= bits.len() {
        bytes.try_push(byte_at(bits, at))?;
        at += 8;
    }
    Ok(())
}

/// The byte of eight bits.
fn byte_at(bits: &[bool], at: usize) -> u8 {
    128 * u8::from(bits[at])
        + 64 * u8::from(bits[at + 1])
        + 32 * u8::from(bits[at + 2])
        + 16 * u8::from(bits[at + 3])
        + 8 * u8::from(bits[at + 4])
        + 4 * u8::from(bits[at + 5])
        + 2 * u8::from(bits[at + 6])
        + u8::from(bits[at + 7])
}

/// The bit at a place, counted from the last one.
fn bit_of(value: u64, place: usize) -> bool {
    if place >= 64 {
        return false;
    }
    (value >> place) % 2 == 1
}

/// Writes the last `len` bits of a number over those at a place of bytes.
///
/// # Panics
///
/// The call may panic, or return something else, if a `requires` of its contract is not met.
///
/// <details><summary>Contract</summary>
///
/// ```text
/// requires { (at + len ≤ 8 * length bytes.old) × (at + len < 2 ^ 64) }
/// ensures bits { bits_of bytes.new ≡ with_bits at len value (bits_of bytes.old) }
/// ensures len { length bytes.new ≡ length bytes.old }
/// ```
///
/// </details>
pub fn set_bits(bytes: &mut [u8], at: usize, len: usize, value: u64) {
    let mut left = len;
    let mut more = value;
    while left > 0 {
        let place = (at + left - 1) / 8;
        let end = at + left - 8 * place;
        let count = end.min(left);
        bytes[place] = byte_with(bytes[place], end - count, count, more);
        more >>= count;
        left -= count;
    }
}

/// A byte with the last `count` bits of a number at a place of it.
fn byte_with(byte: u8, at: usize, count: usize, value: u64) -> u8 {
    let after = 8 - at - count;
    let front = byte as usize >> (8 - at) << (8 - at);
    let middle = (value as usize % (1 << count)) << after;
    (front + middle + byte as usize % (1 << after)) as u8
}
