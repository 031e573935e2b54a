//! Bits of a frame as a number.

/// The number in `len` bits, which begin at the bit `bit` of the byte `at`; 0 if there are more than 64 bits.
pub(crate) fn field_value(bytes: &[u8], at: usize, bit: usize, len: usize) -> u64 {
    if len > 64 {
        return 0;
    }
    let count = (bit + len + 7) / 8;
    let after = 8 * count - (bit + len);
    let number = number_of(&bytes[at..at + count]);
    ((number >> after) % (1 << len)) as u64
}

/// The number in up to nine bytes.
fn number_of(bytes: &[u8]) -> u128 {
    let mut number = 0;
    for byte in bytes {
        number = number * 256 + u128::from(*byte);
    }
    number
}
