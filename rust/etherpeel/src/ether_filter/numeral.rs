//! Numbers and addresses as words.

/// Numbers from this one on are read as this one. It is the first that does not fit in 64 bits.
const CAP: u128 = 1 << 64;

/// The number in a word: hexadecimal digits after `0x`, or decimal digits without a leading zero. `None` if the word
/// is not a number, and `Some(None)` if the number does not fit in 32 bits.
///
/// ```
/// use etherpeel::ether_filter::number_of;
///
/// assert_eq!(number_of(b"0x88A8"), Some(Some(34984)));
/// assert_eq!(number_of(b"4294967296"), Some(None));
/// assert_eq!(number_of(b"07"), None);
/// ```
///
/// <details><summary>Contract</summary>
///
/// ```text
/// ensures { result ≡ number_in word.now }
/// ```
///
/// Words: [`number_in`](crate::definitions::ether_filter#def.number_in). [Notation](crate::definitions::notation)
///
/// </details>
#[must_use]
#[inline]
pub fn number_of(word: &[u8]) -> Option<Option<u32>> {
    match capped_number_of(word) {
        Some(number) => Some(u32::try_from(number).ok()),
        None => None,
    }
}

/// The number in a word, as [`number_of`] says, if it fits in 64 bits.
#[inline]
pub(in crate::ether_filter) fn wide_number_of(word: &[u8]) -> Option<Option<u64>> {
    match capped_number_of(word) {
        Some(number) => Some(u64::try_from(number).ok()),
        None => None,
    }
}

/// The number in a word, at most the cap.
#[inline]
fn capped_number_of(word: &[u8]) -> Option<u128> {
    if word.len() > 1 && word[0] == b'0' {
        if word[1] != b'x' {
            return None;
        }
        digits_of(&word[2..], 16)
    } else {
        digits_of(word, 10)
    }
}

/// The address in a word, as one number: six pairs of hexadecimal digits, with colons between the pairs or without.
#[inline]
pub(in crate::ether_filter) fn address_of(word: &[u8]) -> Option<u64> {
    if word.len() == 12 {
        return narrowed(digits_of(word, 16));
    }
    if word.len() != 17 {
        return None;
    }
    if !has_colons(word) {
        return None;
    }
    let digits = [
        word[0], word[1], word[3], word[4], word[6], word[7], word[9], word[10], word[12],
        word[13], word[15], word[16],
    ];
    narrowed(digits_of(&digits, 16))
}

/// The number of up to sixteen hexadecimal digits.
#[inline]
pub(in crate::ether_filter) fn hex_of(digits: &[u8]) -> Option<u64> {
    narrowed(digits_of(digits, 16))
}

/// The number of up to nine decimal digits.
#[inline]
pub(in crate::ether_filter) fn decimal_of(digits: &[u8]) -> Option<u64> {
    narrowed(digits_of(digits, 10))
}

/// A number, if it fits in 64 bits.
#[inline]
fn narrowed(number: Option<u128>) -> Option<u64> {
    match number {
        Some(number) => u64::try_from(number).ok(),
        None => None,
    }
}

/// Whether the colons of an address are in their places.
#[inline]
fn has_colons(word: &[u8]) -> bool {
    word[2] == b':' && word[5] == b':' && word[8] == b':' && word[11] == b':' && word[14] == b':'
}

/// The number that digits write, at most the cap. `None` if there are no digits, or other characters.
#[inline]
fn digits_of(digits: &[u8], radix: u32) -> Option<u128> {
    if digits.is_empty() {
        return None;
    }
    let mut number = 0;
    for digit in digits {
        let value = char::from(*digit).to_digit(radix)?;
        number = appended(number, radix, value);
    }
    Some(number)
}

/// The number with a further digit, at most the cap.
#[inline]
fn appended(number: u128, radix: u32, digit: u32) -> u128 {
    (number * u128::from(radix) + u128::from(digit)).min(CAP)
}
