//! Bytes as words.

use crate::ether_filter::numeral::{hex_of, number_of};
use crate::ether_filter::subject::Literal;
use arrayvec::ArrayVec;
use crate::ether_base::big_endian::u32_of;

/// The most bytes that a value has.
const MOST: usize = 8;

/// The bytes that a word has: pairs of hexadecimal digits with colons between them, or four numbers with dots.
#[inline]
pub(in crate::ether_filter) fn literal_of(word: &[u8]) -> Option<Literal> {
    match bytes_of(word) {
        Some(bytes) => Some(bytes),
        None => ipv4_of(word),
    }
}

/// Pairs of hexadecimal digits with colons between them.
#[inline]
fn bytes_of(word: &[u8]) -> Option<Literal> {
    if word.len() < 5 || word.len() > 3 * MOST - 1 {
        return None;
    }
    let digits = pair_digits(word)?;
    let number = hex_of(digits.as_slice())?;
    Some(Literal {
        len: ((word.len() + 1) / 3) as u8,
        number,
    })
}

/// The digits of pairs with colons between them.
#[inline]
fn pair_digits(word: &[u8]) -> Option<ArrayVec<u8, 16>> {
    let mut digits = ArrayVec::new();
    let mut at = 0;
    while at + 2 < word.len() {
        if word[at + 2] != b':' {
            return None;
        }
        digits.push(word[at]);
        digits.push(word[at + 1]);
        at += 3;
    }
    if at + 2 != word.len() {
        return None;
    }
    digits.push(word[at]);
    digits.push(word[at + 1]);
    Some(digits)
}

/// An address of IPv4: four numbers up to 255 with dots between them.
#[inline]
fn ipv4_of(word: &[u8]) -> Option<Literal> {
    let (first, rest) = part_of(word)?;
    let (second, rest) = part_of(rest)?;
    let (third, rest) = part_of(rest)?;
    let fourth = byte_of(rest)?;
    let number = u64::from(u32_of([first, second, third, fourth]));
    Some(Literal { len: 4, number })
}

/// The number before the first dot, and what follows the dot.
#[inline]
fn part_of(word: &[u8]) -> Option<(u8, &[u8])> {
    let dot = place_of(word, b'.')?;
    let number = byte_of(&word[..dot])?;
    Some((number, &word[dot + 1..]))
}

/// The first offset and the number of bytes of a slice, written as `[0:3]`.
#[inline]
pub(in crate::ether_filter) fn slice_of(text: &[u8]) -> Option<(u8, u8)> {
    let len = text.len();
    if len < 2 || text[len - 1] != b']' {
        return None;
    }
    slice_between(&text[1..len - 1])
}

/// .. between the brackets.
#[inline]
fn slice_between(body: &[u8]) -> Option<(u8, u8)> {
    let colon = place_of(body, b':')?;
    let first = byte_of(&body[..colon])?;
    let count = byte_of(&body[colon + 1..])?;
    Some((first, count))
}

/// The first offset at which a byte is in a text.
#[inline]
pub(in crate::ether_filter) fn place_of(text: &[u8], byte: u8) -> Option<usize> {
    let mut at = 0;
    while at < text.len() {
        if text[at] == byte {
            return Some(at);
        }
        at += 1;
    }
    None
}

/// A number up to 255.
#[inline]
fn byte_of(word: &[u8]) -> Option<u8> {
    match number_of(word) {
        Some(Some(number)) if number < 256 => Some(number as u8),
        _ => None,
    }
}
