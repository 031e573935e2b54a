//! Numbers as decimal digits.

use crate::ether_output::{OutputBuffer, Sink};

/// The two digits of each number below 100.
static PAIRS: [[u8; 2]; 100] = [
    *b"00", *b"01", *b"02", *b"03", *b"04", *b"05", *b"06", *b"07", *b"08", *b"09", *b"10", *b"11",
    *b"12", *b"13", *b"14", *b"15", *b"16", *b"17", *b"18", *b"19", *b"20", *b"21", *b"22", *b"23",
    *b"24", *b"25", *b"26", *b"27", *b"28", *b"29", *b"30", *b"31", *b"32", *b"33", *b"34", *b"35",
    *b"36", *b"37", *b"38", *b"39", *b"40", *b"41", *b"42", *b"43", *b"44", *b"45", *b"46", *b"47",
    *b"48", *b"49", *b"50", *b"51", *b"52", *b"53", *b"54", *b"55", *b"56", *b"57", *b"58", *b"59",
    *b"60", *b"61", *b"62", *b"63", *b"64", *b"65", *b"66", *b"67", *b"68", *b"69", *b"70", *b"71",
    *b"72", *b"73", *b"74", *b"75", *b"76", *b"77", *b"78", *b"79", *b"80", *b"81", *b"82", *b"83",
    *b"84", *b"85", *b"86", *b"87", *b"88", *b"89", *b"90", *b"91", *b"92", *b"93", *b"94", *b"95",
    *b"96", *b"97", *b"98", *b"99",
];

/// Writes a number in decimal digits, without leading zeros.
///
/// ```
/// use etherpeel::ether_output::{OutputBuffer, write_decimal};
/// use arrayvec::ArrayVec;
///
/// # #[cfg(feature = "std")]
/// # {
/// let mut written = ArrayVec::<u8, 8>::new();
/// let mut out = OutputBuffer::new(&mut written);
/// write_decimal(&mut out, 1_024);
/// assert_eq!(out.flush(), Ok(()));
/// assert_eq!(written.as_slice(), b"1024".as_slice());
/// # }
/// ```
///
/// <details><summary>Contract</summary>
///
/// ```text
/// ensures { Takes W.contents W.can_fail out.old (decimal number) out.new }
/// ```
///
/// Words: [`Takes`](crate::definitions::ether_output#def.Takes). [Notation](crate::definitions::notation)
///
/// </details>
#[inline(always)]
pub fn write_decimal<W: Sink>(out: &mut OutputBuffer<'_, W>, number: u64) {
    if number < 10 {
        out.append_array([digit(number)]);
    } else if number < 100 {
        out.append_array(digit_pair(number));
    } else {
        write_long_decimal(out, number);
    }
}

/// Writes a number of any length: first the digits before the last four, then the last four.
#[inline(never)]
fn write_long_decimal<W: Sink>(out: &mut OutputBuffer<'_, W>, number: u64) {
    if number < 10_000 {
        write_short_decimal(out, number);
    } else if number < 100_000_000 {
        write_short_decimal(out, number / 10_000);
        out.append_array(four_digits(number % 10_000));
    } else {
        write_long_decimal(out, number / 10_000);
        out.append_array(four_digits(number % 10_000));
    }
}

/// Writes a number of up to four digits.
#[inline(always)]
fn write_short_decimal<W: Sink>(out: &mut OutputBuffer<'_, W>, number: u64) {
    if number < 10 {
        out.append_array([digit(number)]);
    } else if number < 100 {
        out.append_array(digit_pair(number));
    } else if number < 1000 {
        let last = digit_pair(number % 100);
        out.append_array([digit(number / 100), last[0], last[1]]);
    } else {
        out.append_array(four_digits(number));
    }
}

/// The decimal digit of a number below 10, as a character of ASCII.
#[inline(always)]
fn digit(number: u64) -> u8 {
    b'0' + number as u8
}

/// The two digits of a number below 100, with a leading zero.
#[inline(always)]
fn digit_pair(number: u64) -> [u8; 2] {
    PAIRS[number as usize]
}

/// The four digits of a number below 10,000, with leading zeros.
#[inline(always)]
fn four_digits(number: u64) -> [u8; 4] {
    let high = digit_pair(number / 100);
    let low = digit_pair(number % 100);
    [high[0], high[1], low[0], low[1]]
}

/// The eight lowest digits of a number, with leading zeros.
///
/// <details><summary>Contract</summary>
///
/// ```text
/// ensures { result ≡ eight_digits number }
/// ```
///
/// Words: [`eight_digits`](crate::definitions::ether_output#def.eight_digits).
/// [Notation](crate::definitions::notation)
///
/// </details>
#[must_use]
#[inline(always)]
pub fn eight_digits(number: u64) -> [u8; 8] {
    let high = four_digits(number / 10_000 % 10_000);
    let low = four_digits(number % 10_000);
    [
        high[0], high[1], high[2], high[3], low[0], low[1], low[2], low[3],
    ]
}

/// Writes a word with the spaces around it, and a number in decimal digits.
///
/// <details><summary>Contract</summary>
///
/// ```text
/// ensures { Takes W.contents W.can_fail out.old (word.now ++ decimal number) out.new }
/// ```
///
/// Words: [`Takes`](crate::definitions::ether_output#def.Takes). [Notation](crate::definitions::notation)
///
/// </details>
#[inline]
pub fn write_number<W: Sink>(out: &mut OutputBuffer<'_, W>, word: &[u8], number: u64) {
    out.append(word);
    write_decimal(out, number);
}
