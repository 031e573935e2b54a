//! Writes texts, which may hold any byte.

use crate::ether_output::{OutputBuffer, Sink, digit_pair};

/// Writes a text, which may hold any byte, between quotation marks as JSON has it (RFC 8259, 7). Each byte above 127 of a
/// text that is not UTF-8 becomes the replacement character of Unicode.
///
/// ```
/// use etherpeel::ether_output::OutputBuffer;
/// use etherpeel::ether_format::write_json_text;
/// use arrayvec::ArrayVec;
///
/// # #[cfg(feature = "std")]
/// # {
/// let mut written = ArrayVec::<u8, 32>::new();
/// let mut out = OutputBuffer::new(&mut written);
/// write_json_text(b"a \"b\" \xFF", &mut out);
/// assert_eq!(out.flush(), Ok(()));
/// assert_eq!(written.as_slice(), b"\"a \\\"b\\\" \\ufffd\"".as_slice());
/// # }
/// ```
///
/// <details><summary>Contract</summary>
///
/// ```text
/// ensures { Takes W.contents W.can_fail out.old (json_text text.now) out.new }
/// ```
///
/// Words: [`Takes`](crate::definitions::ether_output#def.Takes),
/// [`json_text`](crate::definitions::ether_format#def.json_text). [Notation](crate::definitions::notation)
///
/// </details>
#[inline(never)]
pub fn write_json_text<W: Sink>(text: &[u8], out: &mut OutputBuffer<'_, W>) {
    out.append(b"\"");
    write_json_bytes(is_utf8(text), text, out);
    out.append(b"\"");
}

/// Whether a text is UTF-8.
#[inline]
fn is_utf8(text: &[u8]) -> bool {
    core::str::from_utf8(text).is_ok()
}

/// Writes the bytes of a text of JSON.
#[inline]
fn write_json_bytes<W: Sink>(is_utf8: bool, text: &[u8], out: &mut OutputBuffer<'_, W>) {
    for byte in text {
        write_json_byte(is_utf8, *byte, out);
    }
}

/// Writes a byte of a text of JSON.
#[inline]
fn write_json_byte<W: Sink>(is_utf8: bool, byte: u8, out: &mut OutputBuffer<'_, W>) {
    if byte == b'"' {
        out.append(b"\\\"");
    } else if byte == b'\\' {
        out.append(b"\\\\");
    } else if byte < 32 {
        let pair = digit_pair(byte);
        out.append_array([b'\\', b'u', b'0', b'0', pair[0], pair[1]]);
    } else if byte > 127 && !is_utf8 {
        out.append(b"\\ufffd");
    } else {
        out.append_array([byte]);
    }
}

/// Writes a text as a row has it.
#[inline(never)]
pub(in crate::ether_format) fn write_row_text<W: Sink>(text: &[u8], out: &mut OutputBuffer<'_, W>) {
    for byte in text {
        write_row_byte(*byte, out);
    }
}

/// Writes a byte of a text of a row.
#[inline]
fn write_row_byte<W: Sink>(byte: u8, out: &mut OutputBuffer<'_, W>) {
    if byte == b'\t' {
        out.append(b"\\t");
    } else if byte == b'\n' {
        out.append(b"\\n");
    } else if byte == b'\r' {
        out.append(b"\\r");
    } else if byte == b'\\' {
        out.append(b"\\\\");
    } else {
        out.append_array([byte]);
    }
}

/// Writes a text as a field of CSV: enclosed in double quotes, each of its own doubled, if it has a byte that asks for
/// that.
#[inline(never)]
pub(in crate::ether_format) fn write_csv_text<W: Sink>(text: &[u8], out: &mut OutputBuffer<'_, W>) {
    if has_special(text) {
        out.append(b"\"");
        write_doubled(text, out);
        out.append(b"\"");
    } else {
        out.append(text);
    }
}

/// Whether a text has a byte that asks for double quotes.
#[inline]
fn has_special(text: &[u8]) -> bool {
    for byte in text {
        if is_special(*byte) {
            return true;
        }
    }
    false
}

/// Whether a byte asks for double quotes.
#[inline]
fn is_special(byte: u8) -> bool {
    byte == b'"' || byte == b',' || byte == b'\r' || byte == b'\n'
}

/// Writes a text with its double quotes doubled.
#[inline]
fn write_doubled<W: Sink>(text: &[u8], out: &mut OutputBuffer<'_, W>) {
    for byte in text {
        write_csv_byte(*byte, out);
    }
}

/// Writes a byte, or two for a double quote.
#[inline]
fn write_csv_byte<W: Sink>(byte: u8, out: &mut OutputBuffer<'_, W>) {
    if byte == b'"' {
        out.append(b"\"\"");
    } else {
        out.append_array([byte]);
    }
}
