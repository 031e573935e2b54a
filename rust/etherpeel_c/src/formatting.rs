//! Packets on one line.

use crate::EtherCaptured;
use crate::no_writer::NoWriter;
use crate::putting::put_bytes;
use crate::statuses::{BAD_FORMAT, NO_TEXT};
use etherpeel::ether_format::{Format, Origin, write_packet};
use etherpeel::ether_output::OutputBuffer;

/// Writes the line of a packet in a format: a line of JSON, one for the eye, or a row of columns.
///
/// <details><summary>Contract</summary>
///
/// ```text
/// ensures { GivesLine format.now None number packet.now text.old text.new result len.new }
/// ```
///
/// </details>
#[unsafe(no_mangle)]
pub unsafe extern "C" fn etherpeel_format(
    format: *const u8,
    format_len: usize,
    number: usize,
    packet: &EtherCaptured<'_>,
    text: *mut u8,
    text_len: usize,
    len: &mut usize,
) -> u32 {
    let format = unsafe { crate::by_hand::shared(format, format_len) };
    let text = unsafe { crate::by_hand::mutable(text, text_len) };
    let (status, needed) = match Format::of_text(format) {
        Some(format) => put_line(&format, None, number, packet, text),
        None => (BAD_FORMAT, 0),
    };
    *len = needed;
    status
}

/// Like [`etherpeel_format`], but reads at most `limit` VLAN tags and SecTags of the packet.
///
/// <details><summary>Contract</summary>
///
/// ```text
/// ensures { GivesLine format.now (Some limit) number packet.now text.old text.new result len.new }
/// ```
///
/// </details>
#[unsafe(no_mangle)]
pub unsafe extern "C" fn etherpeel_format_limited(
    format: *const u8,
    format_len: usize,
    number: usize,
    packet: &EtherCaptured<'_>,
    limit: usize,
    text: *mut u8,
    text_len: usize,
    len: &mut usize,
) -> u32 {
    let format = unsafe { crate::by_hand::shared(format, format_len) };
    let text = unsafe { crate::by_hand::mutable(text, text_len) };
    let (status, needed) = match Format::of_text(format) {
        Some(format) => put_line(&format, Some(limit), number, packet, text),
        None => (BAD_FORMAT, 0),
    };
    *len = needed;
    status
}

/// Writes the line of a packet to the front of a target.
fn put_line(
    format: &Format,
    limit: Option<usize>,
    number: usize,
    packet: &EtherCaptured<'_>,
    target: &mut [u8],
) -> (u32, usize) {
    let mut writer = NoWriter;
    let mut line = OutputBuffer::new(&mut writer);
    let origin = Origin { file: None, number };
    let _is_accepted = write_packet(format, limit, &origin, &packet.to_packet(), &mut line);
    match line.check() {
        Ok(()) => put_bytes(line.waiting(), target),
        Err(_) => (NO_TEXT, 0),
    }
}
