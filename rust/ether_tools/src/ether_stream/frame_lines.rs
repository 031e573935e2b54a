//! Writes the lines of a captured packet.

use crate::ether_stream::LineOptions;
use crate::ether_stream::linux_sll_lines::write_linux_sll;
use crate::ether_stream::linux_sll2_lines::write_linux_sll2;
use etherpeel::ether_content::{Content, CookedHeader, is_cut};
use etherpeel::ether_format::{Origin, nine_digits, write_packet};
use etherpeel::ether_output::{OutputBuffer, Sink, eight_digits, write_decimal};
use etherpeel::ether_pcap::{CapturedPacket, Timestamp};
use etherpeel::ether_peel::Start;
use crate::ether_text::write_walk_after;

/// Writes the text of a packet: its lines, or its text in another format. Returns whether the packet is accepted: the
/// walk through its headers ends without a fault, or faults are excused.
///
/// The packet has the number after `count`, which is read only if it is written.
///
/// <details><summary>Contract</summary>
///
/// ```text
/// ensures { TakesAnswer W.contents W.can_fail
///     (HasLines (lines_view options.now) (counted (count.now + 1)) (captured_packet_view packet.now))
///     out.old out.new result }
/// ```
///
/// </details>
pub fn write_lines<W: Sink>(
    options: &LineOptions<'_>,
    count: &usize,
    packet: &CapturedPacket<'_>,
    out: &mut OutputBuffer<'_, W>,
) -> bool {
    let has_no_fault = write_text(options, count, packet, out);
    has_no_fault || options.excuses
}

/// Writes the text of a packet. Returns whether the walk through its headers ends without a fault.
#[inline(always)]
fn write_text<W: Sink>(
    options: &LineOptions<'_>,
    count: &usize,
    packet: &CapturedPacket<'_>,
    out: &mut OutputBuffer<'_, W>,
) -> bool {
    match &options.format {
        None => write_walk_lines(options, count, packet, out),
        Some(format) => {
            let origin = Origin {
                file: options.file,
                number: count.saturating_add(1),
            };
            write_packet(format, options.limit, &origin, packet, out)
        }
    }
}

/// Writes the line of a packet, unless only lines of walks are asked for, and the lines of the walk through its
/// headers. Returns whether the walk ends without a fault.
///
/// A packet of another link type than Ethernet and Linux cooked capture is skipped: it has no lines of a walk.
#[inline(always)]
fn write_walk_lines<W: Sink>(
    options: &LineOptions<'_>,
    count: &usize,
    packet: &CapturedPacket<'_>,
    out: &mut OutputBuffer<'_, W>,
) -> bool {
    let content = Content::of(packet);
    write_packet_line(options.is_plain, count, packet, content, out);
    let (header_len, start, bytes) = match content {
        Content::Frame(start, bytes) => (0, start, bytes),
        Content::LinuxSll(header, payload) => {
            write_linux_sll(&header, out);
            (
                CookedHeader::LEN as u8,
                Start::EtherType(header.protocol),
                payload,
            )
        }
        Content::LinuxSll2(bytes) => match write_linux_sll2(bytes, out) {
            Ok((start, payload)) => (20, start, payload),
            Err(accepted) => return accepted,
        },
        Content::Unknown => return true,
    };
    write_walk_after(header_len, start, options.limit, bytes, out)
}

/// Writes the line of the totals, unless the capture is one of several.
///
/// <details><summary>Contract</summary>
///
/// ```text
/// ensures { Takes W.contents W.can_fail out.old
///     (totals_line_after options.now.before options.now.is_plain frames skipped undecided) out.new }
/// ```
///
/// </details>
pub fn write_totals_of<W: Sink>(
    options: &LineOptions<'_>,
    frames: usize,
    skipped: usize,
    undecided: Option<usize>,
    out: &mut OutputBuffer<'_, W>,
) {
    match options.before {
        None => write_totals(options.is_plain, frames, skipped, undecided, out),
        Some(_) => {}
    }
}

/// Writes the line of the totals, unless `is_plain`: how many packets there are, how many of them were skipped, and
/// how many are undecided, if that is asked for.
///
/// <details><summary>Contract</summary>
///
/// ```text
/// ensures { Takes W.contents W.can_fail out.old (totals_line_if is_plain frames skipped undecided) out.new }
/// ```
///
/// </details>
pub fn write_totals<W: Sink>(
    is_plain: bool,
    frames: usize,
    skipped: usize,
    undecided: Option<usize>,
    out: &mut OutputBuffer<'_, W>,
) {
    if is_plain {
        return;
    }
    write_told(b"total frames ", frames, out);
    write_told(b" skipped ", skipped, out);
    write_undecided(undecided, out);
    out.append(b"\n");
}

/// Writes how many packets are undecided, if that is asked for.
fn write_undecided<W: Sink>(undecided: Option<usize>, out: &mut OutputBuffer<'_, W>) {
    if let Some(undecided) = undecided {
        write_told(b" undecided ", undecided, out);
    }
}

/// Writes a number after its word.
fn write_told<W: Sink>(word: &[u8], number: usize, out: &mut OutputBuffer<'_, W>) {
    out.append(word);
    write_decimal(out, number as u64);
}

/// Whether the packet has no lines of a walk.
///
/// <details><summary>Contract</summary>
///
/// ```text
/// ensures { result ≡ is_skipped (captured_packet_view packet.now) }
/// ```
///
/// </details>
pub fn is_skipped(packet: &CapturedPacket<'_>) -> bool {
    Content::of(packet).is_unknown()
}

/// Writes the line of a packet, unless `is_plain`: its number, which is the one after `count`, its time, its link
/// type, its lengths, and whether it was cut or is skipped.
fn write_packet_line<W: Sink>(
    is_plain: bool,
    count: &usize,
    packet: &CapturedPacket<'_>,
    content: Content<'_>,
    out: &mut OutputBuffer<'_, W>,
) {
    if is_plain {
        return;
    }
    out.append(b"frame ");
    write_decimal(out, count.saturating_add(1) as u64);
    write_time(packet.time, out);
    write_decimal(out, u64::from(packet.link_type.0));
    out.append(b" captured ");
    write_decimal(out, packet.packet.len() as u64);
    out.append(b" original ");
    write_decimal(out, packet.original_len as u64);
    write_mark(is_cut(packet), b" cut", out);
    write_mark(content.is_unknown(), b" skipped", out);
    out.append(b"\n");
}

/// Writes `word` if `holds`.
fn write_mark<W: Sink>(holds: bool, word: &[u8], out: &mut OutputBuffer<'_, W>) {
    if holds {
        out.append(word);
    }
}

/// Writes ` time SECONDS link `: the seconds have nine decimals, or there is a hyphen if the packet has no time.
#[inline(always)]
fn write_time<W: Sink>(time: Option<Timestamp>, out: &mut OutputBuffer<'_, W>) {
    match time {
        Some(time) if time.seconds >= 1_000_000_000 && time.seconds < 10_000_000_000 =>
            out.append_array(recent_time(time)),
        Some(time) => write_other_time(time, out),
        None => out.append(b" time - link "),
    }
}

/// The same text for a time whose seconds have ten digits: from the year 2001 to 2286.
#[inline(always)]
fn recent_time(time: Timestamp) -> [u8; 32] {
    let h = eight_digits(time.seconds / 100_000_000);
    let s = eight_digits(time.seconds);
    let n = nine_digits(time.nanoseconds);
    [
        b' ', b't', b'i', b'm', b'e', b' ', h[6], h[7], s[0], s[1], s[2], s[3], s[4], s[5], s[6],
        s[7], b'.', n[0], n[1], n[2], n[3], n[4], n[5], n[6], n[7], n[8], b' ', b'l', b'i', b'n',
        b'k', b' ',
    ]
}

/// Writes the same text for a time whose seconds have any number of digits.
#[inline(never)]
fn write_other_time<W: Sink>(time: Timestamp, out: &mut OutputBuffer<'_, W>) {
    out.append(b" time ");
    write_decimal(out, time.seconds);
    out.append(b".");
    out.append(&nine_digits(time.nanoseconds));
    out.append(b" link ");
}
