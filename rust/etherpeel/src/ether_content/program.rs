//! Applies filters that are kept in memory of the caller to captured packets.

use crate::ether_content::content::{Content, FCS_LEN, fcs_len, whole_len, without_fcs};
use crate::ether_filter::{Decision, Instruction, Packet, PacketTime, filter_program};
use crate::ether_pcap::{CapturedPacket, LinkType};
use crate::ether_peel::Start;
use crate::ether_sll2::LinuxSll2Header;
use crate::LinuxSllHeader;

/// Returns `true` if the filter of these instructions selects a packet, as [`selects`](crate::ether_content::selects) says.
///
/// If the instructions are not those of a filter, nothing is claimed of the result.
///
/// <details><summary>Contract</summary>
///
/// ```text
/// ensures { (x : Expression) → IsProgramOf instructions.now x → IsTrue result
///     ↔ Selects x (captured_packet_view packet.now) }
/// ```
///
/// Words: [`Expression`](crate::definitions::ether_filter#def.Expression),
/// [`IsProgramOf`](crate::definitions::ether_filter#def.IsProgramOf),
/// [`Selects`](crate::definitions::ether_content#def.Selects),
/// [`captured_packet_view`](crate::definitions::ether_pcap#def.captured_packet_view).
/// [Notation](crate::definitions::notation)
///
/// </details>
#[must_use]
#[inline(always)]
pub fn selects(instructions: &[Instruction], packet: &CapturedPacket<'_>) -> bool {
    match Content::of(packet).frame() {
        Some((start, frame)) => holds(instructions, start, frame, packet),
        None => false,
    }
}

/// Whether a filter's expression holds of the walk of a packet.
#[inline(always)]
fn holds(
    instructions: &[Instruction],
    start: Start,
    frame: &[u8],
    packet: &CapturedPacket<'_>,
) -> bool {
    filter_program::matches(instructions, &asked(start, frame, packet))
}

/// What a filter is applied to for a frame of a packet.
#[inline(always)]
fn asked<'a>(start: Start, frame: &'a [u8], packet: &CapturedPacket<'_>) -> Packet<'a> {
    Packet {
        start,
        frame,
        captured_len: packet.packet.len(),
        original_len: packet.original_len,
        time: packet_time(packet),
    }
}

/// The time of a packet, as a filter has it.
#[inline(always)]
fn packet_time(packet: &CapturedPacket<'_>) -> Option<PacketTime> {
    match packet.time {
        Some(time) => Some(PacketTime {
            seconds: time.seconds,
            nanoseconds: time.nanoseconds,
        }),
        None => None,
    }
}

/// Returns `true` if the captured bytes of a packet do not decide whether the filter of these instructions selects it,
/// as [`is_undecided`](crate::ether_content::is_undecided) says.
///
/// If the instructions are not those of a filter, nothing is claimed of the result.
///
/// <details><summary>Contract</summary>
///
/// ```text
/// ensures { (x : Expression) → IsProgramOf instructions.now x → IsTrue result
///     ↔ IsUndecided x (captured_packet_view packet.now) }
/// ```
///
/// Words: [`Expression`](crate::definitions::ether_filter#def.Expression),
/// [`IsProgramOf`](crate::definitions::ether_filter#def.IsProgramOf),
/// [`IsUndecided`](crate::definitions::ether_content#def.IsUndecided),
/// [`captured_packet_view`](crate::definitions::ether_pcap#def.captured_packet_view).
/// [Notation](crate::definitions::notation)
///
/// </details>
#[must_use]
#[inline(always)]
pub fn is_undecided(instructions: &[Instruction], packet: &CapturedPacket<'_>) -> bool {
    decide(instructions, packet).is_none()
}

/// Decides whether the filter of these instructions selects a packet, as [`decide`](crate::ether_content::decide) says.
///
/// If the instructions are not those of a filter, nothing is claimed of the result.
///
/// <details><summary>Contract</summary>
///
/// ```text
/// ensures { (x : Expression) → IsProgramOf instructions.now x → (outcome : Option Bool)
///     → (result ≡ outcome) ↔ IsOutcome x (captured_packet_view packet.now) outcome }
/// ```
///
/// Words: [`Expression`](crate::definitions::ether_filter#def.Expression),
/// [`IsProgramOf`](crate::definitions::ether_filter#def.IsProgramOf),
/// [`IsOutcome`](crate::definitions::ether_content#def.IsOutcome),
/// [`captured_packet_view`](crate::definitions::ether_pcap#def.captured_packet_view).
/// [Notation](crate::definitions::notation)
///
/// </details>
#[must_use]
#[inline(always)]
pub fn decide(instructions: &[Instruction], packet: &CapturedPacket<'_>) -> Option<bool> {
    if missing_len(packet) == 0 {
        return Some(selects(instructions, packet));
    }
    decide_cut(instructions, packet)
}

/// .. whose bytes before the frame check sequence are not all there.
#[inline(never)]
fn decide_cut(instructions: &[Instruction], packet: &CapturedPacket<'_>) -> Option<bool> {
    if is_header_cut(packet) || has_other_fcs(packet) {
        return None;
    }
    match Content::of(packet).frame() {
        Some((start, frame)) => {
            decide_frame(instructions, with_fcs(start, packet), frame, packet)
        }
        None => Some(false),
    }
}

/// .. where the walk starts so in this frame.
#[inline]
fn decide_frame(
    instructions: &[Instruction],
    start: Start,
    frame: &[u8],
    packet: &CapturedPacket<'_>,
) -> Option<bool> {
    match filter_program::decide(instructions, &asked(start, frame, packet)) {
        Decision::Matches => Some(true),
        Decision::Fails => Some(false),
        Decision::Needs(_) => None,
    }
}

/// The number of bytes that are missing before the frame check sequence.
#[inline(always)]
fn missing_len(packet: &CapturedPacket<'_>) -> usize {
    whole_len(packet) - without_fcs(packet).len()
}

/// Whether the header of cooked capture that says what is walked was cut.
#[inline]
fn is_header_cut(packet: &CapturedPacket<'_>) -> bool {
    let header_len = cooked_header_len(packet.link_type);
    without_fcs(packet).len() < header_len && header_len <= whole_len(packet)
}

/// The length of the header of cooked capture; 0 for another link type.
#[inline]
fn cooked_header_len(link_type: LinkType) -> usize {
    match link_type {
        LinkType::LINUX_SLL => LinuxSllHeader::LEN,
        LinkType::LINUX_SLL2 => LinuxSll2Header::LEN,
        _ => 0,
    }
}

/// Whether the capture gives the length of a frame check sequence that Ethernet does not have.
#[inline]
fn has_other_fcs(packet: &CapturedPacket<'_>) -> bool {
    let len = fcs_len(packet);
    len != 0 && !(packet.link_type == LinkType::ETHERNET && len == FCS_LEN)
}

/// How the walk starts, in a frame that ends in a check sequence if the capture gives its length.
#[inline]
fn with_fcs(start: Start, packet: &CapturedPacket<'_>) -> Start {
    if fcs_len(packet) == FCS_LEN {
        Start::Ethernet2Fcs
    } else {
        start
    }
}
