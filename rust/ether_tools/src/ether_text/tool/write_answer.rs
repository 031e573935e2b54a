//! Writes the text for a frame by a command: the lines of its walk, or those of feeding it.

use crate::ether_text::tool::command::Command;
use crate::ether_text::tool::mode::Mode;
use crate::ether_text::{write_feed, write_walk};
use etherpeel::ether_output::{OutputBuffer, Sink};
use etherpeel::ether_peel::Start;

/// Writes the lines for a frame, and returns whether the frame is accepted.
///
/// It is not inlined, since that would slow down the decoding of the digits in the loop over the lines.
///
/// <details><summary>Contract</summary>
///
/// ```text
/// ensures { TakesAnswer W.contents W.can_fail (Answers command frame.now) out.old out.new result }
/// ```
///
/// </details>
#[inline(never)]
pub fn write_answer<W: Sink>(command: Command, frame: &[u8], out: &mut OutputBuffer<'_, W>) -> bool {
    let start = start_of(command.mode);
    match command.mode {
        Mode::Feed => write_feed(start, command.limit, frame, out),
        _ => write_walk(start, command.limit, frame, out),
    }
}

/// What the frames of a mode begin with.
fn start_of(mode: Mode) -> Start {
    match mode {
        Mode::Eth | Mode::Feed => Start::Ethernet2,
        Mode::Fcs => Start::Ethernet2Fcs,
        Mode::Sll => Start::LinuxSll,
        Mode::EtherType(ether_type) => Start::EtherType(ether_type),
    }
}
