//! Writes the text for a frame that is fed to a walk.

use crate::ether_text::write_lines::{write_counts, write_fault};
use etherpeel::ether_output::{OutputBuffer, Sink};
use etherpeel::ether_peel::{Feed, Start, feed, feed_limited};

/// Writes a line with the number of times that a walk asks for more of the frame and the number of bytes that it
/// takes. If the bytes taken have a fault, a line for it follows. Returns whether there is no fault.
///
/// The numbers and the fault are those of [`feed`], or of [`feed_limited`] if there is a limit.
///
/// ```
/// use etherpeel::ether_peel::Start;
/// use etherpeel::ether_output::OutputBuffer;
/// use ether_tools::ether_text::write_feed;
/// use arrayvec::ArrayVec;
///
/// let frame = [
///     0xFF, 0xFF, 0xFF, 0xFF, 0xFF, 0xFF, 0x02, 0x00, 0x00, 0x00, 0x00, 0x01, 0x81, 0x00, // Ethernet II
///     0xB1, 0x23, 0x08, 0x00, // VLAN
///     0x45,
/// ];
/// let mut written = ArrayVec::<u8, 128>::new();
/// let mut out = OutputBuffer::new(&mut written);
/// assert!(write_feed(Start::Ethernet2, None, &frame, &mut out));
/// assert_eq!(out.flush(), Ok(()));
/// assert_eq!(written.as_slice(), b"feed refusals 2 taken 18\n".as_slice());
/// ```
///
/// <details><summary>Contract</summary>
///
/// ```text
/// ensures { TakesAnswer W.contents W.can_fail (AnswersFeed (start_with start limit) frame.now)
///     out.old out.new result }
/// ```
///
/// </details>
pub fn write_feed<W: Sink>(
    start: Start,
    limit: Option<usize>,
    frame: &[u8],
    out: &mut OutputBuffer<'_, W>,
) -> bool {
    let outcome = fed(start, limit, frame);
    write_counts(out, outcome.refusals, outcome.taken);
    match &outcome.fault {
        Some(fault) => {
            write_fault(out, fault);
            false
        }
        None => true,
    }
}

/// The result of feeding a frame to a walk, with a limit on VLAN tags and SecTags or without.
fn fed(start: Start, limit: Option<usize>, frame: &[u8]) -> Feed {
    match limit {
        Some(limit) => feed_limited(start, frame, limit),
        None => feed(start, frame),
    }
}
