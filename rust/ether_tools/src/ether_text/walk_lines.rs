//! Writes the lines of a frame's walk.

use crate::ether_text::write_lines::{write_fault, write_rest, write_unit};
use etherpeel::ether_output::{OutputBuffer, Sink};
use etherpeel::ether_peel::{Peel, PeelFault, Start};

/// Writes the lines of a frame's walk, and returns whether the frame is accepted.
///
/// There is a line for each unit, in order, and one for the ending: `rest` with what is left of the frame, or `fault`.
/// With a limit, at most that many VLAN tags and SecTags are read, as by [`Peel::with_limit`].
///
/// ```
/// use etherpeel::ether_peel::Start;
/// use etherpeel::ether_output::OutputBuffer;
/// use ether_tools::ether_text::write_walk;
/// use arrayvec::ArrayVec;
///
/// let frame = [
///     0xFF, 0xFF, 0xFF, 0xFF, 0xFF, 0xFF, 0x02, 0x00, 0x00, 0x00, 0x00, 0x01, 0x81, 0x00, // Ethernet II
///     0xB1, 0x23, 0x08, 0x00, // VLAN
/// ];
/// let mut written = ArrayVec::<u8, 128>::new();
/// let mut out = OutputBuffer::new(&mut written);
/// assert!(write_walk(Start::Ethernet2, None, &frame, &mut out));
/// assert_eq!(out.flush(), Ok(()));
/// assert_eq!(
///     written.as_slice(),
///     b"ethernet2 0 ffffffffffff 020000000001 0x8100\n\
/// vlan 14 pcp 5 dei 1 vid 291 0x0800\n\
/// rest 18 18 type 0x0800\n".as_slice()
/// );
/// ```
///
/// <details><summary>Contract</summary>
///
/// ```text
/// ensures { TakesAnswer W.contents W.can_fail (AnswersWalk (start_with start limit) frame.now)
///     out.old out.new result }
/// ```
///
/// </details>
pub fn write_walk<W: Sink>(
    start: Start,
    limit: Option<usize>,
    frame: &[u8],
    out: &mut OutputBuffer<'_, W>,
) -> bool {
    write_walk_after(0, start, limit, frame, out)
}

/// Like [`write_walk`], but offsets count from an outer header of `header_len` bytes that precedes the frame.
///
/// <details><summary>Contract</summary>
///
/// ```text
/// ensures { TakesAnswer W.contents W.can_fail
///     (AnswersWalkAfter header_len (start_with start limit) frame.now) out.old out.new result }
/// ```
///
/// </details>
#[inline(always)]
pub fn write_walk_after<W: Sink>(
    header_len: u8,
    start: Start,
    limit: Option<usize>,
    frame: &[u8],
    out: &mut OutputBuffer<'_, W>,
) -> bool {
    let at = usize::from(header_len);
    let mut peel = walker(start, limit, frame);
    loop {
        let offset = at + peel.offset();
        match peel.next() {
            Some(Ok(unit)) => write_unit(out, offset, peel.rest().len(), peel.closed(), &unit),
            Some(Err(fault)) => {
                write_fault(out, &after(at, fault));
                return false;
            }
            None => {
                let end = offset + peel.rest().len();
                write_rest(out, offset, end, peel.kind());
                return true;
            }
        }
    }
}

/// The fault with an offset that counts from `at` bytes before the frame.
fn after(at: usize, fault: PeelFault) -> PeelFault {
    PeelFault {
        offset: at + fault.offset,
        error: fault.error,
        closed: fault.closed,
    }
}

/// The walk of a frame, with a limit on VLAN tags and SecTags or without.
fn walker(start: Start, limit: Option<usize>, frame: &[u8]) -> Peel<'_> {
    match limit {
        Some(limit) => Peel::with_limit(start, frame, limit),
        None => Peel::new(start, frame),
    }
}
