//! A run: from a reader of lines to a writer of the text for each.

use crate::ether_text::tool::command::Command;
use crate::ether_text::tool::line_loop::LineLoop;
use crate::ether_text::tool::mode::Mode;
use crate::ether_text::tool::outcome::{ToolFault, Verdict};
use crate::ether_text::{InputReader, SliceSource, Source};
use etherpeel::ether_output::{OutputBuffer, Sink};
use std::io::{Read, Write};

/// The room for one read in bytes.
const CHUNK_LEN: usize = 65536;

/// Reads the input to its end, and writes the text for each line as soon as the line has ended.
///
/// A line is a frame of up to 2,048 bytes as hexadecimal digits of either case. No memory is allocated. After a fault
/// neither the reader nor the writer is called again.
///
/// # Errors
///
/// - [`ToolFault::BadLine`] at the first line that names no frame. The text for the lines before it has been written
///   and flushed, and nothing is written for the line itself.
/// - [`ToolFault::Input`] after a fault of the reader, including an interruption, or if it does not end within
///   `u64::MAX` reads. The text for the lines that had ended has been written, but is not flushed.
/// - [`ToolFault::Output`] after a fault of the writer, including one at the closing flush. Nothing is claimed of how
///   much was written.
///
/// <details><summary>Contract</summary>
///
/// ```text
/// ensures { HasRun (unlimited mode) (R.remaining reader.old) (R.remaining reader.new)
///     (W.contents writer.old) (W.contents writer.new) result }
/// ```
///
/// </details>
pub fn run<R: Read, W: Write>(
    mode: Mode,
    reader: &mut R,
    writer: &mut W,
) -> Result<Verdict, ToolFault> {
    run_command(Command { mode, limit: None }, reader, writer)
}

/// Like [`run`], but reads at most `limit` VLAN tags and SecTags of each frame.
///
/// <details><summary>Contract</summary>
///
/// ```text
/// ensures { HasRun (limited_to mode limit) (R.remaining reader.old) (R.remaining reader.new)
///     (W.contents writer.old) (W.contents writer.new) result }
/// ```
///
/// </details>
pub fn run_limited<R: Read, W: Write>(
    mode: Mode,
    limit: usize,
    reader: &mut R,
    writer: &mut W,
) -> Result<Verdict, ToolFault> {
    let limit = Some(limit);
    run_command(Command { mode, limit }, reader, writer)
}

/// Like [`run`], or [`run_limited`] if there is a limit, but for the lines of a slice.
///
/// No read can fail, so the outcome is never [`ToolFault::Input`].
///
/// # Examples
///
/// ```
/// use ether_tools::ether_text::Verdict;
/// use ether_tools::ether_text::tool::run::run_slice;
/// use ether_tools::ether_text::tool::mode::Mode;
/// use arrayvec::ArrayVec;
///
/// let lines = b"ffffffffffff0200000000010800\n";
/// let mut text = ArrayVec::<u8, 128>::new();
/// let verdict = run_slice(Mode::Eth, None, lines, &mut text);
/// assert_eq!(verdict, Ok(Verdict::AllAccepted));
/// assert_eq!(text.as_slice(), b"ethernet2 0 ffffffffffff 020000000001 0x0800\nrest 14 14 type 0x0800\n");
/// ```
///
/// <details><summary>Contract</summary>
///
/// ```text
/// ensures run { AnswersSlice (record { mode = mode; limit = limit }) W.can_fail lines.now
///     (W.contents writer.old) (W.contents writer.new) result }
/// ensures flushed { IfSettled result (W.is_flushed writer.new) }
/// ```
///
/// </details>
pub fn run_slice<W: Sink>(
    mode: Mode,
    limit: Option<usize>,
    lines: &[u8],
    writer: &mut W,
) -> Result<Verdict, ToolFault> {
    let mut source = SliceSource::new(lines);
    run_command(Command { mode, limit }, &mut source, writer)
}

/// What [`run`], [`run_limited`] and [`run_slice`] do.
pub(in crate::ether_text) fn run_command<R: Source, W: Sink>(
    command: Command,
    reader: &mut R,
    writer: &mut W,
) -> Result<Verdict, ToolFault> {
    let mut input = InputReader::new(reader);
    let mut out = OutputBuffer::new(writer);
    answer_input(command, &mut input, &mut out)
}

/// Reads the input to its end, and writes the text and flushes it. After a fault of the
/// reader or the writer neither is called again.
fn answer_input<R: Source, W: Sink>(
    command: Command,
    input: &mut InputReader<'_, R>,
    out: &mut OutputBuffer<'_, W>,
) -> Result<Verdict, ToolFault> {
    let outcome = read_lines(command, input, out);
    if let Ok(_) | Err(ToolFault::BadLine(_)) = outcome {
        out.flush()?;
    }
    outcome
}

/// Reads the input to its end, and gathers the text. The gathered text is written out before each read.
fn read_lines<R: Source, W: Sink>(
    command: Command,
    input: &mut InputReader<'_, R>,
    out: &mut OutputBuffer<'_, W>,
) -> Result<Verdict, ToolFault> {
    let mut lines = LineLoop::new();
    let mut chunk = [0; CHUNK_LEN];
    loop {
        out.write_out()?;
        let count = input.read(&mut chunk, out)?;
        if count == 0 {
            return lines.finish(command, out);
        }
        lines.take_chunk(command, &chunk[..count], out)?;
    }
}
