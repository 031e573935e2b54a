//! The state of a run between two reads: the line that is being read, and the results of the lines before it.
use crate::ether_text::tool::command::Command;
use crate::ether_text::tool::line_buffer::{LineBuffer, LineEnd};
use crate::ether_text::tool::outcome::{ToolFault, Verdict};
use crate::ether_text::tool::parse_frame::MAX_FRAME_LEN;
use crate::ether_text::tool::write_answer::write_answer;
use etherpeel::ether_output::{OutputBuffer, Sink};

/// The line that is being read, and the results of the lines before it.
pub struct LineLoop {
    line: LineBuffer,
    count: u64,
    verdict: Verdict,
}

impl LineLoop {
    /// Makes the state of a run that has read nothing.
    ///
    /// <details><summary>Contract</summary>
    ///
    /// ```text
    /// ensures { IsStart result }
    /// ```
    ///
    /// </details>
    pub fn new() -> Self {
        LineLoop {
            line: LineBuffer::new(),
            count: 0,
            verdict: Verdict::AllAccepted,
        }
    }

    /// Writes the text for the line that ends with this piece, and begins the next line. `frame` is room for the
    /// line's frame. The error is `ToolFault::BadLine` for a bad line, and `ToolFault::Output` if the writer has
    /// failed.
    fn judge<W: Sink>(
        &mut self,
        command: Command,
        piece: &[u8],
        end: LineEnd,
        frame: &mut [u8; MAX_FRAME_LEN],
        out: &mut OutputBuffer<'_, W>,
    ) -> Result<(), ToolFault> {
        let number = self.count.saturating_add(1);
        let Some(len) = self.line.end(piece, end, frame) else {
            return Err(ToolFault::BadLine(number));
        };
        let accepted = write_answer(command, &frame[..len], out);
        out.check()?;
        self.verdict = self.verdict.with(accepted);
        self.count = number;
        Ok(())
    }

    /// Takes the next bytes of the input, and writes the text for each line that ends in them, up to a bad one.
    ///
    /// <details><summary>Contract</summary>
    ///
    /// ```text
    /// ensures same_writer { out.new.writer.ghost_name ≡ out.old.writer.ghost_name }
    /// ensures ok { OnOk result (Advances command W.contents
    ///     self.old out.old chunk.now self.new out.new) }
    /// ensures bad { IfErr result (λ fault. OnBadLine fault (λ number. (later : List ℕ)
    ///     → StopsWithin command W.contents self.old out.old chunk.now later out.new number)) }
    /// ensures failed { IfErr result (λ fault. OnStreamFault fault ⊥ (out.new.has_failed ≡ true)) }
    /// ensures marks { Marks W.can_fail out.old out.new }
    /// ```
    ///
    /// </details>
    pub fn take_chunk<W: Sink>(
        &mut self,
        command: Command,
        chunk: &[u8],
        out: &mut OutputBuffer<'_, W>,
    ) -> Result<(), ToolFault> {
        let mut frame = [0; MAX_FRAME_LEN];
        let mut rest = chunk;
        while let Some((piece, after)) = split_line(rest) {
            self.judge(command, piece, LineEnd::LineFeed, &mut frame, out)?;
            rest = after;
        }
        self.line.extend(rest);
        Ok(())
    }

    /// Writes the text for the last line if no LF ended it, and returns the verdict.
    ///
    /// <details><summary>Contract</summary>
    ///
    /// ```text
    /// ensures same_writer { out.new.writer.ghost_name ≡ out.old.writer.ghost_name }
    /// ensures ok { IfOk result (Finishes command W.contents self out.old out.new) }
    /// ensures bad { IfErr result (λ fault. OnBadLine fault
    ///     (StopsWithin command W.contents self out.old [] [] out.new)) }
    /// ensures failed { IfErr result (λ fault. OnStreamFault fault ⊥ (out.new.has_failed ≡ true)) }
    /// ensures marks { Marks W.can_fail out.old out.new }
    /// ```
    ///
    /// </details>
    pub fn finish<W: Sink>(
        mut self,
        command: Command,
        out: &mut OutputBuffer<'_, W>,
    ) -> Result<Verdict, ToolFault> {
        if !self.line.is_empty() {
            let mut frame = [0; MAX_FRAME_LEN];
            self.judge(command, &[], LineEnd::InputEnd, &mut frame, out)?;
        }
        Ok(self.verdict)
    }
}

/// The bytes before the first LF, and those after it. `None` if there is no LF.
fn split_line(bytes: &[u8]) -> Option<(&[u8], &[u8])> {
    let skipped = blocks_len(bytes);
    match split_near(&bytes[skipped..]) {
        Some((piece, after)) => Some((&bytes[..skipped + piece.len()], after)),
        None => None,
    }
}

/// The number of bytes that [`blocks_len`] tests at once.
const BLOCK_LEN: usize = 32;

/// The number of bytes in the blocks of 32 before the first block that has an LF. A last block that is shorter is not
/// counted.
fn blocks_len(bytes: &[u8]) -> usize {
    let mut len = 0;
    while bytes.len() - len >= BLOCK_LEN {
        if has_line_feed(&bytes[len..len + BLOCK_LEN]) {
            return len;
        }
        len += BLOCK_LEN;
    }
    len
}

/// Whether one of the bytes is an LF. All bytes are tested, so that a processor can test many at once.
fn has_line_feed(bytes: &[u8]) -> bool {
    let mut found = false;
    for byte in bytes {
        found |= *byte == b'\n';
    }
    found
}

/// Like [`split_line`], but byte by byte.
fn split_near(bytes: &[u8]) -> Option<(&[u8], &[u8])> {
    match bytes.iter().position(|byte| *byte == b'\n') {
        Some(end) => Some((&bytes[..end], &bytes[end + 1..])),
        None => None,
    }
}
