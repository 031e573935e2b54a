//! The line that is being read.
use crate::ether_text::tool::digit_table::DigitTable;
use crate::ether_text::tool::parse_frame::{MAX_FRAME_LEN, MAX_LINE_DIGITS};
use arrayvec::ArrayVec;

/// What ended a line.
#[derive(Clone, Copy, PartialEq, Eq, Debug)]
pub enum LineEnd {
    /// An LF, after which another line may follow.
    LineFeed,
    /// The end of the input.
    InputEnd,
}

/// The room for a line in bytes: the digits of the longest frame, and a CR.
const ROOM: usize = MAX_LINE_DIGITS + 1;

/// The bytes of the line that is being read.
///
/// There is room for the 4,096 digits of the longest frame and a CR. A longer line is only marked as too long.
pub struct LineBuffer {
    bytes: ArrayVec<u8, ROOM>,
    is_long: bool,
    digits: DigitTable,
}

impl LineBuffer {
    /// Makes a buffer for a line that has no byte yet.
    ///
    /// <details><summary>Contract</summary>
    ///
    /// ```text
    /// ensures { KeepsLine result [] }
    /// ```
    ///
    /// </details>
    pub fn new() -> Self {
        LineBuffer {
            bytes: ArrayVec::new(),
            is_long: false,
            digits: DigitTable::new(),
        }
    }

    /// Begins the next line.
    ///
    /// <details><summary>Contract</summary>
    ///
    /// ```text
    /// ensures { KeepsLine self.new [] }
    /// ```
    ///
    /// </details>
    pub fn clear(&mut self) {
        self.bytes.clear();
        self.is_long = false;
    }

    /// Whether the line has no byte yet.
    ///
    /// <details><summary>Contract</summary>
    ///
    /// ```text
    /// ensures { (line : List ℕ) → KeepsLine self.now line → result ≡ (length line == 0) }
    /// ```
    ///
    /// </details>
    pub fn is_empty(&self) -> bool {
        !self.is_long && self.bytes.is_empty()
    }

    /// Appends a further piece of the line.
    ///
    /// <details><summary>Contract</summary>
    ///
    /// ```text
    /// ensures { (line : List ℕ) → KeepsLine self.old line
    ///     → KeepsLine self.new (line ++ piece.now) }
    /// ```
    ///
    /// </details>
    pub fn extend(&mut self, piece: &[u8]) {
        if self.bytes.try_extend_from_slice(piece).is_err() {
            self.is_long = true;
        }
    }

    /// Ends the line with its last piece, writes the frame that it names to the front of `frame`, and returns the
    /// frame's length in bytes. `None` if the line is bad. The next line then begins.
    ///
    /// A line that is one piece is not copied.
    ///
    /// <details><summary>Contract</summary>
    ///
    /// ```text
    /// ensures within { IfSome result (λ len. len ≤ max_frame_len) }
    /// ensures frame { (line : List ℕ) → KeepsLine self.old line
    ///     → IfSome result (λ len. IsFrame (without_end end (line ++ piece.now)) (take len frame.new)) }
    /// ensures bad { (line : List ℕ) → KeepsLine self.old line
    ///     → IfNone result (IsBadLine (without_end end (line ++ piece.now))) }
    /// ensures next { (line : List ℕ) → KeepsLine self.old line → KeepsLine self.new [] }
    /// ```
    ///
    /// </details>
    pub fn end(
        &mut self,
        piece: &[u8],
        end: LineEnd,
        frame: &mut [u8; MAX_FRAME_LEN],
    ) -> Option<usize> {
        if self.is_empty() {
            return self.digits.frame_of(without_end(piece, end), frame);
        }
        self.extend(piece);
        let len = self.frame(end, frame);
        self.clear();
        len
    }

    /// Writes the frame that the line names to the front of `frame`, and returns its length in bytes. `None` if the
    /// line is bad.
    fn frame(&self, end: LineEnd, frame: &mut [u8; MAX_FRAME_LEN]) -> Option<usize> {
        if self.is_long {
            return None;
        }
        self.digits
            .frame_of(without_end(self.bytes.as_slice(), end), frame)
    }
}

/// The line without the CR that may precede its LF. Only one CR is removed, and only if an LF ended the line.
fn without_end(line: &[u8], end: LineEnd) -> &[u8] {
    match (end, line) {
        (LineEnd::LineFeed, [front @ .., b'\r']) => front,
        _ => line,
    }
}
