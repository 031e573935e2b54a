//! The reader of a run, which remembers that it failed.

use crate::ether_text::{InputFault, Source};
use etherpeel::ether_output::{OutputBuffer, Sink};

/// A reader that is called at most `u64::MAX` times. After a fault it is not called again.
///
/// ```
/// use etherpeel::ether_output::OutputBuffer;
/// use ether_tools::ether_text::InputReader;
/// use arrayvec::ArrayVec;
///
/// let mut bytes = [1, 2, 3].as_slice();
/// let mut written = ArrayVec::<u8, 4>::new();
/// let mut input = InputReader::new(&mut bytes);
/// let out = OutputBuffer::new(&mut written);
/// let mut chunk = [0; 2];
/// assert_eq!(input.read(&mut chunk, &out), Ok(2));
/// assert_eq!(chunk, [1, 2]);
/// assert_eq!(input.read(&mut chunk, &out), Ok(1));
/// assert_eq!(input.read(&mut chunk, &out), Ok(0));
/// ```
pub struct InputReader<'a, R> {
    inner: &'a mut R,
    reads_left: u64,
    has_failed: bool,
}

impl<'a, R: Source> InputReader<'a, R> {
    /// Wraps a reader, which has not failed, for up to `u64::MAX` reads.
    ///
    /// <details><summary>Contract</summary>
    ///
    /// ```text
    /// ensures same_reader { result.inner.ghost_name ≡ reader.entry.ghost_name }
    /// ensures remaining { result.inner.now ≡ reader.old }
    /// ensures fresh { result.has_failed ≡ false }
    /// ensures reads { result.reads_left ≡ 2 ^ 64 - 1 }
    /// ```
    ///
    /// </details>
    pub fn new(reader: &'a mut R) -> Self {
        InputReader {
            inner: reader,
            reads_left: u64::MAX,
            has_failed: false,
        }
    }

    /// Reads some bytes to the front of `chunk`, and returns their number: 0 at the end of the input.
    ///
    /// # Errors
    ///
    /// [`InputFault`] if the read fails, if an earlier one failed, after `u64::MAX` reads, or while text waits in
    /// `out`. The last makes sure that whoever reads the output has the lines for all that was read before.
    ///
    /// <details><summary>Contract</summary>
    ///
    /// ```text
    /// ensures same_reader { self.new.inner.ghost_name ≡ self.old.inner.ghost_name }
    /// ensures bound { IfOk result (λ count. count ≤ length chunk.new) }
    /// ensures read { IfOk result
    ///     (λ count. Consumes (R.remaining self.old.inner.now) (R.remaining self.new.inner.now)
    ///     (take count chunk.new)) }
    /// ensures end { IfOk result
    ///     (λ count. count ≡ 0 → 0 < length chunk.new → IsAtEnd (R.remaining self.new.inner.now)) }
    /// ensures left { OnOk result (self.new.reads_left + 1 ≡ self.old.reads_left) }
    /// ensures fresh { OnOk result (self.old.has_failed ≡ false) }
    /// ensures none_waits { OnOk result (out.now.waiting.items ≡ []) }
    /// ensures going { OnOk result (self.new.has_failed ≡ false) }
    /// ensures failed { OnErr result (self.new.has_failed ≡ true) }
    /// ensures cause { OnErr result (HasCause R.can_fail out.now self.old self.new) }
    /// ensures kept { OnErr result
    ///     (Keeps (R.remaining self.old.inner.now) (R.remaining self.new.inner.now)) }
    /// ```
    ///
    /// </details>
    pub fn read<W: Sink>(
        &mut self,
        chunk: &mut [u8],
        out: &OutputBuffer<'_, W>,
    ) -> Result<usize, InputFault> {
        if self.has_failed || self.reads_left == 0 || out.has_waiting() {
            self.has_failed = true;
            return Err(InputFault);
        }
        self.reads_left -= 1;
        match self.inner.read_some(chunk) {
            Ok(count) => Ok(count),
            Err(fault) => {
                self.has_failed = true;
                Err(fault)
            }
        }
    }
}
