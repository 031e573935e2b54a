//! The bytes of the capture that were read and are not taken yet.

use crate::ether_stream::progress::Progress;
use crate::ether_stream::{EditBuffer, Grow, NoMemory, RunFault, Task};
use etherpeel::ether_output::{OutputBuffer, Sink};
use etherpeel::ether_pcap::{CaptureError, InterfaceTable};
use crate::ether_text::{InputFault, InputReader, Source};

/// How many bytes an [`InputBuffer`] has room for at least.
const FIRST_ROOM: usize = 65_536;

/// Bytes of the input, in memory that grows to what a file header, a record or a block needs.
pub struct InputBuffer<B: Grow> {
    memory: B,
    start: usize,
    end: usize,
}

impl<B: Grow> InputBuffer<B> {
    /// A buffer with no bytes, in memory that grows to 65,536 at once.
    ///
    /// <details><summary>Contract</summary>
    ///
    /// ```text
    /// ensures { IfOk result (λ buffer. items buffer ≡ []) }
    /// ```
    ///
    /// </details>
    pub fn new(memory: B) -> Result<Self, NoMemory> {
        let mut memory = memory;
        memory.grow(FIRST_ROOM)?;
        Ok(InputBuffer {
            memory,
            start: 0,
            end: 0,
        })
    }

    /// Takes all bytes.
    pub(in crate::ether_stream) fn clear(&mut self) {
        self.start = 0;
        self.end = 0;
    }

    /// The number of bytes that are not taken yet.
    pub(in crate::ether_stream) fn len(&self) -> usize {
        self.end - self.start
    }

    /// Takes the units at the front, and writes what is made of each. Returns why the bytes that are left do not
    /// begin with a unit, or `None` if the requested number of packets was reached.
    pub(in crate::ether_stream) fn take_units<T: InterfaceTable, W: Sink>(
        &mut self,
        progress: &mut Progress<T>,
        task: &Task<'_>,
        edits: &mut EditBuffer<B>,
        out: &mut OutputBuffer<'_, W>,
    ) -> Result<Option<CaptureError>, RunFault> {
        let (start, end) = (self.start, self.end);
        let bytes = &self.memory.bytes()[start..end];
        let (taken, error) = progress.take_units(task, edits, bytes, out)?;
        self.start = start + taken;
        Ok(error)
    }

    /// Makes room for a unit of `len` bytes.
    pub(in crate::ether_stream) fn make_room(&mut self, len: usize) -> Result<(), NoMemory> {
        if self.memory.bytes().len() < len {
            self.memory.grow(len)?;
        }
        Ok(())
    }

    /// Moves the bytes to the front, so that all the room that is left is after them.
    fn move_to_front(&mut self) {
        if self.start == 0 {
            return;
        }
        let (start, end) = (self.start, self.end);
        self.memory.bytes_mut().copy_within(start..end, 0);
        self.start = 0;
        self.end = end - start;
    }

    /// Reads some bytes after those that are there, and returns their number: 0 at the end of the input, and if there
    /// is no room.
    ///
    /// No text may wait in `out`.
    pub(in crate::ether_stream) fn read<R: Source, W: Sink>(
        &mut self,
        input: &mut InputReader<'_, R>,
        out: &OutputBuffer<'_, W>,
    ) -> Result<usize, InputFault> {
        self.move_to_front();
        let end = self.end;
        let count = read_after(end, self.memory.bytes_mut(), input, out)?;
        self.end = end + count;
        Ok(count)
    }
}

/// Reads some bytes into a slice from `end` on, and returns their number. The bytes before `end` are unchanged.
fn read_after<R: Source, W: Sink>(
    end: usize,
    bytes: &mut [u8],
    input: &mut InputReader<'_, R>,
    out: &OutputBuffer<'_, W>,
) -> Result<usize, InputFault> {
    input.read(&mut bytes[end..], out)
}
