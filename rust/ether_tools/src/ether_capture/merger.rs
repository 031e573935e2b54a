//! Adds up counts that were printed.

use crate::ether_capture::count_line::count_in;
use crate::ether_capture::count_table::CountTable;
use crate::ether_capture::heap_text::HeapText;
use crate::ether_capture::statistics_format::StatisticsFormat;
use etherpeel::ether_format::split_at;
use etherpeel::ether_output::{OutputBuffer, Sink};
use crate::ether_stream::NoMemory;
use crate::ether_text::InputFault;
use crate::ether_capture::memory::Global;

/// Why counts were not added up.
#[derive(Clone, Copy, PartialEq, Eq, Debug)]
pub enum MergeFault {
    /// The line of this number, counted from 1, is not that of a count, or does not end.
    Line(usize),
    /// The reader failed, or did not end.
    Input,
    /// Memory for a line or a key was refused.
    Memory,
}

impl From<NoMemory> for MergeFault {
    fn from(_fault: NoMemory) -> MergeFault {
        MergeFault::Memory
    }
}

impl From<InputFault> for MergeFault {
    fn from(_fault: InputFault) -> MergeFault {
        MergeFault::Input
    }
}

/// The sums of the counts so far, and the bytes after the last line feed.
pub struct Merger {
    line: HeapText,
    /// How many lines were taken.
    lines: usize,
    counts: CountTable,
}

impl Merger {
    /// No line yet.
    ///
    /// <details><summary>Contract</summary>
    ///
    /// ```text
    /// ensures { Merges [] result }
    /// ```
    ///
    /// </details>
    pub fn new(alloc: Global) -> Merger {
        Merger {
            line: HeapText::new(alloc),
            lines: 0,
            counts: CountTable::new(alloc),
        }
    }

    /// Takes the next bytes. Returns [`MergeFault::Line`] at the first line that is not that of a count.
    ///
    /// <details><summary>Contract</summary>
    ///
    /// ```text
    /// ensures taken { (text : List ℕ) → Merges text self.old → OnOk result (Merges (text ++ bytes.now) self.new) }
    /// ensures refused { (text : List ℕ) → Merges text self.old → IfErr result (RefusesIn (text ++ bytes.now)) }
    /// ```
    ///
    /// </details>
    pub fn take(&mut self, bytes: &[u8]) -> Result<(), MergeFault> {
        let mut rest = bytes;
        while let Some((before, after)) = split_at(b'\n', rest) {
            self.line.append(before)?;
            self.end_line()?;
            rest = after;
        }
        self.line.append(rest)?;
        Ok(())
    }

    /// Ends the line, and adds its count.
    fn end_line(&mut self) -> Result<(), MergeFault> {
        let number = self.lines.saturating_add(1);
        let Some((key, count)) = count_in(self.line.as_slice()) else {
            return Err(MergeFault::Line(number));
        };
        self.counts.add(key, count)?;
        self.lines = number;
        self.line.clear();
        Ok(())
    }

    /// Ends the text. Returns [`MergeFault::Line`] if its last line does not end.
    ///
    /// <details><summary>Contract</summary>
    ///
    /// ```text
    /// ensures whole { (text : List ℕ) → Merges text self.now → OnOk result (last_piece 10 [] text ≡ []) }
    /// ensures cut { (text : List ℕ) → Merges text self.now → IfErr result (IsCut text) }
    /// ```
    ///
    /// </details>
    pub fn finish(&self) -> Result<(), MergeFault> {
        if self.line.as_slice().is_empty() {
            return Ok(());
        }
        Err(MergeFault::Line(self.lines.saturating_add(1)))
    }

    /// Writes a line for each key, in the order of their bytes.
    ///
    /// <details><summary>Contract</summary>
    ///
    /// ```text
    /// ensures { TakesStatistics W.contents W.can_fail format (count_at self.now.counts) out.old out.new }
    /// ```
    ///
    /// </details>
    pub fn write<W: Sink>(&self, format: StatisticsFormat, out: &mut OutputBuffer<'_, W>) {
        self.counts.write(format, out);
    }
}
