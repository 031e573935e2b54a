//! Rows of columns, whose texts are counted.

use crate::ether_capture::count::Count;
use crate::ether_capture::count_table::CountTable;
use crate::ether_capture::grouping::Grouping;
use crate::ether_capture::heap_text::HeapText;
use crate::ether_capture::row_counts::{first_field, or_nothing};
use crate::ether_capture::row_slot::{RowSlot, count_waiting, take_row};
use crate::ether_capture::row_slots::{empty_slots, no_slots};
use crate::ether_capture::statistics_format::StatisticsFormat;
use etherpeel::ether_format::split_at;
use etherpeel::ether_output::{OutputBuffer, Sink};
use crate::ether_stream::NoMemory;
use crate::ether_capture::memory::Global;

/// The counts of the lines so far, and the bytes after the last line feed. The first line names the columns.
///
/// Rows with the same texts are many, so they wait in slots, and are counted by the texts of columns together.
pub struct Rows {
    alloc: Global,
    heading: HeapText,
    has_heading: bool,
    line: HeapText,
    key: HeapText,
    total: Count,
    slots: Vec<RowSlot>,
    counts: CountTable,
}

impl Rows {
    /// No line yet.
    ///
    /// <details><summary>Contract</summary>
    ///
    /// ```text
    /// ensures { (joint : Bool) → Tabulates joint [] result }
    /// ```
    ///
    /// </details>
    pub fn new(alloc: Global) -> Rows {
        Rows {
            alloc,
            heading: HeapText::new(alloc),
            has_heading: false,
            line: HeapText::new(alloc),
            key: HeapText::new(alloc),
            total: Count {
                packets: 0,
                bytes: 0,
            },
            slots: no_slots(alloc),
            counts: CountTable::new(alloc),
        }
    }

    /// Takes the next bytes. Returns [`NoMemory`] if memory for them is refused.
    ///
    /// `G` says whether columns are counted together, and must always be the same.
    ///
    /// <details><summary>Contract</summary>
    ///
    /// ```text
    /// ensures { (text : List ℕ) → Tabulates G.is_joint text self.old
    ///     → OnOk result (Tabulates G.is_joint (text ++ bytes.now) self.new) }
    /// ```
    ///
    /// </details>
    pub fn take<G: Grouping>(&mut self, bytes: &[u8]) -> Result<(), NoMemory> {
        let mut rest = bytes;
        while let Some((before, after)) = split_at(b'\n', rest) {
            self.extend_line(before)?;
            self.end_line::<G>()?;
            rest = after;
        }
        self.extend_line(rest)?;
        Ok(())
    }

    /// Counts the rows that wait, and all packets under a key of their own. Returns [`NoMemory`] if memory for that is
    /// refused. No line is taken after that.
    ///
    /// <details><summary>Contract</summary>
    ///
    /// ```text
    /// ensures { (text : List ℕ) → Tabulates G.is_joint text self.old → OnOk result ((q : List ℕ)
    ///     → count_at self.new.counts q ≡ lines_counts G.is_joint (lines_of text) q) }
    /// ```
    ///
    /// </details>
    pub fn add_total<G: Grouping>(&mut self) -> Result<(), NoMemory> {
        count_waiting::<G>(
            self.slots.as_slice(),
            self.heading.as_slice(),
            &mut self.key,
            &mut self.counts,
        )?;
        self.counts.insert(b"total\t", self.total)
    }

    /// Writes a line for each text of a column, in the order of their bytes.
    ///
    /// <details><summary>Contract</summary>
    ///
    /// ```text
    /// ensures { TakesStatistics W.contents W.can_fail format (count_at self.now.counts) out.old out.new }
    /// ```
    ///
    /// </details>
    pub fn write<W: Sink>(&self, format: StatisticsFormat, out: &mut OutputBuffer<'_, W>) {
        self.counts.write(format, out);
    }

    /// Takes bytes of the line.
    fn extend_line(&mut self, bytes: &[u8]) -> Result<(), NoMemory> {
        self.line.append(bytes)?;
        Ok(())
    }

    /// Ends the line, which is the heading or a row.
    fn end_line<G: Grouping>(&mut self) -> Result<(), NoMemory> {
        self.take_line::<G>()?;
        self.line.clear();
        Ok(())
    }

    /// Takes the line as the heading if there is none yet, or counts it.
    fn take_line<G: Grouping>(&mut self) -> Result<(), NoMemory> {
        if !self.has_heading {
            self.slots = empty_slots(self.alloc)?;
            self.heading.append(self.line.as_slice())?;
            self.has_heading = true;
            return Ok(());
        }
        let (len, fields) = first_field(self.line.as_slice());
        let more = Count::of_packet(decimal_value(len));
        take_row::<G>(
            self.slots.as_mut_slice(),
            or_nothing(fields),
            more,
            self.heading.as_slice(),
            &mut self.key,
            &mut self.counts,
        )?;
        self.total = self.total.with(more);
        Ok(())
    }
}

/// The number that decimal digits spell, or the greatest there is.
pub(in crate::ether_capture) fn decimal_value(digits: &[u8]) -> usize {
    let mut value: usize = 0;
    for digit in digits {
        value = value
            .saturating_mul(10)
            .saturating_add(usize::from(digit.saturating_sub(48)));
    }
    value
}
