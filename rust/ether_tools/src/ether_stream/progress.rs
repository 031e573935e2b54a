//! How far a run has come.

use crate::ether_stream::copying::{write_other, write_packet};
use crate::ether_stream::frame_lines::{is_skipped, write_lines, write_totals_of};
use crate::ether_stream::{EditBuffer, Form, Grow, PacketCounts, RunFault, SectionTable, Task};
use etherpeel::ether_output::{OutputBuffer, Sink};
use etherpeel::ether_pcap::{CaptureError, CaptureFault, CaptureReader, CapturedPacket, InterfaceTable};
use crate::ether_text::Verdict;

/// Where the run is in the capture, and the counts and the verdict of the packets before that.
pub struct Progress<T: InterfaceTable> {
    reader: CaptureReader<T>,
    count: usize,
    skipped: usize,
    undecided: usize,
    offset: usize,
    left: Option<usize>,
    verdict: Verdict,
}

impl<T: SectionTable> Progress<T> {
    /// The state of a run that has read nothing.
    ///
    /// <details><summary>Contract</summary>
    ///
    /// ```text
    /// ensures { IsStart (task_view task.now) result }
    /// ```
    ///
    /// </details>
    pub fn new(task: &Task<'_>, interfaces: T) -> Self {
        Progress {
            reader: CaptureReader::new(interfaces),
            count: task.packets_before(),
            skipped: 0,
            undecided: 0,
            offset: 0,
            left: task.asked_for(),
            verdict: Verdict::AllAccepted,
        }
    }
}

impl<T: InterfaceTable> Progress<T> {
    /// How many packets were read.
    ///
    /// <details><summary>Contract</summary>
    ///
    /// ```text
    /// ensures { result ≡ counts_at self.now }
    /// ```
    ///
    /// </details>
    pub fn counts(&self) -> PacketCounts {
        PacketCounts {
            number: self.count,
            skipped: self.skipped,
            undecided: self.undecided,
            left: self.left,
        }
    }

    /// Takes the units at the front of `bytes`, and writes what is made of each. Returns how many bytes were taken,
    /// and why those that are left do not begin with a unit, or `None` if the requested number of packets was
    /// reached.
    ///
    /// <details><summary>Contract</summary>
    ///
    /// ```text
    /// ensures same_writer { out.new.writer.ghost_name ≡ out.old.writer.ghost_name }
    /// ensures within { IfOk result (λ found. found.0 ≤ length bytes.now) }
    /// ensures ok { IfOk result (λ found. TakesUnits (task_view task.now) W.contents bytes.now
    ///     self.old out.old (drop found.0 bytes.now) found.1 self.new out.new) }
    /// ensures stopped { IfErr result (λ fault. OnNotEdited fault (λ offset.
    ///     StopsAfter (task_view task.now) W.contents bytes.now self.old out.old offset out.new)) }
    /// ensures fault { IfErr result IsTakingFault }
    /// ensures failed { IfErr result (λ fault. OnOutput fault (out.new.has_failed ≡ true)) }
    /// ensures marks { Marks W.can_fail out.old out.new }
    /// ```
    ///
    /// </details>
    pub fn take_units<B: Grow, W: Sink>(
        &mut self,
        task: &Task<'_>,
        edits: &mut EditBuffer<B>,
        bytes: &[u8],
        out: &mut OutputBuffer<'_, W>,
    ) -> Result<(usize, Option<CaptureError>), RunFault> {
        let mut at = 0;
        while !self.is_done() {
            let unit = match self.reader.read(&bytes[at..]) {
                Ok(unit) => unit,
                Err(error) => return Ok((at, Some(error))),
            };
            let end = at + unit.len;
            self.take_unit(task, edits, &bytes[at..end], &unit.packet, out)?;
            at = end;
        }
        Ok((at, None))
    }

    /// Tests that the requested number of packets was reached.
    fn is_done(&self) -> bool {
        matches!(self.left, Some(0))
    }

    /// Takes a unit that was just read, with its packet if it has one, and writes what is made of it.
    #[inline(always)]
    fn take_unit<B: Grow, W: Sink>(
        &mut self,
        task: &Task<'_>,
        edits: &mut EditBuffer<B>,
        unit: &[u8],
        packet: &Option<CapturedPacket<'_>>,
        out: &mut OutputBuffer<'_, W>,
    ) -> Result<(), RunFault> {
        let is_chosen = is_chosen(task, packet);
        let Some(accepted) = self.write_unit(task, is_chosen, edits, unit, packet, out) else {
            return Err(RunFault::NotEdited(self.offset));
        };
        out.check()?;
        self.count_packet(task, is_chosen, packet);
        self.judge(accepted);
        self.offset = self.offset.saturating_add(unit.len());
        Ok(())
    }

    /// Sets the verdict to [`Verdict::SomeRefused`] if a packet is refused.
    #[inline(always)]
    fn judge(&mut self, accepted: bool) {
        if !accepted {
            self.verdict = Verdict::SomeRefused;
        }
    }

    /// Writes what is made of a unit, and returns whether its packet is accepted. Returns `None` and writes nothing
    /// if the packet is to be edited, and can't be.
    #[inline(always)]
    fn write_unit<B: Grow, W: Sink>(
        &self,
        task: &Task<'_>,
        is_chosen: bool,
        edits: &mut EditBuffer<B>,
        unit: &[u8],
        packet: &Option<CapturedPacket<'_>>,
        out: &mut OutputBuffer<'_, W>,
    ) -> Option<bool> {
        let Some(packet) = packet else {
            self.write_other(&task.form, unit, out);
            return Some(true);
        };
        if !is_chosen {
            return Some(true);
        }
        match &task.form {
            Form::Lines(options) => Some(write_lines(options, &self.count, packet, out)),
            Form::Copy { mode, edit } => {
                if write_packet(&self.reader, *mode, *edit, edits, unit, packet, out) {
                    Some(true)
                } else {
                    None
                }
            }
        }
    }

    /// Writes what a copy has of a unit without a packet, if a copy is made.
    #[inline(always)]
    fn write_other<W: Sink>(&self, form: &Form<'_>, unit: &[u8], out: &mut OutputBuffer<'_, W>) {
        if let Form::Copy { mode, .. } = form {
            write_other(&self.reader, *mode, unit, out);
        }
    }

    /// Counts the packet of a unit, if it has one.
    #[inline(always)]
    fn count_packet(
        &mut self,
        task: &Task<'_>,
        is_chosen: bool,
        packet: &Option<CapturedPacket<'_>>,
    ) {
        let Some(packet) = packet else {
            return;
        };
        self.count = self.count.saturating_add(1);
        self.skipped = skipped_after(self.skipped, packet);
        if task.leaves_open(packet) {
            self.undecided = self.undecided.saturating_add(1);
        }
        if let Some(left) = self.left {
            if is_chosen {
                self.left = Some(left.saturating_sub(1));
            }
        }
    }

    /// Why the run stops if the unit at its place can't be read.
    ///
    /// <details><summary>Contract</summary>
    ///
    /// ```text
    /// ensures { result ≡ RunFault.Capture
    ///     (record { offset = self.now.offset; error = error }) }
    /// ```
    ///
    /// </details>
    pub fn fault(&self, error: CaptureError) -> RunFault {
        RunFault::Capture(CaptureFault {
            offset: self.offset,
            error,
        })
    }

    /// Tests that a unit was taken.
    ///
    /// <details><summary>Contract</summary>
    ///
    /// ```text
    /// ensures { IsTrue result ↔ HasBegun self.now.reader }
    /// ```
    ///
    /// </details>
    pub fn has_begun(&self) -> bool {
        self.reader.has_begun()
    }

    /// Ends the run at the end of the capture: writes the line of the totals, if there is to be one, and returns the
    /// verdict.
    ///
    /// <details><summary>Contract</summary>
    ///
    /// ```text
    /// ensures same_writer { out.new.writer.ghost_name ≡ out.old.writer.ghost_name }
    /// ensures ok { IfOk result (λ verdict. verdict ≡ self.now.verdict) }
    /// ensures written { OnOk result (Appends (contents_of W.contents out.old) (contents_of W.contents out.new)
    ///     (last_lines (form_view task.now.form) self.now.count self.now.skipped
    ///     (if_selected task.now.selection self.now.undecided))) }
    /// ensures fault { IfErr result (λ fault. fault ≡ RunFault.Output) }
    /// ensures failed { IfErr result (λ fault. out.new.has_failed ≡ true) }
    /// ensures marks { Marks W.can_fail out.old out.new }
    /// ```
    ///
    /// </details>
    pub fn finish<W: Sink>(
        &self,
        task: &Task<'_>,
        out: &mut OutputBuffer<'_, W>,
    ) -> Result<Verdict, RunFault> {
        if let Form::Lines(options) = &task.form {
            let undecided = task.if_selected(self.undecided);
            write_totals_of(options, self.count, self.skipped, undecided, out);
        }
        out.check()?;
        Ok(self.verdict)
    }
}

/// Tests that the packet of a unit is chosen.
#[inline(always)]
fn is_chosen(task: &Task<'_>, packet: &Option<CapturedPacket<'_>>) -> bool {
    match packet {
        Some(packet) => task.chooses(packet),
        None => false,
    }
}

/// How many packets are skipped up to this one, if `skipped` before it are.
#[inline(always)]
fn skipped_after(skipped: usize, packet: &CapturedPacket<'_>) -> usize {
    if is_skipped(packet) {
        return skipped.saturating_add(1);
    }
    skipped
}
