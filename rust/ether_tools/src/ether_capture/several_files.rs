//! Reads several captures, one after the other.

use crate::ether_capture::captures::Captures;
use crate::ether_capture::request::{Listing, name_bytes, named};
use crate::ether_capture::run_input::run_input;
use etherpeel::ether_output::{OutputBuffer, OutputFault, Sink};
use crate::ether_stream::{
    FileEnd, Form, LastLine, LineSink, PacketCounts, RunFault, Task, line_of_file, line_of_input,
    status_of_file, write_totals,
};
use crate::ether_text::Source;
use crate::ether_capture::memory::Global;
use std::num::NonZeroUsize;

/// What the captures so far had.
#[derive(Clone, Copy, Debug)]
pub struct Tally {
    /// How many packets.
    pub packets: usize,
    /// How many of these were skipped.
    pub skipped: usize,
    /// How many of these are undecided: their captured bytes don't decide whether they are selected.
    pub undecided: usize,
    /// How many further packets are asked for, if their number is limited.
    pub left: Option<usize>,
    /// The greatest exit status of a capture.
    pub status: u8,
}

impl Tally {
    /// The tally before the first capture.
    fn new(asked_for: Option<usize>) -> Tally {
        Tally {
            packets: 0,
            skipped: 0,
            undecided: 0,
            left: asked_for,
            status: 0,
        }
    }

    /// The tally after another capture.
    fn with(&self, counts: PacketCounts, end: &FileEnd) -> Tally {
        Tally {
            packets: counts.number,
            skipped: self.skipped.saturating_add(counts.skipped),
            undecided: self.undecided.saturating_add(counts.undecided),
            left: counts.left,
            status: self.status.max(status_of_file(end)),
        }
    }

    /// Tests that the requested number of packets was reached.
    fn is_done(&self) -> bool {
        matches!(self.left, Some(0))
    }

    /// How many further packets are asked for, if their number is limited and not 0.
    fn count(&self) -> Option<NonZeroUsize> {
        match self.left {
            Some(left) => NonZeroUsize::new(left),
            None => None,
        }
    }
}

/// Writes the lines of several captures, one after the other, and then the line of the totals of all. If a capture is
/// not read to its end, writes the reason to `messages`. Returns the greatest exit status of a capture. A name of `-`
/// is that of standard input, `reader`.
///
/// <details><summary>Contract</summary>
///
/// ```text
/// ensures listed { (files : List ℕ → Option (List ℕ)) → HasListed (reads
///     (names (C.has captures.now) C.can_refuse C.Input.Source.can_fail) R.can_fail W.can_fail) M.Sink.can_fail
///     (listing_view listing.entry) (streams (R.remaining reader.old) (W.contents writer.old)
///     (M.Sink.contents messages.old) files) (streams (R.remaining reader.new) (W.contents writer.new)
///     (M.Sink.contents messages.new) files) result }
/// ensures flushed { OnOk result (W.is_flushed writer.new) }
/// ensures told { Settles M.Sink.is_flushed messages.old messages.new ⊎ M.Sink.can_fail }
/// ```
///
/// </details>
pub fn run_files<C: Captures, R: Source, W: Sink, M: LineSink>(
    listing: Listing<'_>,
    alloc: Global,
    captures: &C,
    reader: &mut R,
    writer: &mut W,
    messages: &mut M,
) -> Result<u8, OutputFault> {
    if listing.is_shown {
        captures.show();
    }
    let is_plain = listing.options.is_plain;
    let selects = listing.selection.is_some();
    let tally = read_files(listing, alloc, captures, reader, writer, messages)?;
    let undecided = if selects { Some(tally.undecided) } else { None };
    write_last(is_plain, &tally, undecided, writer)?;
    Ok(tally.status)
}

/// Writes what is made of each capture, until the requested number of packets is reached.
fn read_files<C: Captures, R: Source, W: Sink, M: LineSink>(
    listing: Listing<'_>,
    alloc: Global,
    captures: &C,
    reader: &mut R,
    writer: &mut W,
    messages: &mut M,
) -> Result<Tally, OutputFault> {
    let options = listing.options;
    let jobs = listing.jobs;
    let mut files = listing.files.into_iter();
    let mut task = Task {
        selection: listing.selection,
        count: listing.count,
        form: Form::Lines(options),
    };
    let mut tally = Tally::new(task.asked_for());
    while let Some(name) = files.next() {
        if tally.is_done() {
            return Ok(tally);
        }
        task.count = tally.count();
        task.form = Form::Lines(options.after(name_bytes(named(name)), tally.packets));
        let (end, counts) = read_file(
            &task, jobs, name, alloc, captures, reader, writer, messages,
        )?;
        tally = tally.with(counts, &end);
    }
    Ok(tally)
}

/// Writes what is made of one capture, and to `messages` why it was not read to its end, if it was not. Returns how it
/// ended, and how many packets were read.
fn read_file<C: Captures, R: Source, W: Sink, M: LineSink>(
    task: &Task<'_>,
    jobs: Option<NonZeroUsize>,
    name: &str,
    alloc: Global,
    captures: &C,
    reader: &mut R,
    writer: &mut W,
    messages: &mut M,
) -> Result<(FileEnd, PacketCounts), OutputFault> {
    let (end, counts) = end_of_file(task, jobs, name, alloc, captures, reader, writer);
    if is_output_fault(&end) {
        return Err(OutputFault);
    }
    captures.end_line();
    tell_reason(name, &end, messages);
    Ok((end, counts))
}

/// Tests that the writer failed.
fn is_output_fault(end: &FileEnd) -> bool {
    matches!(end, FileEnd::Read(Err(RunFault::Output)))
}

/// Writes to `messages` why a capture was not read to its end, if it was not.
fn tell_reason<M: LineSink>(name: &str, end: &FileEnd, messages: &mut M) {
    if let Some(line) = line_of_capture(name, end) {
        let _ = messages.put_line(&line);
    }
}

/// The line that says why a capture was not read to its end, if it was not.
fn line_of_capture<'a>(name: &'a str, end: &'a FileEnd) -> Option<LastLine<'a>> {
    match (named(name), end) {
        (Some(name), _) => line_of_file(name, end),
        (None, FileEnd::Read(end)) => line_of_input(end),
        (None, FileEnd::NotOpened(_)) => None,
    }
}

/// Writes what is made of one capture, and returns how it ended, and how many packets were read.
fn end_of_file<C: Captures, R: Source, W: Sink>(
    task: &Task<'_>,
    jobs: Option<NonZeroUsize>,
    name: &str,
    alloc: Global,
    captures: &C,
    reader: &mut R,
    writer: &mut W,
) -> (FileEnd, PacketCounts) {
    let Some(name) = named(name) else {
        let (end, counts) = run_input(task, jobs, alloc, reader, writer);
        return (FileEnd::Read(end), counts);
    };
    match captures.open_named(name) {
        Ok(mut input) => {
            let (end, counts) = run_input(task, jobs, alloc, &mut input, writer);
            (FileEnd::Read(end), counts)
        }
        Err(fault) => (FileEnd::NotOpened(fault), PacketCounts::none(task)),
    }
}

/// Writes the line of the totals, unless only those of walks are asked for.
fn write_last<W: Sink>(
    is_plain: bool,
    tally: &Tally,
    undecided: Option<usize>,
    writer: &mut W,
) -> Result<(), OutputFault> {
    let mut out = OutputBuffer::new(writer);
    write_totals(is_plain, tally.packets, tally.skipped, undecided, &mut out);
    out.flush()
}
