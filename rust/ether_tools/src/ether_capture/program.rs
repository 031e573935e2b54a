//! The program, over any arguments, files, reader and writer.

use crate::ether_capture::captures::Captures;
use crate::ether_capture::copy_run::{copy_file, copy_input};
use crate::ether_capture::grouping::{Each, Grouping, Together};
use crate::ether_capture::journal::Journal;
use crate::ether_capture::merge_run::merge_counts;
use crate::ether_capture::options::request_of_words;
use crate::ether_capture::request::{Job, Request, RequestError};
use crate::ether_capture::run_input::run_input;
use crate::ether_capture::several_files::run_files;
use crate::ether_capture::statistics::Statistics;
use crate::ether_capture::statistics_format::StatisticsFormat;
use crate::ether_files::Copies;
use etherpeel::ether_format::Format;
use etherpeel::ether_output::{OutputBuffer, OutputFault, Sink};
use crate::ether_stream::{LineSink, Outcome, RunFault, Task, is_message, last_line, program_status};
use crate::ether_text::Source;
use crate::ether_capture::memory::Global;
use std::num::NonZeroUsize;
use std::{env, io};

/// Writes the lines of a capture, or a copy of it, as the arguments say, prints the last line if there is one, and
/// returns the exit status. Lines go to `writer`, and so does a copy, unless its file is named: then `copies` keeps it.
///
/// The last line goes to `messages`, so that `writer` has only the lines or the copy; but the usage and the version, if
/// they are asked for, go to `writer`. If the arguments are wrong or can't be read, nothing is read. Arguments that
/// can't be read are a fault of the input.
///
/// <details><summary>Contract</summary>
///
/// ```text
/// ensures served { HasServed (world (reads (names (C.has captures.now) C.can_refuse C.Input.Source.can_fail)
///     R.can_fail W.Sink.can_fail) (keeps K.can_refuse K.Part.Sink.can_fail (K.keeps_input copies.old))
///     M.Sink.can_fail J.is_known) (arguments_of args) (streams (R.remaining reader.old) (W.Sink.contents writer.old)
///     (M.Sink.contents messages.old) (K.file copies.old)) (streams (R.remaining reader.new)
///     (W.Sink.contents writer.new) (M.Sink.contents messages.new) (K.file copies.new)) result }
/// ensures flushed { result ≢ 4 → Settles W.Sink.is_flushed writer.old writer.new }
/// ensures told { Settles M.Sink.is_flushed messages.old messages.new ⊎ M.Sink.can_fail }
/// ```
///
/// </details>
pub fn run_program<J: Journal, C: Captures, K: Copies, R: Source, W: LineSink, M: LineSink>(
    args: io::Result<env::Args>,
    alloc: Global,
    captures: &C,
    copies: &mut K,
    reader: &mut R,
    writer: &mut W,
    messages: &mut M,
) -> u8 {
    let Ok(args) = args else {
        return finish(&Outcome::Run(Err(RunFault::Input)), writer, messages);
    };
    let Ok(words) = Ok::<Vec<String>, crate::ether_capture::memory::NoMemory>(args.collect()) else {
        return finish(&Outcome::NoMemory, writer, messages);
    };
    let outcome = carry_out_words::<J, C, K, R, W, M>(
        words.as_slice(),
        alloc,
        captures,
        copies,
        reader,
        writer,
        messages,
    );
    captures.end_line();
    finish(&outcome, writer, messages)
}

/// Carries out the request that words make, or says what is wrong with them.
fn carry_out_words<'a, J: Journal, C: Captures, K: Copies, R: Source, W: Sink, M: LineSink>(
    words: &'a [String],
    alloc: Global,
    captures: &C,
    copies: &mut K,
    reader: &mut R,
    writer: &mut W,
    messages: &mut M,
) -> Outcome<'a> {
    match request_of_words(words, alloc) {
        Ok(request) => carry_out_request::<J, C, K, R, W, M>(
            request, alloc, captures, copies, reader, writer, messages,
        ),
        Err(RequestError::Usage(usage)) => Outcome::Usage(usage),
        Err(RequestError::Memory) => Outcome::NoMemory,
        Err(RequestError::Filter(error)) => Outcome::NoFilter(error),
    }
}

/// Carries out a request. If counts are asked for, it counts the texts of columns, and writes the counts in place of
/// rows.
fn carry_out_request<
    'a,
    J: Journal,
    C: Captures,
    K: Copies,
    R: Source,
    W: Sink,
    M: LineSink,
>(
    request: Request<'a>,
    alloc: Global,
    captures: &C,
    copies: &mut K,
    reader: &mut R,
    writer: &mut W,
    messages: &mut M,
) -> Outcome<'a> {
    let Some(counting) = request.statistics() else {
        return write_lines_or_copy(request, alloc, captures, copies, reader, writer, messages);
    };
    if counting.is_joint {
        let mut counts = Statistics::<J, Together>::new(alloc);
        let outcome = write_lines_or_copy(
            request,
            alloc,
            captures,
            copies,
            reader,
            &mut counts,
            messages,
        );
        captures.end_line();
        write_counts(&mut counts, outcome, counting.format, writer)
    } else {
        let mut counts = Statistics::<J, Each>::new(alloc);
        let outcome = write_lines_or_copy(
            request,
            alloc,
            captures,
            copies,
            reader,
            &mut counts,
            messages,
        );
        captures.end_line();
        write_counts(&mut counts, outcome, counting.format, writer)
    }
}

/// Writes the counts of a run whose rows were counted, unless memory for these was refused.
fn write_counts<'a, J: Journal, G: Grouping, W: Sink>(
    counts: &mut Statistics<J, G>,
    outcome: Outcome<'a>,
    format: StatisticsFormat,
    writer: &mut W,
) -> Outcome<'a> {
    if counts.has_failed() || is_unwritten(&outcome) {
        return Outcome::NoMemory;
    }
    match counts.write(format, writer) {
        Ok(()) => outcome,
        Err(fault) => match fault {
            RunFault::Memory => Outcome::NoMemory,
            _ => Outcome::Run(Err(RunFault::Output)),
        },
    }
}

/// Tests that the writer has failed.
fn is_unwritten(outcome: &Outcome<'_>) -> bool {
    matches!(
        outcome,
        Outcome::Run(Err(RunFault::Output))
            | Outcome::File {
                end: Err(RunFault::Output),
                ..
            }
            | Outcome::Files(Err(_))
    )
}

/// Writes the lines of captures or a copy of one, after the names of columns, if a line of these is asked for.
fn write_lines_or_copy<'a, C: Captures, K: Copies, R: Source, W: Sink, M: LineSink>(
    request: Request<'a>,
    alloc: Global,
    captures: &C,
    copies: &mut K,
    reader: &mut R,
    writer: &mut W,
    messages: &mut M,
) -> Outcome<'a> {
    match request {
        Request::Run(job) => match write_heading(&job.heading.format(), writer) {
            Ok(()) => run_job(&job, alloc, captures, copies, reader, writer),
            Err(OutputFault) => Outcome::Run(Err(RunFault::Output)),
        },
        Request::List(listing) => match write_heading(&listing.heading.format(), writer) {
            Ok(()) => Outcome::Files(run_files(listing, alloc, captures, reader, writer, messages)),
            Err(OutputFault) => Outcome::Run(Err(RunFault::Output)),
        },
        Request::Merge(format) => merge_counts(format, alloc, reader, writer),
        Request::Help => Outcome::Help,
        Request::Version => Outcome::Version,
    }
}

/// Writes the line of the names of columns, if it is asked for.
fn write_heading<W: Sink>(heading: &Option<Format>, writer: &mut W) -> Result<(), OutputFault> {
    let Some(format) = heading else {
        return Ok(());
    };
    let mut out = OutputBuffer::new(writer);
    format.write_heading(&mut out);
    out.flush()
}

/// Writes what is made of one capture.
fn run_job<'a, C: Captures, K: Copies, R: Source, W: Sink>(
    job: &Job<'a>,
    alloc: Global,
    captures: &C,
    copies: &mut K,
    reader: &mut R,
    writer: &mut W,
) -> Outcome<'a> {
    if job.is_shown {
        captures.show();
    }
    match (job.input, job.output) {
        (None, None) => Outcome::Run(run_input(&job.task, job.jobs, alloc, reader, writer).0),
        (Some(name), None) => run_file(&job.task, job.jobs, name, alloc, captures, writer),
        (None, Some(output)) => copy_input(&job.task, output, alloc, copies, reader),
        (Some(name), Some(output)) => copy_file(&job.task, name, output, alloc, captures, copies),
    }
}

/// Writes what is made of the capture of a name.
fn run_file<'a, C: Captures, W: Sink>(
    task: &Task<'_>,
    jobs: Option<NonZeroUsize>,
    name: &'a str,
    alloc: Global,
    captures: &C,
    writer: &mut W,
) -> Outcome<'a> {
    match captures.open_named(name) {
        Ok(mut input) => Outcome::File {
            name,
            end: run_input(task, jobs, alloc, &mut input, writer).0,
        },
        Err(fault) => Outcome::NotOpened { name, fault },
    }
}

/// Prints the last line, if there is one, and returns the exit status.
fn finish<W: LineSink, M: LineSink>(outcome: &Outcome<'_>, writer: &mut W, messages: &mut M) -> u8 {
    let is_printed = print_apart(outcome, writer, messages);
    program_status(outcome, is_printed)
}

/// Prints the last line, if there is one, to the writer that it is for, and returns whether that took it.
fn print_apart<W: LineSink, M: LineSink>(
    outcome: &Outcome<'_>,
    writer: &mut W,
    messages: &mut M,
) -> bool {
    if is_message(outcome) {
        return print_last_line(outcome, messages);
    }
    print_last_line(outcome, writer)
}

/// Prints the last line, if there is one, and returns whether the writer took it.
fn print_last_line<W: LineSink>(outcome: &Outcome<'_>, writer: &mut W) -> bool {
    match last_line(outcome) {
        Some(line) => writer.put_line(&line).is_ok(),
        None => true,
    }
}
