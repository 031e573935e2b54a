//! Reasons that are added to lines on standard error. Written by hand, not proved.
use crate::ending::Ending;
use crate::jobs::bell::is_interruption;
use std::cell::RefCell;
use std::io::{self, Error, Read, Write};
use std::mem;

/// How the line of a capture ends that can't be read.
const UNREADABLE: &[u8] = b": can't be read\n";

/// How the line of a capture ends that was not opened, without a reason.
const UNOPENED: &[u8] = b": can't be opened\n";

/// Why the last read of a capture failed, if the system does not say it.
#[derive(Default)]
pub struct Reasons {
    last: RefCell<Option<Error>>,
}

/// A reader whose error is kept as a reason, unless it is one of the system.
pub struct WithReason<'a, R> {
    stream: R,
    reasons: &'a Reasons,
}

impl<'a, R> WithReason<'a, R> {
    /// A reader.
    pub fn new(stream: R, reasons: &'a Reasons) -> Self {
        WithReason { stream, reasons }
    }
}

impl<R: Read> Read for WithReason<'_, R> {
    fn read(&mut self, buf: &mut [u8]) -> io::Result<usize> {
        self.stream.read(buf).map_err(|error| {
            let kind = error.kind();
            let is_reason = error.raw_os_error().is_none() && !is_interruption(&error);
            *self.reasons.last.borrow_mut() = Some(error).filter(|_| is_reason);
            kind.into()
        })
    }
}

/// A writer of whole lines. The line of a capture that can't be read gets the reason, if there is one. Once a signal has
/// ended the run, nothing is said of captures that are not read: the line of the signal says it of all.
pub struct Messages<'a, W> {
    writer: W,
    line: Vec<u8>,
    reasons: &'a Reasons,
    ending: &'a Ending,
}

impl<'a, W: Write> Messages<'a, W> {
    /// A writer of lines. It has none yet.
    pub fn new(writer: W, reasons: &'a Reasons, ending: &'a Ending) -> Self {
        Messages { writer, line: Vec::new(), reasons, ending }
    }

    /// Writes the line, which is whole now.
    fn end_line(&mut self) -> io::Result<()> {
        let mut line = mem::take(&mut self.line);
        let is_unreadable = line.ends_with(UNREADABLE);
        if self.ending.has_cut() && (is_unreadable || line.ends_with(UNOPENED)) {
            return Ok(());
        }
        if let Some(reason) = self.reasons.last.take().filter(|_| is_unreadable) {
            line.pop();
            writeln!(line, ": {reason}")?;
        }
        self.writer.write_all(&line)
    }
}

impl<W: Write> Write for Messages<'_, W> {
    fn write(&mut self, buf: &[u8]) -> io::Result<usize> {
        for part in buf.split_inclusive(|byte| *byte == b'\n') {
            self.line.extend_from_slice(part);
            if part.ends_with(b"\n") {
                self.end_line()?;
            }
        }
        Ok(buf.len())
    }

    fn flush(&mut self) -> io::Result<()> {
        self.writer.flush()
    }
}
