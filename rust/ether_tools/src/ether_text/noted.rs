//! Streams that keep the error of a call that failed. Written by hand, not proved.
use crate::jobs::bell::is_interruption;
use std::io::{self, ErrorKind, Read, Write};

/// A reader or writer, and the error of the last call on it that failed, but for calls that a signal or the
/// [`bell`](crate::jobs::bell) interrupted.
///
/// A run says only that a stream has failed. This says why.
pub struct Noted<T> {
    stream: T,
    error: Option<io::Error>,
}

impl<T> Noted<T> {
    /// A stream. No call on it has failed yet.
    pub fn new(stream: T) -> Self {
        Noted { stream, error: None }
    }

    /// The error of the last call that failed, if one has.
    pub fn error(&self) -> Option<&io::Error> {
        self.error.as_ref()
    }

    /// Keeps the error of a call, if it has failed, unless it was interrupted: then it is tried again.
    fn note<V>(&mut self, answer: io::Result<V>) -> io::Result<V> {
        answer.map_err(|error| {
            let kind = error.kind();
            if kind != ErrorKind::Interrupted && !is_interruption(&error) {
                self.error = Some(error);
            }
            kind.into()
        })
    }
}

impl<R: Read> Read for Noted<R> {
    fn read(&mut self, buf: &mut [u8]) -> io::Result<usize> {
        let answer = self.stream.read(buf);
        self.note(answer)
    }
}

impl<W: Write> Write for Noted<W> {
    fn write(&mut self, buf: &[u8]) -> io::Result<usize> {
        let answer = self.stream.write(buf);
        self.note(answer)
    }

    fn flush(&mut self) -> io::Result<()> {
        let answer = self.stream.flush();
        self.note(answer)
    }

    fn write_all(&mut self, buf: &[u8]) -> io::Result<()> {
        let answer = self.stream.write_all(buf);
        self.note(answer)
    }
}

/// Says in one line which stream of a program failed, or its arguments, and why; or if none of these did, that a file can't be read.
///
/// Nothing is said where nobody reads the output any more, since who closed it knows.
pub fn tell_failure<M: Write>(
    program: &str,
    args: Option<&io::Error>,
    input: Option<&io::Error>,
    output: Option<&io::Error>,
    messages: &mut M,
) {
    let told = match (args, input, output) {
        (_, _, Some(error)) if error.kind() == ErrorKind::BrokenPipe => Ok(()),
        (_, _, Some(error)) => writeln!(messages, "{program}: standard output: {error}"),
        (Some(error), _, _) if error.kind() == ErrorKind::InvalidData => {
            writeln!(messages, "{program}: an argument is not UTF-8")
        }
        (Some(error), _, _) => writeln!(messages, "{program}: the arguments: {error}"),
        (_, Some(error), _) => writeln!(messages, "{program}: standard input: {error}"),
        _ => writeln!(messages, "{program}: a file can't be read"),
    };
    let _ = told;
}
