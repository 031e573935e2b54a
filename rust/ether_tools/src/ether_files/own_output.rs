//! Whether an input is the file that standard output is. Written by hand, not proved.
use crate::streams;
use std::fs::{self, File, Metadata};
use std::io::{self, Error, Read};
use std::os::unix::fs::MetadataExt;

/// Standard output, if it is a regular file. What reads that file reads what is written, without end.
#[derive(Clone, Copy, Default, PartialEq, Eq, Debug)]
pub struct OwnOutput {
    file: Option<(u64, u64)>,
}

impl OwnOutput {
    /// Standard output.
    pub fn new() -> Self {
        let found = streams::output().and_then(|output| output.metadata());
        OwnOutput { file: found.ok().filter(Metadata::is_file).map(|found| (found.dev(), found.ino())) }
    }

    /// Tests that a file is this one.
    pub fn is(&self, found: &Metadata) -> bool {
        self.file == Some((found.dev(), found.ino()))
    }

    /// Tests that the file of a name is this one and has bytes.
    pub fn is_named(&self, name: &str) -> bool {
        fs::metadata(name).is_ok_and(|found| found.len() > 0 && self.is(&found))
    }

    /// Tests that standard input is this file.
    pub fn is_input(&self) -> bool {
        streams::input().and_then(|input| input.metadata()).is_ok_and(|found| self.is(&found))
    }

    /// A reader that is made of a file. It fails if that is this one and has bytes.
    pub fn guard<R>(&self, file: File, reader: impl FnOnce(File) -> R) -> Guarded<R> {
        let is_output = file.metadata().is_ok_and(|found| self.is(&found));
        Guarded { stream: reader(file), is_output }
    }
}

/// A reader that fails if there is something to read of the file that standard output is.
pub struct Guarded<R> {
    stream: R,
    is_output: bool,
}

impl<R: Read> Read for Guarded<R> {
    fn read(&mut self, buf: &mut [u8]) -> io::Result<usize> {
        let count = self.stream.read(buf)?;
        if count > 0 && self.is_output { Err(Error::other("it is the output, too")) } else { Ok(count) }
    }
}
