//! Opens captures in the file system. Written by hand, not proved.
use crate::ending::{Ended, Ending};
use crate::ether_capture::captures::Captures;
use crate::ether_capture::progress_line::{Gauge, Meter};
use crate::ether_files::{OpenFault, OwnOutput};
use crate::gzip::Unpacked;
use crate::reasons::{Reasons, WithReason};
use std::fs::{self, File};
use std::io;
use std::os::unix::fs::FileTypeExt;

/// Captures in files, which may be packed by gzip, and what shows how far they are read.
pub struct CaptureFiles<'a> {
    /// Shows how far they are read, of packed ones how many packed bytes.
    pub gauge: &'a Gauge,
    /// Says whether they are still read.
    pub ending: &'a Ending,
    /// Keeps why one can't be read.
    pub reasons: &'a Reasons,
    /// Is not read.
    pub output: OwnOutput,
}

impl<'a> Captures for CaptureFiles<'a> {
    type Input = WithReason<'a, Unpacked<Meter<'a, Ended<'a>>>>;

    fn open_named(&self, name: &str) -> Result<Self::Input, OpenFault> {
        if !self.ending.lets_open() {
            return Err(OpenFault::Other);
        }
        let file = self.open(name).map_err(|error| OpenFault::of(&error))?;
        let size = match file.metadata() {
            Ok(metadata) if metadata.is_dir() => return Err(OpenFault::IsADirectory),
            Ok(metadata) if metadata.len() > 0 && self.output.is(&metadata) => return Err(OpenFault::IsOutput),
            Ok(metadata) if metadata.is_file() => Some(metadata.len()),
            _ => None,
        };
        let stream = Unpacked::new(Meter::new(Ended::new(file, self.ending), size, self.gauge));
        Ok(WithReason::new(stream, self.reasons))
    }

    fn show(&self) {
        self.gauge.show();
    }

    fn end_line(&self) {
        self.gauge.end_line();
    }
}

impl CaptureFiles<'_> {
    /// Opens a file. Of a FIFO that waits until a program opens it for writing.
    fn open(&self, name: &str) -> io::Result<File> {
        let is_fifo = fs::metadata(name).is_ok_and(|found| found.file_type().is_fifo());
        if is_fifo { self.ending.unwatched(|| File::open(name)) } else { File::open(name) }
    }
}
