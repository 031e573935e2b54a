//! Files in the file system. Written by hand, not proved.
use crate::ending::{Ended, Ending};
use crate::ether_make::input_files::Inputs;
use crate::ether_make::memory::Global;
use std::fs;
use std::fs::File;
use std::io::{self, BufReader, Error};
use std::os::unix::fs::FileTypeExt;

/// The files in the file system.
pub struct NamedFiles<'a> {
    /// Says whether they are still read.
    pub ending: &'a Ending,
}

impl<'a> Inputs for NamedFiles<'a> {
    type Input = BufReader<Ended<'a>>;

    fn open_named(&self, _alloc: Global, name: &str) -> io::Result<Self::Input> {
        if !self.ending.lets_open() {
            return Err(Error::other("a signal has ended the run"));
        }
        let is_fifo = fs::metadata(name).is_ok_and(|found| found.file_type().is_fifo());
        let file = if is_fifo { self.ending.unwatched(|| File::open(name)) } else { File::open(name) }?;
        Ok(BufReader::new(Ended::new(file, self.ending)))
    }
}
