//! Writers of `std::io` as sinks.

use crate::ether_output::{OutputFault, Sink};
use std::io::Write;

impl<W: Write> Sink for W {
    #[inline]
    fn put(&mut self, bytes: &[u8]) -> Result<(), OutputFault> {
        match self.write_all(bytes) {
            Ok(()) => Ok(()),
            Err(_) => Err(OutputFault),
        }
    }

    #[inline]
    fn flush_all(&mut self) -> Result<(), OutputFault> {
        match self.flush() {
            Ok(()) => Ok(()),
            Err(_) => Err(OutputFault),
        }
    }
}
