//! A writer that takes nothing.
use etherpeel::ether_output::{OutputFault, Sink};

/// Takes nothing. A buffer in front of it has failed if it had no room for a text.
pub(crate) struct NoWriter;

impl Sink for NoWriter {
    fn put(&mut self, _bytes: &[u8]) -> Result<(), OutputFault> {
        Err(OutputFault)
    }

    fn flush_all(&mut self) -> Result<(), OutputFault> {
        Err(OutputFault)
    }
}
