//! Why the packets of a capture file end before the file does.

use crate::ether_pcap::CaptureError;
use core::fmt;

/// Why the packets of a capture file end before the file does, and where.
///
/// ```
/// use etherpeel::ether_pcap::{CaptureError, CaptureFault};
///
/// let fault = CaptureFault {
///     offset: 24,
///     error: CaptureError::NoInterface(3),
/// };
/// assert_eq!(
///     format!("{fault}").as_str(),
///     "At byte 24: A packet of a pcapng file names interface 3, which its section does not describe."
/// );
/// ```
#[derive(Clone, Copy, PartialEq, Eq, Hash, Debug)]
pub struct CaptureFault {
    /// The offset in bytes, from the start of the file, of the file header, record or block that can't be read.
    pub offset: usize,
    /// Why it can't be read.
    pub error: CaptureError,
}

impl fmt::Display for CaptureFault {
    fn fmt(&self, f: &mut fmt::Formatter<'_>) -> fmt::Result {
        let offset = self.offset;
        let error = &self.error;
        write!(f, "At byte {offset}: {error}")
    }
}
