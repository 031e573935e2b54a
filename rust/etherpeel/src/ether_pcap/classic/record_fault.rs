//! Why the records of a file end before the file does.

use crate::ether_pcap::RecordError;
use core::fmt;

/// Why the records of a file end before the file does, and where.
///
/// ```
/// use etherpeel::ether_pcap::{RecordError, RecordFault};
///
/// let fault = RecordFault {
///     offset: 24,
///     error: RecordError::Len {
///         required_len: 16,
///         len: 3,
///     },
/// };
/// assert_eq!(
///     format!("{fault}").as_str(),
///     "At byte 24: A record of a pcap file needs 16 byte(s); only 3 are available."
/// );
/// ```
#[derive(Clone, Copy, PartialEq, Eq, Hash, Debug)]
pub struct RecordFault {
    /// The offset of the record, from the start of the file.
    pub offset: usize,
    /// Why it can't be read.
    pub error: RecordError,
}

impl fmt::Display for RecordFault {
    fn fmt(&self, f: &mut fmt::Formatter<'_>) -> fmt::Result {
        let offset = self.offset;
        let error = &self.error;
        write!(f, "At byte {offset}: {error}")
    }
}
