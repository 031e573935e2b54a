//! Why a slice does not begin with a record of a capture file.

use core::error::Error;
use core::fmt;

/// Why a slice does not begin with a record of a classic pcap file.
///
/// ```
/// use etherpeel::ether_pcap::RecordError;
///
/// let error = RecordError::Len {
///     required_len: 76,
///     len: 20,
/// };
/// assert_eq!(
///     format!("{error}").as_str(),
///     "A record of a pcap file needs 76 byte(s); only 20 are available."
/// );
/// ```
#[derive(Clone, Copy, PartialEq, Eq, Hash, Debug)]
pub enum RecordError {
    /// The slice is too short.
    Len {
        /// The length of the record in bytes. If the slice ends within the record's header, this is the length of that
        /// header, 16.
        required_len: usize,
        /// The length of the slice.
        len: usize,
    },
    /// The record's header gives this captured length, which is above
    /// [`PcapRecord::MAX_CAPTURED_LEN`](crate::ether_pcap::PcapRecord::MAX_CAPTURED_LEN).
    CapturedLen(u32),
}

impl fmt::Display for RecordError {
    fn fmt(&self, f: &mut fmt::Formatter<'_>) -> fmt::Result {
        match self {
            RecordError::Len { required_len, len } => write!(
                f,
                "A record of a pcap file needs {required_len} byte(s); only {len} are available."
            ),
            RecordError::CapturedLen(len) => write!(
                f,
                "A record of a pcap file cannot have {len} captured byte(s), the maximum is 262144."
            ),
        }
    }
}

impl Error for RecordError {}
