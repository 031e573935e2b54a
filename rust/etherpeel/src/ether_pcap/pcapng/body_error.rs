//! Why the body of a block can't be read.

use core::error::Error;
use core::fmt;

/// Why the body of a block of a pcapng file can't be read.
///
/// ```
/// use etherpeel::ether_pcap::BodyError;
///
/// assert_eq!(
///     format!("{}", BodyError::CapturedLen(262_145)).as_str(),
///     "A block of a pcapng file cannot have 262145 captured byte(s), the maximum is 262144."
/// );
/// ```
#[derive(Clone, Copy, PartialEq, Eq, Hash, Debug)]
pub enum BodyError {
    /// The body is too short for its fields, or for its captured bytes.
    Len {
        /// The minimum length of the body in bytes.
        required_len: usize,
        /// The length of the body in bytes.
        len: usize,
    },
    /// The block gives this captured length, which is above
    /// [`PcapRecord::MAX_CAPTURED_LEN`](crate::ether_pcap::PcapRecord::MAX_CAPTURED_LEN).
    CapturedLen(u32),
}

impl fmt::Display for BodyError {
    fn fmt(&self, f: &mut fmt::Formatter<'_>) -> fmt::Result {
        match self {
            BodyError::Len { required_len, len } => write!(
                f,
                "The body of a pcapng block needs {required_len} byte(s); it has {len}."
            ),
            BodyError::CapturedLen(len) => write!(
                f,
                "A block of a pcapng file cannot have {len} captured byte(s), the maximum is 262144."
            ),
        }
    }
}

impl Error for BodyError {}
