//! Why a slice does not begin with a block of a pcapng file.

use core::error::Error;
use core::fmt;

/// Why a slice does not begin with a block of a pcapng file.
///
/// ```
/// use etherpeel::ether_pcap::BlockError;
///
/// assert_eq!(
///     format!("{}", BlockError::TotalLen(13)).as_str(),
///     "A block of a pcapng file cannot have 13 byte(s)."
/// );
/// ```
#[derive(Clone, Copy, PartialEq, Eq, Hash, Debug)]
pub enum BlockError {
    /// The slice is too short.
    Len {
        /// The length of the block in bytes. If the slice has fewer than 12 bytes, the length of the smallest block,
        /// this is 12.
        required_len: usize,
        /// The length of the slice.
        len: usize,
    },
    /// The block's length is below 12, above 16 MiB, or not a multiple of 4.
    TotalLen(u32),
    /// The length at the end of the block differs from that at its front.
    Trailer {
        /// The length at the front.
        total_len: u32,
        /// The length at the end.
        trailer: u32,
    },
}

impl fmt::Display for BlockError {
    fn fmt(&self, f: &mut fmt::Formatter<'_>) -> fmt::Result {
        match self {
            BlockError::Len { required_len, len } => write!(
                f,
                "A block of a pcapng file needs {required_len} byte(s); only {len} are available."
            ),
            BlockError::TotalLen(len) => {
                write!(f, "A block of a pcapng file cannot have {len} byte(s).")
            }
            BlockError::Trailer { total_len, trailer } => write!(
                f,
                "A block of a pcapng file begins with length {total_len} and ends with {trailer}."
            ),
        }
    }
}

impl Error for BlockError {}
