//! Why a slice does not begin with the header of a capture file.

use crate::ether_pcap::hex_digits::EightDigits;
use core::error::Error;
use core::fmt;

/// Why a slice does not begin with the header of a classic pcap file.
///
/// ```
/// use etherpeel::ether_pcap::FileHeaderError;
///
/// assert_eq!(
///     format!("{}", FileHeaderError::Magic(0x0A0D_0D0A)).as_str(),
///     "The magic number 0x0A0D0D0A is not that of a pcap file."
/// );
/// ```
#[derive(Clone, Copy, PartialEq, Eq, Hash, Debug)]
pub enum FileHeaderError {
    /// The slice is too short.
    Len {
        /// The length of the header, 24 bytes.
        required_len: usize,
        /// The length of the slice.
        len: usize,
    },
    /// The first four bytes are not a magic number of the format in either byte order. This is the number that they
    /// are in big-endian order. A pcapng file has 0x0A0D0D0A here.
    Magic(u32),
    /// The version of the format is not 2.4.
    Version {
        /// The number before the dot.
        major: u16,
        /// The number after the dot.
        minor: u16,
    },
}

impl fmt::Display for FileHeaderError {
    fn fmt(&self, f: &mut fmt::Formatter<'_>) -> fmt::Result {
        match self {
            FileHeaderError::Len { required_len, len } => write!(
                f,
                "The header of a pcap file needs {required_len} byte(s); only {len} are available."
            ),
            FileHeaderError::Magic(number) => {
                let digits = EightDigits(*number);
                write!(f, "The magic number 0x{digits} is not that of a pcap file.")
            }
            FileHeaderError::Version { major, minor } => write!(
                f,
                "Version {major}.{minor} of the pcap format is not supported, only 2.4."
            ),
        }
    }
}

impl Error for FileHeaderError {}
