//! Why a slice does not begin with a section header.

use crate::ether_pcap::BlockError;
use crate::ether_pcap::hex_digits::EightDigits;
use core::fmt;

/// Why a slice does not begin with the section header of a pcapng file.
///
/// ```
/// use etherpeel::ether_pcap::SectionError;
///
/// assert_eq!(
///     format!("{}", SectionError::Magic(0x1A2B_3C4E)).as_str(),
///     "The byte-order magic 0x1A2B3C4E is not that of a pcapng file."
/// );
/// ```
#[derive(Clone, Copy, PartialEq, Eq, Hash, Debug)]
pub enum SectionError {
    /// The slice is too short for a type, a length and a byte-order magic.
    Len {
        /// The length of these three fields, 12 bytes.
        required_len: usize,
        /// The length of the slice.
        len: usize,
    },
    /// The block is not a section header. This is its type, as a big-endian number.
    BlockType(u32),
    /// The byte-order magic is wrong in either byte order. This is its value, as a big-endian number.
    Magic(u32),
    /// The block of the section header can't be read.
    Block(BlockError),
    /// The body is too short for the byte-order magic, the version and the section length.
    Body {
        /// The length of these fields, 16 bytes.
        required_len: usize,
        /// The length of the body.
        len: usize,
    },
    /// The version of the format is neither 1.0 nor 1.2.
    Version {
        /// The number before the dot.
        major: u16,
        /// The number after the dot.
        minor: u16,
    },
}

impl fmt::Display for SectionError {
    fn fmt(&self, f: &mut fmt::Formatter<'_>) -> fmt::Result {
        match self {
            SectionError::Len { required_len, len } => write!(
                f,
                "A section header needs {required_len} byte(s); only {len} are available."
            ),
            SectionError::BlockType(number) => {
                let digits = EightDigits(*number);
                write!(f, "A block of type 0x{digits} is no section header.")
            }
            SectionError::Magic(number) => {
                let digits = EightDigits(*number);
                write!(
                    f,
                    "The byte-order magic 0x{digits} is not that of a pcapng file."
                )
            }
            SectionError::Block(error) => error.fmt(f),
            SectionError::Body { required_len, len } => write!(
                f,
                "The body of a section header needs {required_len} byte(s); it has {len}."
            ),
            SectionError::Version { major, minor } => write!(
                f,
                "Version {major}.{minor} of the pcapng format is not supported."
            ),
        }
    }
}
