//! Why bytes do not begin with a header of Linux cooked capture v2.

use core::error::Error;
use core::fmt;

/// Why bytes do not begin with a header of Linux cooked capture v2.
///
/// ```
/// use etherpeel::ether_sll2::LinuxSll2Error;
///
/// let error = LinuxSll2Error::Len {
///     required_len: 20,
///     len: 19,
/// };
/// assert_eq!(
///     format!("{error}").as_str(),
///     "A header of Linux cooked capture v2 needs 20 byte(s); only 19 are available."
/// );
/// ```
#[derive(Clone, Copy, PartialEq, Eq, Hash, Debug)]
pub enum LinuxSll2Error {
    /// The slice is too short.
    Len {
        /// The length of the header in bytes, 20.
        required_len: usize,
        /// The length of the slice in bytes.
        len: usize,
    },
    /// The packet type of the header, which is above 7,
    /// [`LinuxSllPacketType::MAX_VAL`](crate::ether_base::LinuxSllPacketType::MAX_VAL).
    PacketType(u8),
}

impl fmt::Display for LinuxSll2Error {
    fn fmt(&self, f: &mut fmt::Formatter<'_>) -> fmt::Result {
        match self {
            LinuxSll2Error::Len { required_len, len } => write!(
                f,
                "A header of Linux cooked capture v2 needs {required_len} byte(s); only {len} are available."
            ),
            LinuxSll2Error::PacketType(packet_type) => write!(
                f,
                "The packet type {packet_type} of a header of Linux cooked capture v2 is not supported, the maximum is 7."
            ),
        }
    }
}

impl Error for LinuxSll2Error {}
