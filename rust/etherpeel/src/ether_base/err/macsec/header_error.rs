//! Field values of a MACsec SecTag that are not allowed.

use core::error::Error;
use core::fmt;

/// A field of a MACsec SecTag (IEEE 802.1AE) has a value that is not allowed.
///
/// ```
/// use etherpeel::err::macsec::HeaderError;
///
/// let error = HeaderError::UnexpectedVersion;
/// assert_eq!(
///     format!("{error}").as_str(),
///     "MACsec Header Error: Encountered '1' as MACsec version in the MACsec SecTag header (must be '0')."
/// );
/// ```
#[cfg_attr(feature = "serde", derive(serde::Serialize, serde::Deserialize))]
#[derive(Clone, Copy, PartialEq, Eq, Hash, Debug)]
pub enum HeaderError {
    /// The version bit V is 1.
    UnexpectedVersion,
    /// The payload is unmodified and the short length is 1, though the ether type that it counts takes 2 bytes.
    InvalidUnmodifiedShortLen,
}

impl fmt::Display for HeaderError {
    fn fmt(&self, f: &mut fmt::Formatter<'_>) -> fmt::Result {
        match self {
            HeaderError::UnexpectedVersion => write!(
                f,
                "MACsec Header Error: Encountered '1' as MACsec version in the MACsec SecTag header (must be '0')."
            ),
            HeaderError::InvalidUnmodifiedShortLen => write!(
                f,
                "MACsec Header Error: Encountered '1' as MACsec short len in an unmodified packet (must be '0' or '2' or greater)."
            ),
        }
    }
}

impl Error for HeaderError {}
