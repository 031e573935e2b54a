//! Why a packet can't be sliced.

use crate::err::{LenError, linux_sll, macsec};
use crate::ether_peel::PeelError;
use core::error::Error;
use core::fmt;

/// Why a packet can't be sliced. `Display` gives the text of the error within.
///
/// etherparse has more variants, for IP and above.
#[derive(Clone, PartialEq, Eq, Hash, Debug)]
#[non_exhaustive]
pub enum SliceError {
    /// A header needs more bytes than there are.
    Len(LenError),
    /// A field of a header of Linux cooked capture v1 has a value that is not supported.
    LinuxSll(linux_sll::HeaderError),
    /// A field of a MACsec SecTag has a value that is not allowed.
    Macsec(macsec::HeaderError),
}

impl From<PeelError> for SliceError {
    fn from(error: PeelError) -> SliceError {
        match error {
            PeelError::Len(error) => SliceError::Len(error),
            PeelError::LinuxSll(error) => SliceError::LinuxSll(error),
            PeelError::Macsec(error) => SliceError::Macsec(error),
        }
    }
}

impl fmt::Display for SliceError {
    fn fmt(&self, f: &mut fmt::Formatter<'_>) -> fmt::Result {
        match self {
            SliceError::Len(error) => error.fmt(f),
            SliceError::LinuxSll(error) => error.fmt(f),
            SliceError::Macsec(error) => error.fmt(f),
        }
    }
}

impl Error for SliceError {
    fn source(&self) -> Option<&(dyn Error + 'static)> {
        match self {
            SliceError::Len(error) => Some(error),
            SliceError::LinuxSll(error) => Some(error),
            SliceError::Macsec(error) => Some(error),
        }
    }
}
