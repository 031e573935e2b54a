//! Any error of `from_slice`.

use crate::err::packet::SliceError;
use crate::err::{LenError, linux_sll, macsec};
use core::error::Error;
use core::fmt;

/// Any error of a call that reads from a slice. `?` makes it of each of these errors.
///
/// `Display` gives the text of the error within. etherparse has more variants, for IP and above.
#[derive(Clone, PartialEq, Eq, Hash, Debug)]
#[non_exhaustive]
pub enum FromSliceError {
    /// A header needs more bytes than there are.
    Len(LenError),
    /// A field of a header of Linux cooked capture v1 has a value that is not supported.
    LinuxSll(linux_sll::HeaderError),
    /// A field of a MACsec SecTag has a value that is not allowed.
    Macsec(macsec::HeaderError),
}

impl FromSliceError {
    /// Returns a length error with `offset` added to its `layer_start_offset`, and others unchanged.
    #[must_use]
    pub fn add_slice_offset(self, offset: usize) -> FromSliceError {
        match self {
            FromSliceError::Len(error) => FromSliceError::Len(error.add_offset(offset)),
            other => other,
        }
    }

    /// The length error.
    #[must_use]
    pub fn len(&self) -> Option<&LenError> {
        match self {
            FromSliceError::Len(error) => Some(error),
            _ => None,
        }
    }

    /// The error of a field of cooked capture.
    #[must_use]
    pub fn linux_sll(&self) -> Option<&linux_sll::HeaderError> {
        match self {
            FromSliceError::LinuxSll(error) => Some(error),
            _ => None,
        }
    }

    /// The error of a field of a SecTag.
    #[must_use]
    pub fn macsec(&self) -> Option<&macsec::HeaderError> {
        match self {
            FromSliceError::Macsec(error) => Some(error),
            _ => None,
        }
    }
}

impl From<LenError> for FromSliceError {
    fn from(error: LenError) -> FromSliceError {
        FromSliceError::Len(error)
    }
}

impl From<linux_sll::HeaderError> for FromSliceError {
    fn from(error: linux_sll::HeaderError) -> FromSliceError {
        FromSliceError::LinuxSll(error)
    }
}

impl From<linux_sll::HeaderSliceError> for FromSliceError {
    fn from(error: linux_sll::HeaderSliceError) -> FromSliceError {
        match error {
            linux_sll::HeaderSliceError::Len(error) => FromSliceError::Len(error),
            linux_sll::HeaderSliceError::Content(error) => FromSliceError::LinuxSll(error),
        }
    }
}

impl From<macsec::HeaderError> for FromSliceError {
    fn from(error: macsec::HeaderError) -> FromSliceError {
        FromSliceError::Macsec(error)
    }
}

impl From<macsec::HeaderSliceError> for FromSliceError {
    fn from(error: macsec::HeaderSliceError) -> FromSliceError {
        match error {
            macsec::HeaderSliceError::Len(error) => FromSliceError::Len(error),
            macsec::HeaderSliceError::Content(error) => FromSliceError::Macsec(error),
        }
    }
}

impl From<SliceError> for FromSliceError {
    fn from(error: SliceError) -> FromSliceError {
        match error {
            SliceError::Len(error) => FromSliceError::Len(error),
            SliceError::LinuxSll(error) => FromSliceError::LinuxSll(error),
            SliceError::Macsec(error) => FromSliceError::Macsec(error),
        }
    }
}

impl fmt::Display for FromSliceError {
    fn fmt(&self, f: &mut fmt::Formatter<'_>) -> fmt::Result {
        match self {
            FromSliceError::Len(error) => error.fmt(f),
            FromSliceError::LinuxSll(error) => error.fmt(f),
            FromSliceError::Macsec(error) => error.fmt(f),
        }
    }
}

impl Error for FromSliceError {
    fn source(&self) -> Option<&(dyn Error + 'static)> {
        match self {
            FromSliceError::Len(error) => Some(error),
            FromSliceError::LinuxSll(error) => Some(error),
            FromSliceError::Macsec(error) => Some(error),
        }
    }
}
