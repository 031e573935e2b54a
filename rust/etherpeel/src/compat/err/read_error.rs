//! Any error of `read`, and of `from_slice`.

use crate::err::macsec::HeaderReadError;
use crate::err::packet::SliceError;
use crate::err::{FromSliceError, LenError, linux_sll, macsec};
use core::error::Error;
use core::fmt;
use std::io;

/// Any error of a call that reads from a reader or a slice. `?` makes it of each of these errors.
///
/// `Display` gives the text of the error within. etherparse has more variants, for IP and above.
#[derive(Debug)]
#[non_exhaustive]
pub enum ReadError {
    /// The reader has failed, or has ended within a header.
    Io(io::Error),
    /// A header needs more bytes than there are.
    Len(LenError),
    /// A field of a header of Linux cooked capture v1 has a value that is not supported.
    LinuxSll(linux_sll::HeaderError),
    /// A field of a MACsec SecTag has a value that is not allowed.
    Macsec(macsec::HeaderError),
}

impl ReadError {
    /// Returns a length error with `offset` added to its `layer_start_offset`, and others unchanged.
    #[must_use]
    pub fn add_slice_offset(self, offset: usize) -> ReadError {
        match self {
            ReadError::Len(error) => ReadError::Len(error.add_offset(offset)),
            other => other,
        }
    }

    /// The error of the reader.
    #[must_use]
    pub fn io(self) -> Option<io::Error> {
        match self {
            ReadError::Io(error) => Some(error),
            _ => None,
        }
    }

    /// The length error.
    #[must_use]
    pub fn len(self) -> Option<LenError> {
        match self {
            ReadError::Len(error) => Some(error),
            _ => None,
        }
    }

    /// The error of a field of cooked capture.
    #[must_use]
    pub fn linux_sll(self) -> Option<linux_sll::HeaderError> {
        match self {
            ReadError::LinuxSll(error) => Some(error),
            _ => None,
        }
    }

    /// The error of a field of a SecTag.
    #[must_use]
    pub fn macsec(self) -> Option<macsec::HeaderError> {
        match self {
            ReadError::Macsec(error) => Some(error),
            _ => None,
        }
    }
}

impl From<io::Error> for ReadError {
    fn from(error: io::Error) -> ReadError {
        ReadError::Io(error)
    }
}

impl From<FromSliceError> for ReadError {
    fn from(error: FromSliceError) -> ReadError {
        match error {
            FromSliceError::Len(error) => ReadError::Len(error),
            FromSliceError::LinuxSll(error) => ReadError::LinuxSll(error),
            FromSliceError::Macsec(error) => ReadError::Macsec(error),
        }
    }
}

impl From<LenError> for ReadError {
    fn from(error: LenError) -> ReadError {
        ReadError::Len(error)
    }
}

impl From<linux_sll::HeaderError> for ReadError {
    fn from(error: linux_sll::HeaderError) -> ReadError {
        ReadError::LinuxSll(error)
    }
}

impl From<linux_sll::HeaderSliceError> for ReadError {
    fn from(error: linux_sll::HeaderSliceError) -> ReadError {
        FromSliceError::from(error).into()
    }
}

impl From<macsec::HeaderError> for ReadError {
    fn from(error: macsec::HeaderError) -> ReadError {
        ReadError::Macsec(error)
    }
}

impl From<macsec::HeaderSliceError> for ReadError {
    fn from(error: macsec::HeaderSliceError) -> ReadError {
        FromSliceError::from(error).into()
    }
}

impl From<HeaderReadError> for ReadError {
    fn from(error: HeaderReadError) -> ReadError {
        match error {
            HeaderReadError::Io(error) => ReadError::Io(error),
            HeaderReadError::Content(error) => ReadError::Macsec(error),
        }
    }
}

impl From<SliceError> for ReadError {
    fn from(error: SliceError) -> ReadError {
        FromSliceError::from(error).into()
    }
}

impl fmt::Display for ReadError {
    fn fmt(&self, f: &mut fmt::Formatter<'_>) -> fmt::Result {
        match self {
            ReadError::Io(error) => error.fmt(f),
            ReadError::Len(error) => error.fmt(f),
            ReadError::LinuxSll(error) => error.fmt(f),
            ReadError::Macsec(error) => error.fmt(f),
        }
    }
}

impl Error for ReadError {
    fn source(&self) -> Option<&(dyn Error + 'static)> {
        match self {
            ReadError::Io(error) => Some(error),
            ReadError::Len(error) => Some(error),
            ReadError::LinuxSll(error) => Some(error),
            ReadError::Macsec(error) => Some(error),
        }
    }
}
