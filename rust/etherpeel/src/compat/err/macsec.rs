//! Why a SecTag can't be read from a reader.

use crate::err::macsec::HeaderError;
use core::error::Error;
use core::fmt;
use std::io;

/// Why a SecTag can't be read from a reader.
#[derive(Debug)]
pub enum HeaderReadError {
    /// The reader has failed, or has ended within the tag.
    Io(io::Error),
    /// A field has a value that is not allowed.
    Content(HeaderError),
}

impl HeaderReadError {
    /// The error of the reader.
    #[must_use]
    pub fn io_error(self) -> Option<io::Error> {
        match self {
            HeaderReadError::Io(error) => Some(error),
            HeaderReadError::Content(_) => None,
        }
    }

    /// The error of a field.
    #[must_use]
    pub fn content_error(self) -> Option<HeaderError> {
        match self {
            HeaderReadError::Io(_) => None,
            HeaderReadError::Content(error) => Some(error),
        }
    }
}

impl From<io::Error> for HeaderReadError {
    fn from(error: io::Error) -> HeaderReadError {
        HeaderReadError::Io(error)
    }
}

impl fmt::Display for HeaderReadError {
    fn fmt(&self, f: &mut fmt::Formatter<'_>) -> fmt::Result {
        match self {
            HeaderReadError::Io(error) => write!(f, "MACsec Header IO Error: {error}"),
            HeaderReadError::Content(error) => error.fmt(f),
        }
    }
}

impl Error for HeaderReadError {
    fn source(&self) -> Option<&(dyn Error + 'static)> {
        match self {
            HeaderReadError::Io(error) => Some(error),
            HeaderReadError::Content(error) => Some(error),
        }
    }
}
