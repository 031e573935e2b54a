//! Why a packet of a builder is not written.

use core::error::Error;
use core::fmt;
use std::io;

/// Why a packet of a builder is not written.
///
/// etherparse has more variants, for IP and above.
#[derive(Debug)]
#[non_exhaustive]
pub enum BuildWriteError {
    /// The writer has failed.
    Io(io::Error),
    /// The ARP packet has another hardware type than the header of cooked capture before it.
    ArpHeaderNotMatch,
}

impl BuildWriteError {
    /// The error of the writer.
    #[must_use]
    pub fn io(&self) -> Option<&io::Error> {
        match self {
            BuildWriteError::Io(error) => Some(error),
            BuildWriteError::ArpHeaderNotMatch => None,
        }
    }
}

impl From<io::Error> for BuildWriteError {
    fn from(error: io::Error) -> BuildWriteError {
        BuildWriteError::Io(error)
    }
}

impl fmt::Display for BuildWriteError {
    fn fmt(&self, f: &mut fmt::Formatter<'_>) -> fmt::Result {
        match self {
            BuildWriteError::Io(error) => error.fmt(f),
            BuildWriteError::ArpHeaderNotMatch => {
                f.write_str("The ARP packet has another hardware type than the header of cooked capture before it.")
            }
        }
    }
}

impl Error for BuildWriteError {
    fn source(&self) -> Option<&(dyn Error + 'static)> {
        match self {
            BuildWriteError::Io(error) => Some(error),
            BuildWriteError::ArpHeaderNotMatch => None,
        }
    }
}
