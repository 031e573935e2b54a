//! Why a unit is refused.

use crate::err::{self, LenError};
use core::fmt::{self, Display};

/// Why a unit is refused. `Display` gives the text of the error within.
#[cfg_attr(feature = "serde", derive(serde::Serialize, serde::Deserialize))]
#[derive(Clone, Copy, PartialEq, Eq, Hash, Debug)]
pub enum PeelError {
    /// The unit needs more bytes than there are.
    Len(LenError),
    /// A field of a header of Linux cooked capture v1 has a value that is not supported.
    LinuxSll(err::linux_sll::HeaderError),
    /// A field of a MACsec SecTag has a value that is not allowed.
    Macsec(err::macsec::HeaderError),
}

impl Display for PeelError {
    fn fmt(&self, f: &mut fmt::Formatter<'_>) -> fmt::Result {
        match self {
            PeelError::Len(error) => error.fmt(f),
            PeelError::LinuxSll(error) => error.fmt(f),
            PeelError::Macsec(error) => error.fmt(f),
        }
    }
}
