//! The errors that other errors wrap. Written by hand, since `Error` of Rattle has no method `source`.

use crate::ether_base::header_slice_error::HeaderSliceError;
use crate::ether_packet::BuildError;
use crate::ether_peel::{PeelError, PeelFault};
use core::error::Error;

#[cfg(feature = "pcap")]
mod pcap;

impl<E: Error + 'static> Error for HeaderSliceError<E> {
    fn source(&self) -> Option<&(dyn Error + 'static)> {
        match self {
            HeaderSliceError::Len(error) => Some(error),
            HeaderSliceError::Content(error) => Some(error),
        }
    }
}

impl Error for PeelError {
    fn source(&self) -> Option<&(dyn Error + 'static)> {
        match self {
            PeelError::Len(error) => Some(error),
            PeelError::LinuxSll(error) => Some(error),
            PeelError::Macsec(error) => Some(error),
        }
    }
}

impl Error for PeelFault {
    fn source(&self) -> Option<&(dyn Error + 'static)> {
        Some(&self.error)
    }
}

impl Error for BuildError {
    fn source(&self) -> Option<&(dyn Error + 'static)> {
        match self {
            BuildError::Space(error) => Some(error),
            BuildError::HardwareType(_) | BuildError::Sealed(_) => None,
        }
    }
}
