//! Those of capture files.

use crate::ether_pcap::{CaptureError, CaptureFault, RecordFault, SectionError};
use core::error::Error;

impl Error for RecordFault {
    fn source(&self) -> Option<&(dyn Error + 'static)> {
        Some(&self.error)
    }
}

impl Error for SectionError {
    fn source(&self) -> Option<&(dyn Error + 'static)> {
        match self {
            SectionError::Block(error) => Some(error),
            _ => None,
        }
    }
}

impl Error for CaptureError {
    fn source(&self) -> Option<&(dyn Error + 'static)> {
        match self {
            CaptureError::File(error) => Some(error),
            CaptureError::Record(error) => Some(error),
            CaptureError::Section(error) => Some(error),
            CaptureError::Block(error) => Some(error),
            CaptureError::Body(error) => Some(error),
            CaptureError::NoInterface(_) | CaptureError::TooManyInterfaces => None,
        }
    }
}

impl Error for CaptureFault {
    fn source(&self) -> Option<&(dyn Error + 'static)> {
        Some(&self.error)
    }
}
