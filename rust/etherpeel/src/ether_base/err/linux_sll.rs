//! The errors of Linux cooked capture v1 (SLL).
mod header_error;

pub use header_error::HeaderError;

/// Why a header of Linux cooked capture v1 can't be read from a slice: it is too short, or a field is not supported.
///
/// `Display` gives the text of the error within.
///
/// ```
/// use etherpeel::err::linux_sll::{HeaderError, HeaderSliceError};
///
/// let content = HeaderError::UnsupportedPacketTypeField { packet_type: 8 };
/// let error = HeaderSliceError::Content(content);
/// assert_eq!(error.clone().add_slice_offset(14), error);
/// ```
pub type HeaderSliceError = crate::ether_base::header_slice_error::HeaderSliceError<HeaderError>;
