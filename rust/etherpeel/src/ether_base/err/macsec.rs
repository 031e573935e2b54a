//! The errors of the MACsec SecTag (IEEE 802.1AE).
mod header_error;

pub use header_error::HeaderError;

/// Why a MACsec SecTag can't be read from a slice: it is too short, or a field is not allowed.
///
/// `Display` gives the text of the error within.
///
/// ```
/// use etherpeel::err::macsec::{HeaderError, HeaderSliceError};
///
/// let content = HeaderError::UnexpectedVersion;
/// let error = HeaderSliceError::Content(content);
/// assert_eq!(error.clone().add_slice_offset(14), error);
/// ```
pub type HeaderSliceError = crate::ether_base::header_slice_error::HeaderSliceError<HeaderError>;

#[cfg(feature = "compat")]
pub use crate::compat::err::macsec::HeaderReadError;
