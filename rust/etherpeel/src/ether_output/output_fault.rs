//! The fault of a writer.

use core::error::Error;
use core::fmt;

/// The writer of an [`OutputBuffer`](crate::ether_output::OutputBuffer) has failed.
///
/// ```
/// use etherpeel::ether_output::OutputFault;
///
/// assert_eq!(format!("{OutputFault}").as_str(), "The writer has failed.");
/// ```
#[derive(Clone, Copy, PartialEq, Eq, Hash, Debug)]
pub struct OutputFault;

impl fmt::Display for OutputFault {
    fn fmt(&self, f: &mut fmt::Formatter<'_>) -> fmt::Result {
        write!(f, "The writer has failed.")
    }
}

impl Error for OutputFault {}
