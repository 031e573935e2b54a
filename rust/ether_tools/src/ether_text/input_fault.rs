//! The fault of a reader.

use std::error::Error;
use std::fmt;

/// A read by an [`InputReader`](crate::ether_text::InputReader) failed: its reader did, or did not end within `u64::MAX` reads, or
/// text waited for the writer.
///
/// ```
/// use ether_tools::ether_text::InputFault;
///
/// assert_eq!(format!("{InputFault}").as_str(), "The reader has failed.");
/// ```
#[derive(Clone, Copy, PartialEq, Eq, Debug)]
pub struct InputFault;

impl fmt::Display for InputFault {
    fn fmt(&self, f: &mut fmt::Formatter<'_>) -> fmt::Result {
        write!(f, "The reader has failed.")
    }
}

impl Error for InputFault {}
