//! Why a unit of a capture file can't be read.

use crate::ether_pcap::{BlockError, BodyError, FileHeaderError, RecordError, SectionError};
use core::fmt;

/// Why a unit of a capture file can't be read.
///
/// ```
/// use etherpeel::ether_pcap::{CaptureError, RecordError};
///
/// let error = CaptureError::Record(RecordError::Len {
///     required_len: 76,
///     len: 20,
/// });
/// assert_eq!(error.required_len(), Some(76));
/// assert_eq!(
///     format!("{}", CaptureError::NoInterface(3)).as_str(),
///     "A packet of a pcapng file names interface 3, which its section does not describe."
/// );
/// ```
#[derive(Clone, Copy, PartialEq, Eq, Hash, Debug)]
pub enum CaptureError {
    /// The file begins neither with the header of a classic file nor with the type of a section header.
    File(FileHeaderError),
    /// A record of a classic file can't be read.
    Record(RecordError),
    /// A section header can't be read.
    Section(SectionError),
    /// Another block can't be read.
    Block(BlockError),
    /// The body of an interface description or of a packet can't be read.
    Body(BodyError),
    /// A packet names this interface, counted from 0, but no block before it in its section describes that interface.
    /// A simple packet belongs to interface 0.
    NoInterface(u32),
    /// A section describes more interfaces than the reader's [`InterfaceTable`](crate::ether_pcap::InterfaceTable) has room for.
    TooManyInterfaces,
}

impl CaptureError {
    /// The minimum number of bytes that the unit needs, if it was refused because the bytes end within it. `None`
    /// means that the error is final: the unit is refused however many bytes follow.
    ///
    /// <details><summary>Contract</summary>
    ///
    /// ```text
    /// ensures { result ≡ required_len_of (capture_refusal_view self.now) }
    /// ```
    ///
    /// Words: [`required_len_of`](crate::definitions::ether_pcap#def.required_len),
    /// [`capture_refusal_view`](crate::definitions::ether_pcap#def.capture_refusal_view).
    /// [Notation](crate::definitions::notation)
    ///
    /// </details>
    #[must_use]
    #[inline]
    pub fn required_len(&self) -> Option<usize> {
        match self {
            CaptureError::File(FileHeaderError::Len { required_len, .. }) => Some(*required_len),
            CaptureError::Record(RecordError::Len { required_len, .. }) => Some(*required_len),
            CaptureError::Section(SectionError::Len { required_len, .. }) => Some(*required_len),
            CaptureError::Section(SectionError::Block(BlockError::Len { required_len, .. })) => {
                Some(*required_len)
            }
            CaptureError::Block(BlockError::Len { required_len, .. }) => Some(*required_len),
            _ => None,
        }
    }
}

impl fmt::Display for CaptureError {
    fn fmt(&self, f: &mut fmt::Formatter<'_>) -> fmt::Result {
        match self {
            CaptureError::File(error) => error.fmt(f),
            CaptureError::Record(error) => error.fmt(f),
            CaptureError::Section(error) => error.fmt(f),
            CaptureError::Block(error) => error.fmt(f),
            CaptureError::Body(error) => error.fmt(f),
            CaptureError::NoInterface(number) => write!(
                f,
                "A packet of a pcapng file names interface {number}, which its section does not describe."
            ),
            CaptureError::TooManyInterfaces => {
                f.write_str(
                    "A section of a pcapng file describes more interfaces than this reader keeps.",
                )
            }
        }
    }
}
