//! The payload of a MACsec SecTag.
use crate::ether_tags::EtherPayloadSlice;

/// A view of the payload after a MACsec SecTag.
///
/// ```
/// use etherpeel::{MacsecPayloadSlice, MacsecSlice};
///
/// # fn main() -> Result<(), Box<dyn std::error::Error>> {
/// let encrypted = MacsecSlice::from_slice(&[0x0C, 0x00, 0, 0, 0, 1, 0xAA])?;
/// assert_eq!(encrypted.payload, MacsecPayloadSlice::Modified(&[0xAA]));
/// # Ok(())
/// # }
/// ```
#[derive(Clone, Copy, PartialEq, Eq, Debug)]
pub enum MacsecPayloadSlice<'a> {
    /// The payload if it is neither encrypted nor changed (bits E and C are clear), and the ether type that names its
    /// protocol.
    Unmodified(EtherPayloadSlice<'a>),
    /// The bytes of the payload if it is encrypted or changed.
    Modified(&'a [u8]),
}
