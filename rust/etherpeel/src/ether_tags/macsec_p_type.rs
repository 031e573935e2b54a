//! What a MACsec SecTag's payload is.
use crate::ether_base::EtherType;

/// Whether the payload of a MACsec SecTag is encrypted (bit E) and changed (bit C, IEEE 802.1AE, 9.5), and its ether
/// type if it is neither.
///
/// ```
/// use etherpeel::{EtherType, MacsecHeader, MacsecPType};
///
/// # fn main() -> Result<(), Box<dyn std::error::Error>> {
/// let readable = MacsecHeader::from_slice(&[0x00, 0x00, 0, 0, 0, 1, 0x08, 0x00])?;
/// assert_eq!(readable.ptype, MacsecPType::Unmodified(EtherType::IPV4));
/// let encrypted = MacsecHeader::from_slice(&[0x0C, 0x00, 0, 0, 0, 1])?;
/// assert_eq!(encrypted.ptype, MacsecPType::Encrypted);
/// # Ok(())
/// # }
/// ```
#[cfg_attr(feature = "serde", derive(serde::Serialize, serde::Deserialize))]
#[derive(Clone, Copy, PartialEq, Eq, Hash, Debug)]
pub enum MacsecPType {
    /// E and C are clear: the payload is as it was before MACsec, and its ether type is at the end of the tag.
    Unmodified(EtherType),
    /// Only C is set: changed, though not encrypted.
    Modified,
    /// E and C are set: encrypted, and so changed.
    Encrypted,
    /// Only E is set, which IEEE 802.1AE reserves for the key agreement entity.
    EncryptedUnmodified,
}
