//! A link extension as a value.

use crate::ether_tags::{MacsecHeader, SingleVlanHeader};

/// A header between a link header and the payload of its frame: a VLAN tag or a MACsec SecTag.
///
/// ```
/// use etherpeel::{LinkExtHeader, MacsecHeader, SingleVlanHeader};
///
/// # fn main() -> Result<(), Box<dyn std::error::Error>> {
/// let tag = SingleVlanHeader::from_bytes([0xB1, 0x23, 0x08, 0x00]);
/// assert_eq!(LinkExtHeader::Vlan(tag).header_len(), 4);
/// let tag = MacsecHeader::from_slice(&[0x0C, 0x00, 0, 0, 0, 1])?;
/// assert_eq!(LinkExtHeader::Macsec(tag).header_len(), 6);
/// # Ok(())
/// # }
/// ```
#[cfg_attr(feature = "serde", derive(serde::Serialize, serde::Deserialize))]
#[derive(Clone, Copy, PartialEq, Eq, Hash, Debug)]
pub enum LinkExtHeader {
    /// A VLAN tag.
    Vlan(SingleVlanHeader),
    /// A MACsec SecTag.
    Macsec(MacsecHeader),
}

impl LinkExtHeader {
    /// The length of the tag in bytes: 4 for a VLAN tag, 6 to 16 for a MACsec SecTag.
    ///
    /// <details><summary>Contract</summary>
    ///
    /// ```text
    /// ensures value { result ≡ ext_header_len self.now }
    /// ensures bound { result ≤ 16 }
    /// ```
    ///
    /// Words: [`ext_header_len`](crate::definitions::ether_tags#def.ext_header_len).
    /// [Notation](crate::definitions::notation)
    ///
    /// </details>
    #[must_use]
    #[inline]
    pub fn header_len(&self) -> usize {
        match self {
            LinkExtHeader::Vlan(header) => header.header_len(),
            LinkExtHeader::Macsec(header) => header.header_len(),
        }
    }
}
