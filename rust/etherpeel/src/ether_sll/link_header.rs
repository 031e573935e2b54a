//! The header of a link of either kind, as a value.

use crate::ether_sll::LinuxSllHeader;
use crate::ether_tags::Ethernet2Header;

/// A link header: of Linux cooked capture v1, or of an Ethernet II frame.
///
/// ```
/// use etherpeel::{EtherType, Ethernet2Header, LinkHeader};
///
/// let mut link = LinkHeader::Ethernet2(Ethernet2Header::default());
/// if let Some(header) = link.mut_ethernet2() {
///     header.ether_type = EtherType::IPV4;
/// }
/// assert_eq!(link.header_len(), 14);
/// assert_eq!(link.linux_sll(), None);
/// ```
#[cfg_attr(feature = "serde", derive(serde::Serialize, serde::Deserialize))]
#[derive(Clone, Copy, PartialEq, Eq, Hash, Debug)]
pub enum LinkHeader {
    /// A header of Linux cooked capture v1.
    LinuxSll(LinuxSllHeader),
    /// An Ethernet II header.
    Ethernet2(Ethernet2Header),
}

impl LinkHeader {
    /// The Ethernet II header; `None` if the header is of cooked capture.
    ///
    /// <details><summary>Contract</summary>
    ///
    /// ```text
    /// ensures { result ≡ ethernet2_header self }
    /// ```
    ///
    /// Words: [`ethernet2_header`](crate::definitions::ether_sll#def.ethernet2_header).
    /// [Notation](crate::definitions::notation)
    ///
    /// </details>
    #[must_use]
    #[inline]
    pub fn ethernet2(self) -> Option<Ethernet2Header> {
        match self {
            LinkHeader::Ethernet2(frame) => Some(frame),
            LinkHeader::LinuxSll(_) => None,
        }
    }

    /// The Ethernet II header, lent for writing; `None` if the header is of cooked capture.
    ///
    /// <details><summary>Contract</summary>
    ///
    /// ```text
    /// ensures* writes_back { sem 𝓛 (LendsEthernet2 self.entry result) }
    /// ensures value { option_copied_mut result ≡ ethernet2_header self.old }
    /// ```
    ///
    /// Words: [`LendsEthernet2`](crate::definitions::ether_sll#def.LendsEthernet2),
    /// [`ethernet2_header`](crate::definitions::ether_sll#def.ethernet2_header).
    /// [Notation](crate::definitions::notation)
    ///
    /// </details>
    #[inline]
    pub fn mut_ethernet2(&mut self) -> Option<&mut Ethernet2Header> {
        if let LinkHeader::Ethernet2(header) = self {
            Some(header)
        } else {
            None
        }
    }

    /// The header of cooked capture; `None` if the header is of Ethernet II.
    ///
    /// <details><summary>Contract</summary>
    ///
    /// ```text
    /// ensures { result ≡ linux_sll_header self }
    /// ```
    ///
    /// Words: [`linux_sll_header`](crate::definitions::ether_sll#def.linux_sll_header).
    /// [Notation](crate::definitions::notation)
    ///
    /// </details>
    #[must_use]
    #[inline]
    pub fn linux_sll(self) -> Option<LinuxSllHeader> {
        match self {
            LinkHeader::LinuxSll(capture) => Some(capture),
            LinkHeader::Ethernet2(_) => None,
        }
    }

    /// The header of cooked capture, lent for writing; `None` if the header is of Ethernet II.
    ///
    /// <details><summary>Contract</summary>
    ///
    /// ```text
    /// ensures* writes_back { sem 𝓛 (LendsLinuxSll self.entry result) }
    /// ensures value { option_copied_mut result ≡ linux_sll_header self.old }
    /// ```
    ///
    /// Words: [`LendsLinuxSll`](crate::definitions::ether_sll#def.LendsLinuxSll),
    /// [`linux_sll_header`](crate::definitions::ether_sll#def.linux_sll_header).
    /// [Notation](crate::definitions::notation)
    ///
    /// </details>
    #[inline]
    pub fn mut_linux_sll(&mut self) -> Option<&mut LinuxSllHeader> {
        if let LinkHeader::LinuxSll(header) = self {
            Some(header)
        } else {
            None
        }
    }

    /// The length of the header in bytes: 14 for Ethernet II, 16 for cooked capture.
    ///
    /// <details><summary>Contract</summary>
    ///
    /// ```text
    /// ensures { result ≡ link_header_len self.now }
    /// ```
    ///
    /// Words: [`link_header_len`](crate::definitions::ether_sll#def.link_header_len).
    /// [Notation](crate::definitions::notation)
    ///
    /// </details>
    #[must_use]
    #[inline]
    pub fn header_len(&self) -> usize {
        match self {
            LinkHeader::LinuxSll(_) => LinuxSllHeader::LEN,
            LinkHeader::Ethernet2(_) => Ethernet2Header::LEN,
        }
    }
}
