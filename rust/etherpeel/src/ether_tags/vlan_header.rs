//! One VLAN tag or two, as a value.
use crate::ether_tags::{DoubleVlanHeader, SingleVlanHeader};
use crate::ether_base::EtherType;

/// One VLAN tag or two.
///
/// ```
/// use etherpeel::{DoubleVlanHeader, EtherType, SingleVlanHeader, VlanHeader};
///
/// let outer = SingleVlanHeader::from_bytes([0x00, 0x0A, 0x81, 0x00]);
/// let inner = SingleVlanHeader::from_bytes([0x00, 0x64, 0x08, 0x00]);
/// let tags = VlanHeader::Double(DoubleVlanHeader { outer, inner });
/// assert!(VlanHeader::VLAN_ETHER_TYPES.contains(&outer.ether_type));
/// assert_eq!(tags.next_header(), EtherType::IPV4);
/// ```
#[cfg_attr(feature = "serde", derive(serde::Serialize, serde::Deserialize))]
#[derive(Clone, Copy, PartialEq, Eq, Hash, Debug)]
pub enum VlanHeader {
    /// One tag.
    Single(SingleVlanHeader),
    /// Two tags.
    Double(DoubleVlanHeader),
}

impl VlanHeader {
    /// The TPIDs, which are the ether types that announce a VLAN tag: 0x8100 of a customer tag, 0x88A8 of a service
    /// tag, and 0x9100, which some devices sent before service tags had a number.
    pub const VLAN_ETHER_TYPES: [EtherType; 3] = [
        EtherType::VLAN_TAGGED_FRAME,
        EtherType::PROVIDER_BRIDGING,
        EtherType::VLAN_DOUBLE_TAGGED_FRAME,
    ];

    /// The ether type of the last tag, which names the protocol of what follows the tags.
    ///
    /// <details><summary>Contract</summary>
    ///
    /// ```text
    /// ensures { result.0 ≡ next_type self.now }
    /// ```
    ///
    /// Words: [`next_type`](crate::definitions::ether_tags#def.next_type). [Notation](crate::definitions::notation)
    ///
    /// </details>
    #[must_use]
    #[inline]
    pub fn next_header(&self) -> EtherType {
        match self {
            VlanHeader::Single(header) => header.ether_type,
            VlanHeader::Double(header) => header.inner.ether_type,
        }
    }
}
