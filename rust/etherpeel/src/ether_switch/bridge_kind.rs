//! `BridgeKind`: customer bridges and provider bridges.

use crate::EtherType;

/// A kind of bridge, by the tags that it reads and writes. A tag of the other kind is payload for it.
#[cfg_attr(feature = "serde", derive(serde::Serialize, serde::Deserialize))]
#[derive(Clone, Copy, PartialEq, Eq, Hash, Debug)]
pub enum BridgeKind {
    /// A bridge with customer tags, which 0x8100 announces.
    Customer,
    /// A provider bridge, with service tags, which 0x88A8 announces.
    Provider,
}

impl BridgeKind {
    /// The ether type that announces a tag of the bridge (IEEE 802.1Q, table 9-1).
    ///
    /// <details><summary>Contract</summary>
    ///
    /// ```text
    /// ensures { result.0 ≡ tpid_of self }
    /// ```
    ///
    /// Words: [`tpid_of`](crate::definitions::ether_switch#def.tpid_of). [Notation](crate::definitions::notation)
    ///
    /// </details>
    #[must_use]
    #[inline]
    pub fn tpid(self) -> EtherType {
        match self {
            BridgeKind::Customer => EtherType::VLAN_TAGGED_FRAME,
            BridgeKind::Provider => EtherType::PROVIDER_BRIDGING,
        }
    }

    /// Whether the bridge forwards no frame to this address, a number of 48 bits (IEEE 802.1Q, tables 8-1 and 8-2).
    #[inline]
    pub(in crate::ether_switch) fn reserves(self, address: u64) -> bool {
        if address / 16 != 0x0180C200000 {
            return false;
        }
        match self {
            BridgeKind::Customer => true,
            BridgeKind::Provider => matches!(address % 16, 1..=10 | 14),
        }
    }
}
