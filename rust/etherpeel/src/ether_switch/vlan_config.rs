//! The configuration of a bridge's VLANs.

use crate::ether_switch::{PortSet, Vlan};

/// The configuration of one VLAN of a bridge.
///
/// Each bit pattern is a value.
#[cfg_attr(feature = "serde", derive(serde::Serialize, serde::Deserialize))]
#[repr(C)]
#[derive(Clone, Copy, PartialEq, Eq, Hash, Debug)]
pub struct VlanConfig {
    /// The ports through which its frames leave: its member set (IEEE 802.1Q, 8.8.10).
    pub members: PortSet,
    /// The ports through which its frames leave without a tag: its untagged set (IEEE 802.1Q, 8.8.2).
    pub untagged: PortSet,
    /// The index, in the table of stations, of the first bucket for this VLAN.
    pub first_bucket: u32,
    /// How many buckets this VLAN has. If there are none, or if they are not all in the table, no station is learned.
    /// No other VLAN should have one of them: a bucket does not say whose stations it has.
    pub buckets: u32,
}

impl VlanConfig {
    /// A VLAN without ports.
    pub const NONE: VlanConfig = VlanConfig {
        members: PortSet::NONE,
        untagged: PortSet::NONE,
        first_bucket: 0,
        buckets: 0,
    };
}

/// The configuration of a VLAN, which is at the index of its identifier; that of a VLAN without ports if there is none.
#[inline]
pub(in crate::ether_switch) fn row(vlans: &[VlanConfig], vlan: Vlan) -> &VlanConfig {
    vlans
        .get(vlan.id().value() as usize)
        .unwrap_or(&VlanConfig::NONE)
}

/// Whether the parts of the VLANs follow one another in the table of stations, in the order of the identifiers. No two
/// VLANs have a bucket in common then.
///
/// ```
/// use etherpeel::ether_switch::{VlanConfig, parts_are_in_order};
///
/// let part = |first_bucket, buckets| VlanConfig {
///     first_bucket,
///     buckets,
///     ..VlanConfig::NONE
/// };
/// assert!(parts_are_in_order(&[part(0, 0), part(0, 16), part(16, 8)]));
/// assert!(!parts_are_in_order(&[part(0, 0), part(0, 16), part(15, 8)]));
/// ```
///
/// <details><summary>Contract</summary>
///
/// ```text
/// ensures { result ≡ are_in_order 0 vlans.now }
/// ```
///
/// Words: [`are_in_order`](crate::definitions::ether_switch#def.are_in_order).
/// [Notation](crate::definitions::notation)
///
/// </details>
#[must_use]
#[inline]
pub fn parts_are_in_order(vlans: &[VlanConfig]) -> bool {
    let mut end = 0;
    for vlan in vlans {
        let first = u64::from(vlan.first_bucket);
        if vlan.buckets != 0 && first < end {
            return false;
        }
        if vlan.buckets != 0 {
            end = first + u64::from(vlan.buckets);
        }
    }
    true
}
