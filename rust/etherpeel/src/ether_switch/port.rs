//! The configuration of a bridge's ports.

use crate::ether_switch::{PortSet, Vlan};
use crate::VlanPcp;

/// Which frames a port accepts (IEEE 802.1Q, 6.9). A tag that names no VLAN has the identifier 0, and gives only a
/// priority.
#[cfg_attr(feature = "serde", derive(serde::Serialize, serde::Deserialize))]
#[derive(Clone, Copy, PartialEq, Eq, Hash, Debug)]
pub enum AcceptableFrames {
    /// All frames.
    All,
    /// Frames with a tag that names a VLAN.
    OnlyVlanTagged,
    /// Frames without a tag, and frames with a tag that names no VLAN.
    OnlyUntaggedAndPriorityTagged,
    /// Frames without a tag. (The standard has no such setting.)
    OnlyUntagged,
}

/// The configuration of a bridge's port. Which VLANs it is a member of is part of
/// [`VlanConfig`](crate::ether_switch::VlanConfig), and its state of [`PortStates`].
#[cfg_attr(feature = "serde", derive(serde::Serialize, serde::Deserialize))]
#[derive(Clone, Copy, PartialEq, Eq, Hash, Debug)]
pub struct PortConfig {
    /// The VLAN of a frame that comes in without a tag, or with a tag that names no VLAN (PVID).
    pub pvid: Vlan,
    /// Which frames it accepts.
    pub frame_types: AcceptableFrames,
    /// Whether it discards a frame whose tag is followed by another tag of the bridge's kind. If the bridge takes the
    /// first tag off such a frame, the next bridge reads the second one.
    pub refuses_second_tag: bool,
    /// Whether it discards incoming frames of VLANs that it is not a member of (IEEE 802.1Q, 8.6.2).
    pub ingress_filtering: bool,
    /// The priority of a frame that comes in without a tag (IEEE 802.1Q, 12.6).
    pub default_priority: VlanPcp,
}

/// What the ports of a bridge may do now (IEEE 802.1Q, 8.4).
///
/// A port that is discarding is in none of the first two sets, one that is learning in the first, and one that is
/// forwarding in both. A port that is not authorized (IEEE 802.1X) is in none of them.
///
/// Each bit pattern is a value.
#[cfg_attr(feature = "serde", derive(serde::Serialize, serde::Deserialize))]
#[repr(C)]
#[derive(Clone, Copy, PartialEq, Eq, Hash, Debug)]
pub struct PortStates {
    /// The ports that learn the sources of the frames that they accept.
    pub learning: PortSet,
    /// The ports through which frames come in and leave.
    pub forwarding: PortSet,
    /// The ports that exchange no frames with each other, as those of a private VLAN.
    pub isolated: PortSet,
    /// The ports that get a copy of each frame that is passed on, with the tag of its VLAN, whatever their state and
    /// their VLANs are.
    pub mirrors: PortSet,
}

impl PortStates {
    /// All ports are discarding.
    pub const NONE: PortStates = PortStates {
        learning: PortSet::NONE,
        forwarding: PortSet::NONE,
        isolated: PortSet::NONE,
        mirrors: PortSet::NONE,
    };
}

impl PortConfig {
    /// A port for stations of one VLAN. It accepts only frames without a tag.
    ///
    /// <details><summary>Contract</summary>
    ///
    /// ```text
    /// ensures pvid { result.pvid ≡ vlan }
    /// ensures frame_types { result.frame_types ≡ AcceptableFrames.OnlyUntagged }
    /// ensures refuses_second_tag { result.refuses_second_tag ≡ true }
    /// ensures ingress_filtering { result.ingress_filtering ≡ true }
    /// ensures default_priority { result.default_priority ≡ 0 }
    /// ```
    ///
    /// [Notation](crate::definitions::notation)
    ///
    /// </details>
    #[must_use]
    #[inline]
    pub fn access(vlan: Vlan) -> PortConfig {
        PortConfig {
            pvid: vlan,
            frame_types: AcceptableFrames::OnlyUntagged,
            refuses_second_tag: true,
            ingress_filtering: true,
            default_priority: VlanPcp::ZERO,
        }
    }

    /// A port to another bridge. It accepts only frames with a tag that names a VLAN, and no second tag after it.
    ///
    /// <details><summary>Contract</summary>
    ///
    /// ```text
    /// ensures pvid { result.pvid ≡ 1 }
    /// ensures frame_types { result.frame_types ≡ AcceptableFrames.OnlyVlanTagged }
    /// ensures refuses_second_tag { result.refuses_second_tag ≡ true }
    /// ensures ingress_filtering { result.ingress_filtering ≡ true }
    /// ensures default_priority { result.default_priority ≡ 0 }
    /// ```
    ///
    /// [Notation](crate::definitions::notation)
    ///
    /// </details>
    #[must_use]
    #[inline]
    pub fn trunk() -> PortConfig {
        PortConfig {
            pvid: default_pvid(),
            frame_types: AcceptableFrames::OnlyVlanTagged,
            refuses_second_tag: true,
            ingress_filtering: true,
            default_priority: VlanPcp::ZERO,
        }
    }
}

/// The initial VLAN of ports (IEEE 802.1Q, table 9-2).
#[inline]
fn default_pvid() -> Vlan {
    match Vlan::try_new(1) {
        Ok(vlan) => vlan,
        Err(_) => unreachable!(),
    }
}
