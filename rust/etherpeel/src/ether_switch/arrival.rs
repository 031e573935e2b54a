//! Frames that come in by a port.

use crate::ether_switch::{AcceptableFrames, BridgeKind, PortConfig, Vlan};
use crate::ether_base::big_endian::u64_of;
use crate::ether_packet::{EthernetFront, ethernet_front};
use crate::VlanPcp;
use core::error::Error;
use core::fmt;

/// Why a bridge discards a frame. Of several reasons the first in this order is named.
#[derive(Clone, Copy, PartialEq, Eq, Hash, Debug)]
pub enum Discarded {
    /// It has fewer than 14 bytes.
    NoHeader,
    /// It announces a tag of the bridge's kind, which is cut short.
    CutTag,
    /// Its tag has the identifier 4095, which is reserved (IEEE 802.1Q, table 9-2).
    ReservedIdentifier,
    /// Its source is a group address, or all zeros.
    Source,
    /// The port does not accept frames with such a tag, or frames without a tag (IEEE 802.1Q, 6.9).
    FrameType,
    /// The port refuses a second tag, and the frame has one.
    SecondTag,
    /// The port filters ingress, and is not a member of the frame's VLAN (IEEE 802.1Q, 8.6.2).
    NotAMember,
    /// The port is not forwarding (IEEE 802.1Q, 8.4).
    PortState,
}

impl fmt::Display for Discarded {
    fn fmt(&self, f: &mut fmt::Formatter<'_>) -> fmt::Result {
        f.write_str(match self {
            Discarded::NoHeader => "The frame is shorter than its header.",
            Discarded::CutTag => "The frame's tag is cut short.",
            Discarded::ReservedIdentifier => "The identifier in the frame's tag is reserved.",
            Discarded::Source => "The frame's source is not the address of a station.",
            Discarded::FrameType =>
                "The port does not take frames with such a tag, or without one.",
            Discarded::SecondTag => "The port does not take frames with a second tag.",
            Discarded::NotAMember => "The port is not a member of the frame's VLAN.",
            Discarded::PortState => "The port is not forwarding.",
        })
    }
}

impl Error for Discarded {}

/// How a frame names its VLAN (IEEE 802.1Q, 3).
#[derive(Clone, Copy, PartialEq, Eq, Hash, Debug)]
pub(in crate::ether_switch) enum Tagging {
    Untagged,
    PriorityTagged,
    VlanTagged,
}

/// What a bridge reads of a frame that comes in by a port. The addresses are numbers of 48 bits.
#[derive(Clone, Copy, Debug)]
pub(in crate::ether_switch) struct Arrived {
    pub vlan: Vlan,
    pub priority: VlanPcp,
    pub drop_eligible: bool,
    pub source: u64,
    pub destination: u64,
}

/// Reads the VLAN, the priority and the addresses of a frame whose header and tag were read.
#[inline]
pub(in crate::ether_switch) fn arrive(port: &PortConfig, front: &EthernetFront) -> Result<Arrived, Discarded> {
    let Some(vlan) = vlan_for(port.pvid, front) else {
        return Err(Discarded::ReservedIdentifier);
    };
    let source = address_of(front.link.source);
    if !is_station(source) {
        return Err(Discarded::Source);
    }
    Ok(Arrived {
        vlan,
        priority: priority(port.default_priority, front),
        drop_eligible: is_drop_eligible(front),
        source,
        destination: address_of(front.link.destination),
    })
}

/// The header of a frame, and the tag after it if that is of the bridge's kind.
#[inline]
pub(in crate::ether_switch) fn read_front(kind: BridgeKind, frame: &[u8]) -> Result<EthernetFront, Discarded> {
    let Some(front) = ethernet_front(frame) else {
        return Err(Discarded::NoHeader);
    };
    if front.link.ether_type != kind.tpid() {
        return Ok(EthernetFront {
            link: front.link,
            vlan: None,
        });
    }
    match front.vlan {
        Some(_) => Ok(front),
        None => Err(Discarded::CutTag),
    }
}

/// The VLAN of a frame; `None` if its tag has the reserved identifier.
#[inline]
fn vlan_for(pvid: Vlan, front: &EthernetFront) -> Option<Vlan> {
    match front.vlan {
        Some(tag) if tag.vlan_id.value() != 0 => Vlan::try_new(tag.vlan_id.value()).ok(),
        _ => Some(pvid),
    }
}

/// Why a port refuses a frame, if it refuses it. `is_member` says whether it is a member of the frame's VLAN.
#[inline]
pub(in crate::ether_switch) fn refusal(
    kind: BridgeKind,
    port: &PortConfig,
    is_member: bool,
    front: &EthernetFront,
) -> Option<Discarded> {
    if !admits(port.frame_types, tagging_in(front)) {
        return Some(Discarded::FrameType);
    }
    if port.refuses_second_tag && has_second_tag(kind, front) {
        return Some(Discarded::SecondTag);
    }
    if port.ingress_filtering && !is_member {
        return Some(Discarded::NotAMember);
    }
    None
}

/// Whether the tag of a frame is followed by another one of the bridge's kind.
#[inline]
fn has_second_tag(kind: BridgeKind, front: &EthernetFront) -> bool {
    match front.vlan {
        Some(tag) => tag.ether_type == kind.tpid(),
        None => false,
    }
}

/// The priority in the tag of a frame, or else the port's default.
#[inline]
fn priority(default_priority: VlanPcp, front: &EthernetFront) -> VlanPcp {
    match front.vlan {
        Some(tag) => tag.pcp,
        None => default_priority,
    }
}

/// Whether the tag of a frame says that it may be dropped first.
#[inline]
fn is_drop_eligible(front: &EthernetFront) -> bool {
    match front.vlan {
        Some(tag) => tag.drop_eligible_indicator,
        None => false,
    }
}

/// How a frame names its VLAN.
#[inline]
fn tagging_in(front: &EthernetFront) -> Tagging {
    match front.vlan {
        None => Tagging::Untagged,
        Some(tag) if tag.vlan_id.value() == 0 => Tagging::PriorityTagged,
        Some(_) => Tagging::VlanTagged,
    }
}

/// Whether a port accepts frames that name their VLAN in this way.
#[inline]
fn admits(frame_types: AcceptableFrames, tagging: Tagging) -> bool {
    match frame_types {
        AcceptableFrames::All => true,
        AcceptableFrames::OnlyVlanTagged => tagging == Tagging::VlanTagged,
        AcceptableFrames::OnlyUntaggedAndPriorityTagged => tagging != Tagging::VlanTagged,
        AcceptableFrames::OnlyUntagged => tagging == Tagging::Untagged,
    }
}

/// An address as one number, its first byte the most significant one.
#[inline]
pub(in crate::ether_switch) fn address_of(bytes: [u8; 6]) -> u64 {
    let [a, b, c, d, e, f] = bytes;
    u64_of([0, 0, a, b, c, d, e, f])
}

/// Whether an address is that of a single station: not a group address, and not all zeros.
#[inline]
pub(in crate::ether_switch) fn is_station(address: u64) -> bool {
    !is_group(address) && address != 0
}

/// Whether an address is a group address.
#[inline]
fn is_group(address: u64) -> bool {
    address / (1 << 40) % 2 == 1
}
