//! The ports of the switch, and the VLANs that they carry.

use etherpeel::ether_switch::{
    AcceptableFrames, PortConfig, PortSet, PortStates, StationBucket, Vlan, VlanConfig,
};
use ether_tools::ether_capture::memory::{Global, NoMemory as AllocError};

/// A port of the switch.
#[derive(Clone, Copy, Debug)]
pub(crate) enum Port {
    /// A port for stations of this VLAN.
    Access(Vlan),
    /// A port to another bridge. It carries all VLANs.
    Trunk,
}

/// The number of buckets that each VLAN has in the table of stations.
const BUCKETS: u32 = 16;

/// The number of buckets in the table of stations.
const ALL_BUCKETS: usize = 4094 * BUCKETS as usize;

impl Port {
    /// Its configuration. An access port also accepts frames with a tag that has only a priority.
    pub(crate) fn config(self) -> PortConfig {
        match self {
            Port::Access(vlan) => PortConfig {
                frame_types: AcceptableFrames::OnlyUntaggedAndPriorityTagged,
                ..PortConfig::access(vlan)
            },
            Port::Trunk => PortConfig::trunk(),
        }
    }

    /// Whether frames of a VLAN leave by it.
    fn carries(self, vid: u16) -> bool {
        match self {
            Port::Access(vlan) => vlan.id().value() == vid,
            Port::Trunk => true,
        }
    }

    /// Whether frames of a VLAN leave by it without a tag.
    fn sends_untagged(self, vid: u16) -> bool {
        match self {
            Port::Access(vlan) => vlan.id().value() == vid,
            Port::Trunk => false,
        }
    }
}

/// The set of the ports from 1 to `count`.
fn ports_up_to(count: u8) -> PortSet {
    let mut set = PortSet::NONE;
    for i in 0..count {
        set.insert(i + 1);
    }
    set
}

/// The states of the ports from 1 to `count`: each learns and forwards.
pub(crate) fn states_of(count: u8) -> PortStates {
    let all = ports_up_to(count);
    PortStates {
        learning: all,
        forwarding: all,
        ..PortStates::NONE
    }
}

/// A table without stations.
pub(crate) fn empty_table(alloc: Global) -> Result<Vec<StationBucket>, AllocError> {
    let table = vec![StationBucket::EMPTY; ALL_BUCKETS];
    Ok(table)
}

/// The VLANs of these ports, each at the index of its identifier.
pub(crate) fn vlans_of(alloc: Global, ports: &[Port]) -> Result<Vec<VlanConfig>, AllocError> {
    let mut rows = vec![VlanConfig::NONE];
    for vid in 1..4095u16 {
        rows.push(vlan_of(ports, vid));
    }
    Ok(rows)
}

/// The VLAN with this identifier.
fn vlan_of(ports: &[Port], vid: u16) -> VlanConfig {
    let mut vlan = VlanConfig {
        first_bucket: (u32::from(vid) - 1) * BUCKETS,
        buckets: BUCKETS,
        ..VlanConfig::NONE
    };
    for i in 0..ports.len() {
        let number = i as u8 + 1;
        insert_if(ports[i].carries(vid), &mut vlan.members, number);
        insert_if(ports[i].sends_untagged(vid), &mut vlan.untagged, number);
    }
    vlan
}

/// Adds a port to a set, if it is one of the set.
fn insert_if(is_in: bool, set: &mut PortSet, number: u8) {
    if is_in {
        set.insert(number);
    }
}
