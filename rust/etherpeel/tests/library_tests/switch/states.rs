//! Ports that are not learning or not forwarding (IEEE 802.1Q, 8.4).
use crate::checks::equal;
use crate::switch::bridges::{customer_bridge, frame, leaves, set, station, untagged_vlan};
use etherpeel::ether_switch::{Discarded, PortConfig, PortSet, PortStates, StationBucket, Vlan, VlanConfig};
use crate::kit::Abort;
use crate::kit::Fail;

/// The states of ports, through which ports a frame from port 1 leaves, and whether its source is learned.
struct Row {
    name: &'static str,
    learning: &'static [u8],
    forwarding: &'static [u8],
    leaves: Result<&'static [u8], Discarded>,
    is_learned: bool,
}

static ROWS: [Row; 6] = [
    Row {
        name: "all are forwarding",
        learning: &[1, 2, 3],
        forwarding: &[1, 2, 3],
        leaves: Ok(&[2, 3]),
        is_learned: true,
    },
    Row {
        name: "it is discarding",
        learning: &[2, 3],
        forwarding: &[2, 3],
        leaves: Err(Discarded::PortState),
        is_learned: false,
    },
    Row {
        name: "it is learning",
        learning: &[1, 2, 3],
        forwarding: &[2, 3],
        leaves: Err(Discarded::PortState),
        is_learned: true,
    },
    Row {
        name: "it is forwarding, but does not learn",
        learning: &[2, 3],
        forwarding: &[1, 2, 3],
        leaves: Ok(&[2, 3]),
        is_learned: false,
    },
    Row {
        name: "another port is learning",
        learning: &[1, 2, 3],
        forwarding: &[1, 3],
        leaves: Ok(&[3]),
        is_learned: true,
    },
    Row {
        name: "all others are discarding",
        learning: &[1],
        forwarding: &[1],
        leaves: Ok(&[]),
        is_learned: true,
    },
];

/// Fails if the frame leaves by other ports, or its source is learned or not learned against the row.
fn check<R: Abort>(rt: &R, row: &Row, vlan: Vlan) {
    let states = PortStates {
        learning: set(row.learning),
        forwarding: set(row.forwarding),
        ..PortStates::NONE
    };
    let mut vlans = [VlanConfig::NONE; 11];
    vlans[10] = untagged_vlan(&[1, 2, 3], 0, 2);
    let bridge = customer_bridge(&states, &vlans);
    let mut table = [StationBucket::EMPTY; 2];
    let sent = frame(station(9), station(1));
    let found = leaves(bridge.receive(&mut table, 0, 1, &PortConfig::access(vlan), &sent));
    let wanted = match row.leaves {
        Ok(ports) => Ok((PortSet::NONE, set(ports))),
        Err(reason) => Err(reason),
    };
    equal!(rt, row.name;
        found => wanted,
        bridge.sighting(&table, vlan, station(1)).is_some() => row.is_learned,
    );
}

#[test]
fn a_port_learns_and_forwards_only_as_its_state_says() -> Result<(), Fail> {
    let rt = crate::kit::HostRuntime;
    let vlan = Vlan::try_new(10)?;
    for row in &ROWS {
        check(&rt, row, vlan);
    }
    Ok(())
}

#[test]
fn a_refused_frame_is_not_learned() -> Result<(), Fail> {
    let rt = crate::kit::HostRuntime;
    let vlan = Vlan::try_new(10)?;
    let states = PortStates {
        learning: set(&[1, 2]),
        forwarding: set(&[1, 2]),
        ..PortStates::NONE
    };
    let mut vlans = [VlanConfig::NONE; 11];
    vlans[10] = untagged_vlan(&[2], 0, 2);
    let bridge = customer_bridge(&states, &vlans);
    let mut table = [StationBucket::EMPTY; 2];
    let (trunk, access) = (PortConfig::trunk(), PortConfig::access(vlan));
    let sent = frame(station(9), station(1));
    let by_trunk = leaves(bridge.receive(&mut table, 0, 2, &trunk, &sent));
    let by_stranger = leaves(bridge.receive(&mut table, 0, 1, &access, &sent));
    equal!(rt, "by a trunk without a tag, and by a port that is no member";
        by_trunk => Err(Discarded::FrameType),
        by_stranger => Err(Discarded::NotAMember),
        bridge.sighting(&table, vlan, station(1)) => None,
    );
    Ok(())
}
