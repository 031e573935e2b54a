//! Stations that a bridge forgets.
use crate::checks::equal;
use crate::switch::bridges::{
    customer_bridge, forwarding, frame, leaves, set, station, untagged_vlan,
};
use etherpeel::ether_switch::{
    Bridge, Forgotten, PortConfig, PortSet, StationBucket, Vlan, VlanConfig, forget,
};
use crate::kit::Abort;
use crate::kit::Fail;

/// What is forgotten, and which of the stations 1 at port 1, 2 and 3 at port 2 are then known.
struct Row {
    name: &'static str,
    which: Forgotten,
    wanted: [bool; 3],
}

static ROWS: [Row; 5] = [
    Row {
        name: "all",
        which: Forgotten::All,
        wanted: [false, false, false],
    },
    Row {
        name: "those at port 2",
        which: Forgotten::Port(2),
        wanted: [true, false, false],
    },
    Row {
        name: "those at a port without any",
        which: Forgotten::Port(3),
        wanted: [true, true, true],
    },
    Row {
        name: "one station",
        which: Forgotten::Station([2, 0, 0, 0, 0, 2]),
        wanted: [true, false, true],
    },
    Row {
        name: "a station that is not known",
        which: Forgotten::Station([2, 0, 0, 0, 0, 4]),
        wanted: [true, true, true],
    },
];

/// Learns the stations 1 at port 1, 2 and 3 at port 2.
fn learn(bridge: &Bridge, table: &mut [StationBucket], vlan: Vlan) {
    let port = PortConfig::access(vlan);
    for (last, from) in [(1, 1), (2, 2), (3, 2)] {
        let _ = bridge.receive(table, 0, from, &port, &frame(station(9), station(last)));
    }
}

/// Whether the stations 1 to 3 are known.
fn known(bridge: &Bridge, table: &[StationBucket], vlan: Vlan) -> [bool; 3] {
    [
        bridge.sighting(table, vlan, station(1)).is_some(),
        bridge.sighting(table, vlan, station(2)).is_some(),
        bridge.sighting(table, vlan, station(3)).is_some(),
    ]
}

/// Fails if other stations are known than the row says.
fn check<R: Abort>(rt: &R, row: &Row, bridge: &Bridge, vlan: Vlan) {
    let mut table = [StationBucket::EMPTY; 4];
    learn(bridge, &mut table, vlan);
    forget(&mut table, row.which);
    equal!(rt, row.name; known(bridge, &table, vlan) => row.wanted);
}

#[test]
fn the_stations_that_are_named_are_forgotten() -> Result<(), Fail> {
    let rt = crate::kit::HostRuntime;
    let vlan = Vlan::try_new(10)?;
    let states = forwarding(&[1, 2, 3]);
    let mut vlans = [VlanConfig::NONE; 11];
    vlans[10] = untagged_vlan(&[1, 2, 3], 0, 4);
    let bridge = customer_bridge(&states, &vlans);
    for row in &ROWS {
        check(&rt, row, &bridge, vlan);
    }
    Ok(())
}

#[test]
fn frames_to_a_forgotten_station_go_to_all_ports_until_it_is_seen() -> Result<(), Fail> {
    let rt = crate::kit::HostRuntime;
    let vlan = Vlan::try_new(10)?;
    let states = forwarding(&[1, 2, 3]);
    let mut vlans = [VlanConfig::NONE; 11];
    vlans[10] = untagged_vlan(&[1, 2, 3], 0, 4);
    let bridge = customer_bridge(&states, &vlans);
    let port = PortConfig::access(vlan);
    let mut table = [StationBucket::EMPTY; 4];
    learn(&bridge, &mut table, vlan);
    forget(&mut table, Forgotten::Port(2));
    let sent = frame(station(2), station(1));
    let flooded = leaves(bridge.receive(&mut table, 1, 1, &port, &sent));
    let _ = bridge.receive(&mut table, 1, 3, &port, &frame(station(9), station(2)));
    let found = leaves(bridge.receive(&mut table, 1, 1, &port, &sent));
    equal!(rt, "a station that moved from port 2 to port 3";
        flooded => Ok((PortSet::NONE, set(&[2, 3]))),
        found => Ok((PortSet::NONE, set(&[3]))),
    );
    Ok(())
}

#[test]
fn stations_are_forgotten_in_one_vlan_alone() -> Result<(), Fail> {
    let rt = crate::kit::HostRuntime;
    let (one, other) = (Vlan::try_new(5)?, Vlan::try_new(6)?);
    let states = forwarding(&[1, 2, 3]);
    let mut vlans = [VlanConfig::NONE; 7];
    vlans[5] = untagged_vlan(&[1, 2, 3], 0, 4);
    vlans[6] = untagged_vlan(&[1, 2, 3], 4, 4);
    let bridge = customer_bridge(&states, &vlans);
    let mut table = [StationBucket::EMPTY; 8];
    learn(&bridge, &mut table, one);
    learn(&bridge, &mut table, other);
    forget(&mut table[4..8], Forgotten::All);
    equal!(rt, "in the part of VLAN 6";
        known(&bridge, &table, one) => [true, true, true],
        known(&bridge, &table, other) => [false, false, false],
    );
    Ok(())
}
