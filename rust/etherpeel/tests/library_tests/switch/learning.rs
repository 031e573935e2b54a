//! What a bridge learns, from frames that come in one after the other.
use crate::checks::equal;
use crate::switch::bridges::{
    address, customer_bridge, forwarding, frame, leaves, set, station, untagged_vlan,
};
use etherpeel::ether_switch::{Bridge, PortConfig, PortSet, Sighting, StationBucket, Vlan, VlanConfig};
use crate::kit::Abort;
use crate::kit::Fail;

/// A frame from one station to another, by the last bytes of their addresses, and the ports through which it leaves.
struct Row {
    name: &'static str,
    now: u32,
    from: u8,
    source: u8,
    destination: u8,
    wanted: &'static [u8],
}

static ROWS: [Row; 10] = [
    Row {
        name: "the first",
        now: 0,
        from: 1,
        source: 1,
        destination: 2,
        wanted: &[2, 3, 4],
    },
    Row {
        name: "its answer",
        now: 1,
        from: 2,
        source: 2,
        destination: 1,
        wanted: &[1],
    },
    Row {
        name: "one more",
        now: 2,
        from: 1,
        source: 1,
        destination: 2,
        wanted: &[2],
    },
    Row {
        name: "on one port",
        now: 3,
        from: 1,
        source: 3,
        destination: 1,
        wanted: &[],
    },
    Row {
        name: "of a station that moved",
        now: 4,
        from: 3,
        source: 1,
        destination: 3,
        wanted: &[1],
    },
    Row {
        name: "to where it is now",
        now: 5,
        from: 2,
        source: 2,
        destination: 1,
        wanted: &[3],
    },
    Row {
        name: "exactly the ageing time later",
        now: 304,
        from: 2,
        source: 2,
        destination: 1,
        wanted: &[3],
    },
    Row {
        name: "one second more",
        now: 305,
        from: 2,
        source: 2,
        destination: 1,
        wanted: &[1, 3, 4],
    },
    Row {
        name: "of the station that has aged",
        now: 306,
        from: 4,
        source: 1,
        destination: 2,
        wanted: &[2],
    },
    Row {
        name: "to it, at another port",
        now: 307,
        from: 2,
        source: 2,
        destination: 1,
        wanted: &[4],
    },
];

/// Fails if the row's frame leaves by other ports.
fn check<R: Abort>(
    rt: &R,
    row: &Row,
    bridge: &Bridge,
    table: &mut [StationBucket],
    port: &PortConfig,
) {
    let sent = frame(station(row.destination), station(row.source));
    let found = leaves(bridge.receive(table, row.now, row.from, port, &sent));
    equal!(rt, row.name; found => Ok((PortSet::NONE, set(row.wanted))));
}

#[test]
fn frames_go_where_their_station_was_seen_last() -> Result<(), Fail> {
    let rt = crate::kit::HostRuntime;
    let states = forwarding(&[1, 2, 3, 4]);
    let mut vlans = [VlanConfig::NONE; 11];
    vlans[10] = untagged_vlan(&[1, 2, 3, 4], 0, 2);
    let bridge = customer_bridge(&states, &vlans);
    let port = PortConfig::access(Vlan::try_new(10)?);
    let mut table = [StationBucket::EMPTY; 2];
    for row in &ROWS {
        check(&rt, row, &bridge, &mut table, &port);
    }
    Ok(())
}

/// Receives frames of as many other stations by a port.
fn flood(bridge: &Bridge, table: &mut [StationBucket], from: u8, vlan: Vlan, stations: u64) {
    let port = PortConfig::access(vlan);
    for i in 0..stations {
        let sent = frame([0xFF; 6], address(0x0600_0000_0000 + i));
        let _ = bridge.receive(table, 1, from, &port, &sent);
    }
}

/// When and where a station was seen.
fn seen(last: u8, time: u32, port: u8) -> Option<Sighting> {
    Some(Sighting {
        address: 0x0200_0000_0000 + u64::from(last),
        time,
        port,
    })
}

#[test]
fn a_flood_in_one_vlan_changes_no_answer_in_another() -> Result<(), Fail> {
    let rt = crate::kit::HostRuntime;
    let (own, other) = (Vlan::try_new(5)?, Vlan::try_new(6)?);
    let states = forwarding(&[1, 2, 3]);
    let mut vlans = [VlanConfig::NONE; 7];
    vlans[5] = untagged_vlan(&[1, 2, 3], 0, 8);
    vlans[6] = untagged_vlan(&[1, 2, 3], 8, 8);
    let bridge = customer_bridge(&states, &vlans);
    let mut table = [StationBucket::EMPTY; 16];
    let port = PortConfig::access(own);
    let _ = bridge.receive(&mut table, 0, 1, &port, &frame(station(9), station(1)));
    flood(&bridge, &mut table, 3, other, 5_000);
    let to_it = bridge.receive(&mut table, 1, 2, &port, &frame(station(1), station(2)));
    let to_another = bridge.receive(
        &mut table,
        1,
        2,
        &port,
        &frame(address(0x0600_0000_1387), station(2)),
    );
    equal!(rt, "a station of VLAN 5, and the last one of VLAN 6";
        bridge.sighting(&table, own, station(1)) => seen(1, 0, 1),
        leaves(to_it) => Ok((PortSet::NONE, set(&[1]))),
        leaves(to_another) => Ok((PortSet::NONE, set(&[1, 3]))),
        bridge.sighting(&table, other, address(0x0600_0000_1387)).is_some() => true,
        bridge.sighting(&table, other, station(1)) => None,
    );
    Ok(())
}

#[test]
fn one_station_is_known_at_another_port_in_each_vlan() -> Result<(), Fail> {
    let rt = crate::kit::HostRuntime;
    let (one, other) = (Vlan::try_new(5)?, Vlan::try_new(6)?);
    let states = forwarding(&[1, 2, 3]);
    let mut vlans = [VlanConfig::NONE; 7];
    vlans[5] = untagged_vlan(&[1, 2, 3], 0, 1);
    vlans[6] = untagged_vlan(&[1, 2, 3], 1, 1);
    let bridge = customer_bridge(&states, &vlans);
    let mut table = [StationBucket::EMPTY; 2];
    let sent = frame(station(9), station(1));
    let _ = bridge.receive(&mut table, 0, 1, &PortConfig::access(one), &sent);
    let _ = bridge.receive(&mut table, 1, 2, &PortConfig::access(other), &sent);
    equal!(rt, "at port 1 in VLAN 5, and at port 2 in VLAN 6";
        bridge.sighting(&table, one, station(1)) => seen(1, 0, 1),
        bridge.sighting(&table, other, station(1)) => seen(1, 1, 2),
    );
    Ok(())
}

#[test]
fn a_flood_from_one_port_pushes_out_no_station_of_another() -> Result<(), Fail> {
    let rt = crate::kit::HostRuntime;
    let vlan = Vlan::try_new(10)?;
    let states = forwarding(&[1, 2, 3]);
    let mut vlans = [VlanConfig::NONE; 11];
    vlans[10] = untagged_vlan(&[1, 2, 3], 0, 1);
    let bridge = customer_bridge(&states, &vlans);
    let mut table = [StationBucket::EMPTY; 1];
    let port = PortConfig::access(vlan);
    let _ = bridge.receive(&mut table, 0, 2, &port, &frame(station(9), station(2)));
    let _ = bridge.receive(&mut table, 0, 3, &port, &frame(station(9), station(3)));
    flood(&bridge, &mut table, 1, vlan, 10_000);
    let to_it = bridge.receive(&mut table, 1, 1, &port, &frame(station(2), station(1)));
    equal!(rt, "stations at ports 2 and 3, in one bucket";
        bridge.sighting(&table, vlan, station(2)) => seen(2, 0, 2),
        bridge.sighting(&table, vlan, station(3)) => seen(3, 0, 3),
        leaves(to_it) => Ok((PortSet::NONE, set(&[2]))),
    );
    Ok(())
}

#[test]
fn a_sighting_that_has_aged_makes_room_for_another_one() -> Result<(), Fail> {
    let rt = crate::kit::HostRuntime;
    let vlan = Vlan::try_new(10)?;
    let states = forwarding(&[1, 2, 3]);
    let mut vlans = [VlanConfig::NONE; 11];
    vlans[10] = untagged_vlan(&[1, 2, 3], 0, 1);
    let bridge = customer_bridge(&states, &vlans);
    let mut table = [StationBucket::EMPTY; 1];
    let port = PortConfig::access(vlan);
    for last in 1..5u8 {
        let time = u32::from(last);
        let _ = bridge.receive(
            &mut table,
            time,
            1,
            &port,
            &frame(station(9), station(last)),
        );
    }
    // the first three have aged, and the first of these leaves
    let _ = bridge.receive(&mut table, 304, 2, &port, &frame(station(9), station(5)));
    equal!(rt, "four stations in one bucket, and a fifth";
        bridge.sighting(&table, vlan, station(1)) => None,
        bridge.sighting(&table, vlan, station(2)) => seen(2, 2, 1),
        bridge.sighting(&table, vlan, station(4)) => seen(4, 4, 1),
        bridge.sighting(&table, vlan, station(5)) => seen(5, 304, 2),
    );
    Ok(())
}

/// Whether a station is known after its frame, if its VLAN has these buckets of a table of 8.
fn is_learned(vlan: Vlan, first_bucket: u32, buckets: u32) -> bool {
    let states = forwarding(&[1, 2]);
    let mut vlans = [VlanConfig::NONE; 11];
    vlans[10] = untagged_vlan(&[1, 2], first_bucket, buckets);
    let bridge = customer_bridge(&states, &vlans);
    let mut table = [StationBucket::EMPTY; 8];
    let port = PortConfig::access(vlan);
    let _ = bridge.receive(&mut table, 0, 1, &port, &frame(station(9), station(1)));
    bridge.sighting(&table, vlan, station(1)).is_some()
}

#[test]
fn a_vlan_learns_only_in_a_part_that_the_table_has() -> Result<(), Fail> {
    let rt = crate::kit::HostRuntime;
    let vlan = Vlan::try_new(10)?;
    equal!(rt, "of 8 buckets";
        is_learned(vlan, 0, 8) => true,
        is_learned(vlan, 7, 1) => true,
        is_learned(vlan, 0, 9) => false,
        is_learned(vlan, 7, 2) => false,
        is_learned(vlan, 8, 1) => false,
        is_learned(vlan, 0, 0) => false,
        is_learned(vlan, u32::MAX, u32::MAX) => false,
    );
    Ok(())
}
