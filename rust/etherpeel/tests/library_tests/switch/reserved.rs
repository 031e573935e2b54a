//! Frames to reserved addresses (IEEE 802.1Q, tables 8-1 and 8-2).
use crate::checks::equal;
use crate::switch::bridges::{customer_bridge, forwarding, frame, set, station, untagged_vlan};
use etherpeel::ether_switch::{
    Bridge, BridgeKind, PortConfig, PortSet, PortStates, StationBucket, Vlan, VlanConfig,
};
use crate::kit::Abort;
use crate::kit::Fail;

/// A bridge that forwards some addresses against the standard, and those that are for itself: bit `i` is for the
/// address 01-80-C2-00-00-0i.
struct Row {
    name: &'static str,
    kind: BridgeKind,
    forwarded: u16,
    wanted: u16,
}

static ROWS: [Row; 6] = [
    Row {
        name: "all 16 at a customer bridge",
        kind: BridgeKind::Customer,
        forwarded: 0,
        wanted: 0xFFFF,
    },
    Row {
        name: "01 to 0A and 0E at a provider bridge",
        kind: BridgeKind::Provider,
        forwarded: 0,
        wanted: 0x47FE,
    },
    Row {
        name: "03 and 0E are forwarded by a customer bridge",
        kind: BridgeKind::Customer,
        forwarded: 0x4008,
        wanted: 0xBFF7,
    },
    Row {
        name: "03 and 0E are forwarded by a provider bridge",
        kind: BridgeKind::Provider,
        forwarded: 0x4008,
        wanted: 0x07F6,
    },
    Row {
        name: "0F is forwarded by a provider bridge anyhow",
        kind: BridgeKind::Provider,
        forwarded: 0x8000,
        wanted: 0x47FE,
    },
    Row {
        name: "all are forwarded",
        kind: BridgeKind::Customer,
        forwarded: 0xFFFF,
        wanted: 0,
    },
];

/// Whether a frame to a group is for the bridge itself. Fails if it then leaves, or else does not leave by port 2.
fn is_for_bridge<R: Abort>(
    rt: &R,
    name: &str,
    bridge: &Bridge,
    port: &PortConfig,
    last: u8,
) -> bool {
    let mut table = [StationBucket::EMPTY; 2];
    let sent = frame([0x01, 0x80, 0xC2, 0x00, 0x00, last], station(1));
    match bridge.receive(&mut table, 0, 1, port, &sent) {
        Ok(received) => {
            let leaving: &[u8] = if received.reserved { &[] } else { &[2] };
            equal!(rt, name; received.untagged => set(leaving), received.tagged => PortSet::NONE);
            received.reserved
        }
        Err(reason) => panic!("{name}: discarded: {reason:?}"),
    }
}

/// The addresses that are for the bridge itself.
fn own<R: Abort>(rt: &R, name: &str, bridge: &Bridge, port: &PortConfig) -> u16 {
    let mut own = 0;
    for last in 0..16u8 {
        if is_for_bridge(rt, name, bridge, port, last) {
            own |= 1 << last;
        }
    }
    own
}

#[test]
fn frames_to_reserved_addresses_are_for_the_bridge_unless_it_forwards_them() -> Result<(), Fail> {
    let rt = crate::kit::HostRuntime;
    let port = PortConfig::access(Vlan::try_new(10)?);
    let states = forwarding(&[1, 2]);
    let mut vlans = [VlanConfig::NONE; 11];
    vlans[10] = untagged_vlan(&[1, 2], 0, 2);
    for row in &ROWS {
        let bridge = Bridge {
            kind: row.kind,
            forwarded: row.forwarded,
            ..customer_bridge(&states, &vlans)
        };
        equal!(rt, row.name;
            own(&rt, row.name, &bridge, &port) => row.wanted,
            is_for_bridge(&rt, row.name, &bridge, &port, 0x10) => false,
        );
    }
    Ok(())
}

#[test]
fn a_discarding_port_still_returns_frames_for_the_bridge() -> Result<(), Fail> {
    let rt = crate::kit::HostRuntime;
    let mut vlans = [VlanConfig::NONE; 21];
    vlans[20] = untagged_vlan(&[2], 0, 2);
    let bridge = customer_bridge(&PortStates::NONE, &vlans);
    let mut table = [StationBucket::EMPTY; 2];
    let sent = b"\x01\x80\xC2\x00\x00\x00\x02\x00\x00\x00\x00\x01\x81\x00\xF0\x14\x00\x26";
    let port = PortConfig::access(Vlan::try_new(10)?);
    match bridge.receive(&mut table, 0, 1, &port, sent) {
        Ok(received) => equal!(rt, "of VLAN 20, with the priority 7, drop eligible";
            received.reserved => true,
            received.vlan.id().value() => 20,
            received.priority.value() => 7,
            received.drop_eligible => true,
            received.tagged => PortSet::NONE,
            received.untagged => PortSet::NONE,
        ),
        Err(reason) => panic!("discarded: {reason:?}"),
    }
    let seen = bridge.sighting(&table, Vlan::try_new(20)?, station(1));
    equal!(rt, "its source is not learned"; seen => None);
    Ok(())
}
