//! Bridges and frames for the tests.
use etherpeel::ether_switch::{Bridge, BridgeKind, Discarded, PortSet, PortStates, Received, VlanConfig};

/// The set of these ports.
pub(crate) fn set(ports: &[u8]) -> PortSet {
    let mut set = PortSet::NONE;
    for port in ports {
        set.insert(*port);
    }
    set
}

/// The states in which these ports are forwarding.
pub(crate) fn forwarding(ports: &[u8]) -> PortStates {
    PortStates {
        learning: set(ports),
        forwarding: set(ports),
        ..PortStates::NONE
    }
}

/// A VLAN whose frames leave by these ports without a tag. It has the buckets from `first_bucket` on.
pub(crate) fn untagged_vlan(ports: &[u8], first_bucket: u32, buckets: u32) -> VlanConfig {
    VlanConfig {
        members: set(ports),
        untagged: set(ports),
        first_bucket,
        buckets,
    }
}

/// A customer bridge.
pub(crate) fn customer_bridge<'a>(ports: &'a PortStates, vlans: &'a [VlanConfig]) -> Bridge<'a> {
    Bridge {
        kind: BridgeKind::Customer,
        ageing_time: Bridge::AGEING_TIME,
        key: [0x0706_0504_0302_0100, 0x0F0E_0D0C_0B0A_0908],
        ports,
        vlans,
        static_entries: &[],
        forwarded: 0,
    }
}

/// The address of a station, by its last byte.
pub(crate) fn station(last: u8) -> [u8; 6] {
    [2, 0, 0, 0, 0, last]
}

/// The bytes of an address.
pub(crate) fn address(number: u64) -> [u8; 6] {
    let [_, _, a, b, c, d, e, f] = number.to_be_bytes();
    [a, b, c, d, e, f]
}

/// A frame without a tag.
pub(crate) fn frame(destination: [u8; 6], source: [u8; 6]) -> [u8; 14] {
    let [a, b, c, d, e, f] = destination;
    let [g, h, i, j, k, l] = source;
    [a, b, c, d, e, f, g, h, i, j, k, l, 0x08, 0x00]
}

/// The ports through which a frame leaves, with and without a tag, or why it is discarded.
pub(crate) fn leaves(found: Result<Received, Discarded>) -> Result<(PortSet, PortSet), Discarded> {
    match found {
        Ok(received) => Ok((received.tagged, received.untagged)),
        Err(reason) => Err(reason),
    }
}
