//! Which ports are in a set, which addresses are for a bridge, and what is in an empty value. Written by hand, for
//! `rust/faults.py`: in the sources proofs say it.
use etherpeel::ether_switch::{
    Bridge, BridgeKind, PortConfig, PortSet, PortStates, Sighting, StationBucket, Vlan, VlanConfig,
};

/// The set of the ports that pass.
fn set(passes: impl Fn(u8) -> bool) -> PortSet {
    let mut set = PortSet::NONE;
    (0..=255).filter(|port| passes(*port)).for_each(|port| set.insert(port));
    set
}

#[test]
fn each_port() {
    for port in 0..=255 {
        let (one, mut others, mut words) = (PortSet::only(port), set(|_| true), [0; 4]);
        others.remove(port);
        words[usize::from(port >> 6)] = 1u64 << (port & 63);
        assert_eq!(one.words, words);
        for other in 0..=255 {
            let wanted = (other == port, other != port);
            assert_eq!((one.contains(other), others.contains(other)), wanted, "{port} and {other}");
        }
    }
}

#[test]
fn sets_of_two() {
    let (a, b) = (set(|port| port % 2 == 0), set(|port| port % 3 == 0));
    assert_eq!(a.union(&b), set(|port| port % 2 == 0 || port % 3 == 0));
    assert_eq!(a.intersection(&b), set(|port| port % 6 == 0));
    assert_eq!(a.difference(&b), set(|port| port % 2 == 0 && port % 3 != 0));
}

/// Whether a frame to an address is for a bridge that forwards these reserved addresses.
fn is_kept(kind: BridgeKind, forwarded: u16, address: [u8; 6]) -> bool {
    let vlans = [VlanConfig::NONE, VlanConfig { members: PortSet::only(1), ..VlanConfig::NONE }];
    let ports = PortStates { forwarding: PortSet::only(1), ..PortStates::NONE };
    let (ageing_time, key) = (Bridge::AGEING_TIME, [0, 0]);
    let bridge = Bridge { kind, ageing_time, key, ports: &ports, vlans: &vlans, static_entries: &[], forwarded };
    let mut frame = [0x02; 14];
    frame[..6].copy_from_slice(&address);
    bridge.receive(&mut [], 0, 1, &PortConfig::access(Vlan::try_new(1).unwrap()), &frame).unwrap().reserved
}

#[test]
fn reserved_addresses() {
    // IEEE 802.1Q, tables 8-1 and 8-2, by the last digit of the address
    let of_provider = [1, 2, 3, 4, 5, 6, 7, 8, 9, 10, 14];
    for last in 0..16 {
        let address = [0x01, 0x80, 0xC2, 0x00, 0x00, last];
        for forwarded in (0..16).flat_map(|i| [1 << i, !(1 << i)]) {
            let is_forwarded = forwarded & 1 << last != 0;
            assert_eq!(is_kept(BridgeKind::Customer, forwarded, address), !is_forwarded, "{last} {forwarded:#x}");
            let wanted = !is_forwarded && of_provider.contains(&last);
            assert_eq!(is_kept(BridgeKind::Provider, forwarded, address), wanted, "{last} {forwarded:#x}");
        }
        for (at, byte) in [(0, 0x03), (1, 0x81), (2, 0xC3), (3, 0x01), (4, 0x01), (5, last | 0x10)] {
            let mut other = address;
            other[at] = byte;
            assert!(!is_kept(BridgeKind::Customer, 0, other) && !is_kept(BridgeKind::Provider, 0, other));
        }
    }
}

#[test]
fn empty_values() {
    let (none, bucket) = (Sighting { address: 0, time: 0, port: 0 }, StationBucket::EMPTY);
    assert_eq!([bucket.first, bucket.second, bucket.third, bucket.fourth], [none; 4]);
    let (vlan, states) = (VlanConfig::NONE, PortStates::NONE);
    assert_eq!((vlan.first_bucket, vlan.buckets), (0, 0));
    let sets = [vlan.members, vlan.untagged, states.learning, states.forwarding, states.isolated, states.mirrors];
    assert!(sets.iter().all(|it| it.words == [0; 4]));
}
