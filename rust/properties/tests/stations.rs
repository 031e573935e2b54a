//! The table of stations of a bridge: `ether_switch`.

use etherpeel::VlanPcp;
use etherpeel::ether_switch::{
    AcceptableFrames, Bridge, BridgeKind, Forgotten, PortConfig, PortSet, PortStates, Sighting, StationBucket, Vlan,
    VlanConfig, forget,
};
use properties::cases::check;
use properties::frames::ethernet_bytes;
use properties::networks::{PORTS, forgotten};
use properties::table::{FREE, Part, Places, bucket, places, sip_hash};
use properties::wire::number;
use proptest::collection::vec;
use proptest::prelude::{Strategy, any, prop_assert_eq, prop_oneof};
use proptest::sample::select;
use std::hash::{DefaultHasher, Hasher};

/// How many stations there are: more than a small table has places for.
const STATIONS: u8 = 24;

fn address(station: u8) -> [u8; 6] {
    [2, 0, 0, 0, 7, station]
}

/// A sighting in a table: of a station, of none, or any numbers, since a table can be any memory.
fn sighting() -> impl Strategy<Value = Sighting> {
    let station = (0..STATIONS).prop_map(|station| number(&address(station)));
    let address = prop_oneof![6 => station, 2 => 0..2u64, 1 => any::<u64>()];
    let time = prop_oneof![6 => 950..1010u32, 1 => any::<u32>()];
    let parts = (address, time, prop_oneof![4 => select(vec![0, 1, 2]), 1 => any::<u8>()]);
    parts.prop_map(|(address, time, port)| Sighting { address, time, port })
}

fn table() -> impl Strategy<Value = Vec<Places>> {
    let places = (sighting(), sighting(), sighting(), sighting()).prop_map(|(a, b, c, d)| [a, b, c, d]);
    let free = |len| vec![[FREE; 4]; len];
    prop_oneof![(0..9usize).prop_map(free), vec(places, 0..9)]
}

fn part() -> impl Strategy<Value = Part> {
    let key = any::<[u64; 2]>();
    (key, 0..4usize, 0..8usize, 0..40u32).prop_map(|(key, first, len, ageing_time)| Part {
        key,
        buckets: first..first + len,
        ageing_time,
    })
}

/// All ports learn and forward.
fn states() -> PortStates {
    let mut all = PortSet::NONE;
    (0..=255).for_each(|port| all.insert(port));
    PortStates { learning: all, forwarding: all, ..PortStates::NONE }
}

/// A bridge with one VLAN, 1, which has this part of the table.
fn bridge<'a>(part: &Part, states: &'a PortStates, vlans: &'a mut [VlanConfig; 2]) -> Bridge<'a> {
    let (first_bucket, buckets) = (part.buckets.start as u32, part.buckets.len() as u32);
    vlans[1] = VlanConfig { members: states.forwarding, untagged: PortSet::NONE, first_bucket, buckets };
    Bridge {
        kind: BridgeKind::Customer,
        ageing_time: part.ageing_time,
        key: part.key,
        ports: states,
        vlans,
        static_entries: &[],
        forwarded: 0,
    }
}

fn port() -> PortConfig {
    PortConfig {
        pvid: Vlan::try_new(1).expect("the default PVID"),
        frame_types: AcceptableFrames::All,
        refuses_second_tag: false,
        ingress_filtering: false,
        default_priority: VlanPcp::ZERO,
    }
}

/// A frame from a station is learned in one of the two buckets that the hash of its address gives, in the place that
/// the model says, whatever the table has; every other place is unchanged.
///
/// Holds: `Bridge::receive`
#[test]
fn stations_are_learned_in_their_buckets() {
    let frames = vec((0..9u32, 0..STATIONS, select(vec![0, 1, 2])), 1..30);
    check((table(), part(), frames), |(mut wanted, part, frames)| {
        let (states, mut vlans, mut now) = (states(), [VlanConfig::NONE; 2], 1000);
        let bridge = bridge(&part, &states, &mut vlans);
        let mut table: Vec<StationBucket> = wanted.iter().copied().map(bucket).collect();
        for (seconds, station, from) in frames {
            now += seconds;
            let frame = ethernet_bytes(&[0xFF; 6], &address(station), None, 0x0800);
            prop_assert_eq!(bridge.receive(&mut table, now, from, &port(), &frame).err(), None);
            part.learn(&mut wanted, Sighting { address: number(&address(station)), time: now, port: from });
            prop_assert_eq!(table.iter().map(places).collect::<Vec<_>>(), wanted.clone());
        }
        Ok(())
    });
}

/// The sighting of a station is the first one in its two buckets, however old; a group and the address 0 have none.
///
/// Holds: `Bridge::sighting`
#[test]
fn stations_are_found_in_their_buckets() {
    let others = select(vec![[0; 6], [0xFF; 6], [3, 0, 0, 0, 7, 1]]);
    let address = prop_oneof![6 => (0..STATIONS).prop_map(address), 1 => others];
    check((table(), part(), vec(address, 1..9)), |(table, part, addresses)| {
        let (states, mut vlans) = (states(), [VlanConfig::NONE; 2]);
        let bridge = bridge(&part, &states, &mut vlans);
        let buckets: Vec<StationBucket> = table.iter().copied().map(bucket).collect();
        let vlan = Vlan::try_new(1).expect("it is the identifier of a VLAN");
        for address in addresses {
            prop_assert_eq!(bridge.sighting(&buckets, vlan, address), part.find(&table, number(&address)));
        }
        Ok(())
    });
}

/// A frame leaves by the port at which its destination was seen last, if that was at most the ageing time ago, whatever
/// the table has; by all other ports, if it was not.
///
/// Holds: `Bridge::receive`
#[test]
fn frames_go_to_the_port_of_the_sighting() {
    check((table(), part(), 0..STATIONS), |(table, part, station)| {
        let (states, mut vlans, now, from) = (states(), [VlanConfig::NONE; 2], 1000, 9);
        let bridge = bridge(&part, &states, &mut vlans);
        let mut buckets: Vec<StationBucket> = table.iter().copied().map(bucket).collect();
        let frame = ethernet_bytes(&address(station), &address(99), None, 0x0800);
        let received = bridge.receive(&mut buckets, now, from, &port(), &frame).expect("the port accepts it");
        let mut learned = table;
        part.learn(&mut learned, Sighting { address: number(&address(99)), time: now, port: from });
        let sighting = part.find(&learned, number(&address(station)));
        let known = sighting.filter(|sighting| now.saturating_sub(sighting.time) <= part.ageing_time);
        let leaves = |port: u8| port != from && known.is_none_or(|sighting| sighting.port == port);
        let wanted: Vec<u8> = (0..=255).filter(|&port| leaves(port)).collect();
        let found: Vec<u8> = (0..=255).filter(|&port| received.tagged.contains(port)).collect();
        prop_assert_eq!((found, received.untagged), (wanted, PortSet::NONE));
        Ok(())
    });
}

/// Exactly the sightings that are meant are replaced by free places, in each bucket; all others keep their place.
///
/// Holds: `forget`
#[test]
fn sightings_are_forgotten() {
    let stations = (0..STATIONS).prop_map(|station| Forgotten::Station(address(station)));
    let ports = select(PORTS.to_vec()).prop_map(Forgotten::Port);
    check((table(), prop_oneof![forgotten(), stations, ports]), |(table, which)| {
        let is_forgotten = |sighting: Sighting| match which {
            Forgotten::All => true,
            Forgotten::Port(port) => sighting.port == port,
            Forgotten::Station(address) => sighting.address == number(&address),
        };
        let kept = |places: &Places| places.map(|sighting| if is_forgotten(sighting) { FREE } else { sighting });
        let mut buckets: Vec<StationBucket> = table.iter().copied().map(bucket).collect();
        forget(&mut buckets, which);
        prop_assert_eq!(buckets.iter().map(places).collect::<Vec<_>>(), table.iter().map(kept).collect::<Vec<_>>());
        Ok(())
    });
}

/// The hash of the model is that of the standard library, whose key is 0.
#[test]
fn the_hash_is_that_of_the_standard_library() {
    check(vec(any::<u8>(), 0..40), |message| {
        let mut hasher = DefaultHasher::new();
        hasher.write(&message);
        prop_assert_eq!(sip_hash([0, 0], &message), hasher.finish());
        Ok(())
    });
}
