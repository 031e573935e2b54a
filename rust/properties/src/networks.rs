//! Draws bridges and the frames that they receive.

use crate::bridge::{Entry, Port, Ports, Settings, VlanSettings};
use crate::frames::{ether_type, ethernet_bytes};
use crate::wire::Tag;
use etherpeel::VlanPcp;
use etherpeel::ether_switch::{AcceptableFrames, BridgeKind, Forgotten, PortConfig, PortSet, Vlan, VlanConfig};
use proptest::collection::{btree_map, vec};
use proptest::prelude::{Just, Strategy, any, prop_oneof};
use proptest::sample::{select, subsequence};

/// The ports of drawn bridges.
pub const PORTS: [u8; 6] = [0, 1, 2, 63, 64, 255];
/// The identifiers of their VLANs.
pub const VIDS: [u16; 4] = [1, 2, 3, 40];
/// How many stations send frames. Two buckets have places for all of them.
pub const STATIONS: u8 = 8;

/// The address of a station.
pub fn station(number: u8) -> Vec<u8> {
    vec![2, 0, 0, 0, 7, number]
}

/// Something that happens to a bridge.
#[derive(Clone, Debug)]
pub enum Event {
    /// Seconds pass, then a frame comes in by a port.
    Frame { seconds: u32, from: u8, port: Port, frame: Vec<u8> },
    /// Stations are forgotten, those of a VLAN or all.
    Forget { vid: Option<u16>, which: Forgotten },
}

fn ports() -> impl Strategy<Value = Ports> {
    let some = subsequence(PORTS.to_vec(), 0..=PORTS.len()).prop_map(|ports| ports.into_iter().collect());
    prop_oneof![2 => Just(PORTS.into_iter().collect()), 2 => some]
}

/// A few ports, or none.
fn few_ports() -> impl Strategy<Value = Ports> {
    let some = subsequence(PORTS.to_vec(), 0..3).prop_map(|ports| ports.into_iter().collect());
    prop_oneof![2 => Just(Ports::new()), 1 => some]
}

pub fn kind() -> impl Strategy<Value = BridgeKind> {
    select(vec![BridgeKind::Customer, BridgeKind::Provider])
}

/// An address that a frame goes to: of a station, a group, a reserved one, or one that sends nothing.
fn destination() -> impl Strategy<Value = Vec<u8>> {
    let reserved = (0..0x12u8).prop_map(|digit| vec![0x01, 0x80, 0xC2, 0, 0, digit]);
    let others = select(vec![vec![0xFF; 6], vec![0; 6], station(99), vec![0x01, 0, 0x5E, 0, 0, 1]]);
    prop_oneof![6 => (0..STATIONS).prop_map(station), 1 => reserved, 2 => others]
}

fn source() -> impl Strategy<Value = Vec<u8>> {
    let others = select(vec![vec![0xFF; 6], vec![0; 6], vec![3, 0, 0, 0, 7, 1]]);
    prop_oneof![12 => (0..STATIONS).prop_map(station), 1 => others]
}

/// A frame, mostly with one tag or none.
fn frame() -> impl Strategy<Value = Vec<u8>> {
    let vid = prop_oneof![2 => Just(0), 8 => select(VIDS.to_vec()), 1 => select(vec![4094, 4095, 5])];
    let tag = (select(vec![0x8100, 0x88A8]), 0..8u8, any::<bool>(), vid, ether_type());
    let tag = tag.prop_map(|(tpid, pcp, dei, vid, ether_type)| (tpid, Tag { pcp, dei, vid, ether_type }));
    let tag = prop_oneof![1 => Just(None), 2 => tag.prop_map(Some)];
    let len = prop_oneof![9 => Just(99), 1 => 0..20usize];
    let parts = (destination(), source(), tag, ether_type(), vec(any::<u8>(), 0..6), len);
    parts.prop_map(|(destination, source, tag, ether_type, payload, len)| {
        let mut bytes = [ethernet_bytes(&destination, &source, tag, ether_type), payload].concat();
        bytes.truncate(len);
        bytes
    })
}

fn port() -> impl Strategy<Value = Port> {
    use AcceptableFrames::{All, OnlyUntagged, OnlyUntaggedAndPriorityTagged, OnlyVlanTagged};
    let others = select(vec![OnlyUntagged, OnlyUntaggedAndPriorityTagged, OnlyVlanTagged]);
    let frame_types = prop_oneof![3 => Just(All), 1 => others];
    (select(VIDS.to_vec()), frame_types, any::<[bool; 2]>(), 0..8u8).prop_map(|(pvid, frame_types, flags, priority)| {
        let [refuses_second_tag, ingress_filtering] = flags;
        Port { pvid, frame_types, refuses_second_tag, ingress_filtering, default_priority: priority }
    })
}

pub fn forgotten() -> impl Strategy<Value = Forgotten> {
    prop_oneof![
        Just(Forgotten::All),
        select(PORTS.to_vec()).prop_map(Forgotten::Port),
        (0..STATIONS).prop_map(|number| Forgotten::Station([2, 0, 0, 0, 7, number])),
    ]
}

fn event() -> impl Strategy<Value = Event> {
    let seconds = prop_oneof![4 => 0..3u32, 1 => 0..12u32];
    let frame = (seconds, select(PORTS.to_vec()), port(), frame());
    let vid = prop_oneof![Just(None), select(VIDS.to_vec()).prop_map(Some)];
    prop_oneof![
        15 => frame.prop_map(|(seconds, from, port, frame)| Event::Frame { seconds, from, port, frame }),
        1 => (vid, forgotten()).prop_map(|(vid, which)| Event::Forget { vid, which }),
    ]
}

/// What happens to a bridge.
pub fn events() -> impl Strategy<Value = Vec<Event>> {
    vec(event(), 1..40)
}

fn vlan() -> impl Strategy<Value = VlanSettings> {
    let learns = prop_oneof![6 => Just(true), 1 => Just(false)];
    let parts = (ports(), ports(), learns);
    parts.prop_map(|(members, untagged, learns)| VlanSettings { members, untagged, learns })
}

fn entry() -> impl Strategy<Value = Entry> {
    let parts = (select(VIDS.to_vec()), destination(), ports());
    parts.prop_map(|(vid, address, ports)| Entry { vid, address, ports })
}

pub fn settings() -> impl Strategy<Value = Settings> {
    let vlans = btree_map(select(VIDS.to_vec()), vlan(), 2..=VIDS.len());
    let forwarded = prop_oneof![Just(0), any::<u16>()];
    let states = (ports(), ports(), few_ports(), few_ports());
    let parts = (kind(), 0..12u32, states, vlans, vec(entry(), 0..3), forwarded);
    parts.prop_map(|(kind, ageing_time, (learning, forwarding, isolated, mirrors), vlans, entries, forwarded)| {
        Settings { kind, ageing_time, learning, forwarding, isolated, mirrors, vlans, entries, forwarded }
    })
}

/// The set of the crate that has these ports.
pub fn port_set(ports: &Ports) -> PortSet {
    let mut set = PortSet::NONE;
    ports.iter().for_each(|&port| set.insert(port));
    set
}

/// The ports that a set of the crate has.
pub fn ports_of(set: &PortSet) -> Ports {
    (0..=255).filter(|&port| set.contains(port)).collect()
}

/// The configuration of a port in the types of the crate.
pub fn port_config(port: &Port) -> PortConfig {
    PortConfig {
        pvid: Vlan::try_new(port.pvid).expect("it is the identifier of a VLAN"),
        frame_types: port.frame_types,
        refuses_second_tag: port.refuses_second_tag,
        ingress_filtering: port.ingress_filtering,
        default_priority: VlanPcp::try_new(port.default_priority).expect("three bits"),
    }
}

/// The rows of the VLANs, each at its identifier. Those that learn have `buckets` buckets each, one part after the
/// other, with a free bucket before each.
pub fn vlan_rows(settings: &Settings, buckets: u32) -> Vec<VlanConfig> {
    let last = settings.vlans.keys().last().copied().unwrap_or(0);
    let mut rows = vec![VlanConfig::NONE; usize::from(last) + 1];
    for (part, (&vid, vlan)) in settings.vlans.iter().enumerate() {
        rows[usize::from(vid)] = VlanConfig {
            members: port_set(&vlan.members),
            untagged: port_set(&vlan.untagged),
            first_bucket: 1 + part as u32 * (buckets + 1),
            buckets: if vlan.learns { buckets } else { 0 },
        };
    }
    rows
}
