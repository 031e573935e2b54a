//! The bridge: `ether_switch`.

use etherpeel::ether_switch::{
    AcceptableFrames, Bridge, BridgeKind, Discarded, PortConfig, PortSet, PortStates, Received, Sighting, StaticEntry,
    StationBucket, Vlan, VlanConfig, VlanError, forget, parts_are_in_order,
};
use etherpeel::{EtherType, VlanPcp};
use properties::bridge::{self, Answer, Entry, Ports, Settings, Station, VlanSettings, tagged_form, untagged_form};
use properties::cases::{Checked, check};
use properties::frames::ethernet_bytes;
use properties::networks::{
    Event, PORTS, STATIONS, VIDS, events, kind, port_config, port_set, ports_of, settings, station, vlan_rows,
};
use properties::wire::Tag;
use proptest::collection::{btree_set, vec};
use proptest::prelude::{Strategy, any, prop_assert, prop_assert_eq, prop_oneof};
use proptest::sample::select;

/// The arguments of a bridge of the crate.
struct Arguments {
    states: PortStates,
    vlans: Vec<VlanConfig>,
    entries: Vec<StaticEntry>,
    table: Vec<StationBucket>,
    key: [u64; 2],
}

fn static_entry(entry: &Entry) -> StaticEntry {
    let address = entry.address.as_slice().try_into().expect("six bytes");
    StaticEntry { ports: port_set(&entry.ports), address, vid: entry.vid }
}

impl Arguments {
    fn of(settings: &Settings, buckets: u32, key: [u64; 2]) -> Arguments {
        let states = PortStates {
            learning: port_set(&settings.learning),
            forwarding: port_set(&settings.forwarding),
            isolated: port_set(&settings.isolated),
            mirrors: port_set(&settings.mirrors),
        };
        let table = vec![StationBucket::EMPTY; settings.vlans.len() * (buckets as usize + 1) + 1];
        let entries = settings.entries.iter().map(static_entry).collect();
        Arguments { states, vlans: vlan_rows(settings, buckets), entries, table, key }
    }

    fn bridge(&self, settings: &Settings) -> Bridge<'_> {
        Bridge {
            kind: settings.kind,
            ageing_time: settings.ageing_time,
            key: self.key,
            ports: &self.states,
            vlans: &self.vlans,
            static_entries: &self.entries,
            forwarded: settings.forwarded,
        }
    }

    /// The part of the table that a VLAN has, or the whole table.
    fn part(&mut self, vid: Option<u16>) -> &mut [StationBucket] {
        let row = vid.map(|vid| self.vlans.get(usize::from(vid)).copied().unwrap_or(VlanConfig::NONE));
        match row {
            None => &mut self.table,
            Some(row) => &mut self.table[row.first_bucket as usize..][..row.buckets as usize],
        }
    }
}

/// What the crate answers, in the terms of the model.
fn answer(received: Received) -> Answer {
    Answer {
        kind: received.kind,
        vid: received.vlan.id().value(),
        priority: received.priority.value(),
        drop_eligible: received.drop_eligible,
        reserved: received.reserved,
        tagged: ports_of(&received.tagged),
        untagged: ports_of(&received.untagged),
    }
}

/// A station that the crate has seen.
fn seen(vid: u16, sighting: Sighting) -> Station {
    let address = sighting.address.to_be_bytes()[2..].to_vec();
    Station { vid, address, port: sighting.port, time: sighting.time }
}

/// A bridge of the crate and one of the model.
struct Both {
    model: bridge::Bridge,
    arguments: Arguments,
    now: u32,
}

impl Both {
    fn new(settings: Settings, buckets: u32, key: [u64; 2]) -> Both {
        let arguments = Arguments::of(&settings, buckets, key);
        Both { model: bridge::Bridge { settings, stations: Vec::new() }, arguments, now: 1000 }
    }

    /// Both learn from a frame and answer it.
    fn receive(&mut self, from: u8, port: &bridge::Port, frame: &[u8]) -> [Result<Answer, Discarded>; 2] {
        let mut table = std::mem::take(&mut self.arguments.table);
        let bridge = self.arguments.bridge(&self.model.settings);
        let received = bridge.receive(&mut table, self.now, from, &port_config(port), frame);
        self.arguments.table = table;
        [received.map(answer), self.model.receive(self.now, from, port, frame)]
    }

    /// A station sends an untagged frame to all, which both pass on.
    fn learns(&mut self, from: u8, vid: u16, address: &[u8]) -> Checked {
        let [found, wanted] = self.receive(from, &open_port(vid), &untagged_frame(address));
        prop_assert!(found.is_ok());
        prop_assert_eq!(found, wanted);
        Ok(())
    }

    /// The last sighting of a station, as the crate has it.
    fn sighting(&self, vid: u16, address: &[u8]) -> Option<Station> {
        let bridge = self.arguments.bridge(&self.model.settings);
        let vlan = Vlan::try_new(vid).expect("it is the identifier of a VLAN");
        let address = address.try_into().expect("six bytes");
        bridge.sighting(&self.arguments.table, vlan, address).map(|sighting| seen(vid, sighting))
    }

    fn happens(&mut self, event: Event) -> Checked {
        match event {
            Event::Frame { seconds, from, port, frame } => {
                self.now += seconds;
                let [found, wanted] = self.receive(from, &port, &frame);
                prop_assert_eq!(found, wanted);
            }
            Event::Forget { vid, which } => {
                forget(self.arguments.part(vid), which);
                self.model.forget(vid, which);
            }
        }
        Ok(())
    }

    /// Each station that was seen in the ageing time is known with port and time; an older one is known so or not at
    /// all.
    fn knows_the_same(&self) -> Checked {
        let numbers = VIDS.iter().flat_map(|&vid| (0..=STATIONS).map(move |number| (vid, station(number))));
        for (vid, address) in numbers {
            let wanted = self.model.station(vid, &address).cloned();
            let is_live = wanted.as_ref().is_some_and(|station| self.model.is_live(station, self.now));
            let found = self.sighting(vid, &address);
            prop_assert!(found == wanted || (found.is_none() && !is_live), "{:?}: {:?}", found, wanted);
        }
        Ok(())
    }
}

/// A bridge answers each frame as the model with an unlimited list of stations does: the VLAN, the priority, whether
/// the frame is for the bridge, the ports through which it leaves with a tag and without one, or the first reason to
/// discard it. It learns, ages and forgets the same stations. (Two buckets of four places have room for the eight
/// stations, so none is pushed out.)
///
/// Holds: `Bridge::receive`, `Bridge::sighting`, `forget`
#[test]
fn bridges_answer_as_the_standard_says() {
    check((settings(), events(), 1..8u32, any::<[u64; 2]>()), |(settings, events, pairs, key)| {
        let mut both = Both::new(settings, 2 * pairs, key);
        for event in events {
            both.happens(event)?;
        }
        both.knows_the_same()
    });
}

/// A table that is too small never names a wrong port: what it has of a station is the last sighting. The station of
/// the last frame is always there. No part of the table is written but that of the frame's VLAN.
///
/// Holds: `Bridge::receive`, `Bridge::sighting`
#[test]
fn small_tables_have_last_sightings() {
    let frames = vec((0..12u8, 0..40u8, select(PORTS.to_vec()), select(VIDS.to_vec())), 1..60);
    check((0..4u32, frames, any::<[u64; 2]>()), |(buckets, frames, key)| {
        let mut both = Both::new(open_settings(buckets > 0), buckets, key);
        for (seconds, number, from, vid) in frames {
            both.now += u32::from(seconds % 3);
            let before = both.arguments.table.clone();
            both.learns(from, vid, &station(number))?;
            let wanted = both.model.station(vid, &station(number)).cloned();
            prop_assert_eq!(both.sighting(vid, &station(number)), wanted);
            keeps_other_parts(&both, vid, &before)?;
        }
        has_last_sightings(&both)
    });
}

fn has_last_sightings(both: &Both) -> Checked {
    let numbers = VIDS.iter().flat_map(|&vid| (0..40).map(move |number| (vid, station(number))));
    for (vid, address) in numbers {
        let found = both.sighting(vid, &address);
        prop_assert!(found.is_none() || found.as_ref() == both.model.station(vid, &address));
    }
    Ok(())
}

fn keeps_other_parts(both: &Both, vid: u16, before: &[StationBucket]) -> Checked {
    let row = both.arguments.vlans[usize::from(vid)];
    let (first, end) = (row.first_bucket as usize, row.first_bucket as usize + row.buckets as usize);
    prop_assert_eq!(&both.arguments.table[..first], &before[..first]);
    prop_assert_eq!(&both.arguments.table[end..], &before[end..]);
    Ok(())
}

/// A bridge whose ports do everything.
fn open_settings(learns: bool) -> Settings {
    let all: Ports = PORTS.into_iter().collect();
    let vlan = VlanSettings { members: all.clone(), untagged: Ports::new(), learns };
    Settings {
        kind: BridgeKind::Customer,
        ageing_time: 30,
        learning: all.clone(),
        forwarding: all,
        isolated: Ports::new(),
        mirrors: Ports::new(),
        vlans: VIDS.iter().map(|&vid| (vid, vlan.clone())).collect(),
        entries: Vec::new(),
        forwarded: 0,
    }
}

fn open_port(pvid: u16) -> bridge::Port {
    let frame_types = AcceptableFrames::All;
    bridge::Port { pvid, frame_types, refuses_second_tag: false, ingress_filtering: false, default_priority: 0 }
}

fn untagged_frame(source: &[u8]) -> Vec<u8> {
    ethernet_bytes(&[0xFF; 6], source, None, 0x0800)
}

/// A new station takes a place that is free or has aged. If there is none in the only bucket of its VLAN, it takes the
/// place of a station whose port has the most of them there, the new one included, and of these the one that was seen
/// first.
///
/// Holds: `Bridge::receive`
#[test]
fn full_buckets_are_shared_by_ports() {
    let frames = vec((0..9u32, 0..12u8, select(vec![0, 1, 2])), 1..40);
    check((frames, any::<[u64; 2]>()), |(frames, key)| {
        let mut both = Both::new(open_settings(true), 1, key);
        for (seconds, number, from) in frames {
            both.now += seconds;
            let before = live(&both);
            both.learns(from, 1, &station(number))?;
            let after = live(&both);
            let lost: Vec<&Station> = before.iter().filter(|old| !has_station(&after, &old.address)).collect();
            is_fair(&before, &lost, &seen_now(&both, number))?;
        }
        Ok(())
    });
}

/// The stations in the table that were seen in the ageing time.
fn live(both: &Both) -> Vec<Station> {
    let known = (0..12).filter_map(|number| both.sighting(1, &station(number)));
    known.filter(|station| both.model.is_live(station, both.now)).collect()
}

fn seen_now(both: &Both, number: u8) -> Station {
    both.sighting(1, &station(number)).expect("the station of the last frame is there")
}

fn has_station(stations: &[Station], address: &[u8]) -> bool {
    stations.iter().any(|station| station.address == address)
}

fn is_fair(before: &[Station], lost: &[&Station], new: &Station) -> Checked {
    if before.len() < 4 || has_station(before, &new.address) {
        prop_assert!(lost.is_empty());
        return Ok(());
    }
    let [lost] = lost else { panic!("one station leaves: {lost:?}") };
    let all = || before.iter().chain([new]);
    let at = |port: u8| all().filter(|station| station.port == port).count();
    for other in before {
        prop_assert!(at(lost.port) >= at(other.port));
        prop_assert!(at(lost.port) > at(other.port) || lost.time <= other.time);
    }
    Ok(())
}

fn received() -> impl Strategy<Value = Received> {
    let parts = (kind(), 1..4095u16, 0..8u8, any::<[bool; 2]>());
    parts.prop_map(|(kind, vid, priority, [drop_eligible, reserved])| Received {
        kind,
        vlan: Vlan::try_new(vid).expect("it is the identifier of a VLAN"),
        priority: VlanPcp::try_new(priority).expect("three bits"),
        drop_eligible,
        reserved,
        tagged: PortSet::NONE,
        untagged: PortSet::NONE,
    })
}

/// A frame leaves with the tag of its VLAN, whose priority is that of its own tag or the one given; or without its own
/// tag. All other bytes are unchanged. The buffer of a frame that is too short is unchanged.
///
/// Holds: `Received::make_tagged`, `Received::make_untagged`
#[test]
fn frames_leave_with_a_tag_or_without() {
    let types = select(vec![[0x81, 0x00], [0x88, 0xA8], [0x91, 0x00], [0x08, 0x00]]);
    let frame = (
        vec(any::<u8>(), 12),
        types,
        vec(any::<u8>(), 0..9),
        prop_oneof![vec(any::<u8>(), 99), vec(any::<u8>(), 0..19)],
    );
    check((received(), any::<[u8; 4]>(), frame), |(received, free, (addresses, ether_type, rest, cut))| {
        let mut frame = [addresses, ether_type.to_vec(), rest].concat();
        frame.truncate(cut.len());
        let buffer = [free.to_vec(), frame.clone()].concat();
        let (vid, dei) = (received.vlan.id().value(), received.drop_eligible);
        let new = Tag { pcp: received.priority.value(), dei, vid, ether_type: 0 };
        let mut tagged = buffer.clone();
        let sent = received.make_tagged(&mut tagged).map(|at| tagged[at..].to_vec());
        prop_assert_eq!(&sent, &tagged_form(received.kind, &frame, &new));
        let mut untagged = buffer.clone();
        let bare = received.make_untagged(&mut untagged).map(|at| untagged[at..].to_vec());
        prop_assert_eq!(&bare, &untagged_form(received.kind, &frame));
        prop_assert!(sent.is_some() || tagged == buffer);
        prop_assert!(bare.is_some() || untagged == buffer);
        Ok(())
    });
}

/// A buffer that has no room for four free bytes is unchanged.
///
/// Holds: `Received::make_tagged`, `Received::make_untagged`
#[test]
fn short_buffers_are_unchanged() {
    check((received(), vec(any::<u8>(), 0..18)), |(received, buffer)| {
        let mut left = buffer.clone();
        prop_assert_eq!((received.make_tagged(&mut left), received.make_untagged(&mut left)), (None, None));
        prop_assert_eq!(left, buffer);
        Ok(())
    });
}

/// Sets of ports are sets of numbers up to 255.
///
/// Holds: `PortSet::only`, `PortSet::contains`, `PortSet::insert`, `PortSet::remove`, `PortSet::intersection`,
/// `PortSet::union`, `PortSet::difference`
#[test]
fn port_sets_are_sets() {
    let ports = || btree_set(any::<u8>(), 0..30);
    check((ports(), ports(), any::<u8>()), |(ports, others, port)| {
        let (set, other) = (port_set(&ports), port_set(&others));
        prop_assert_eq!(ports_of(&set), ports.clone());
        prop_assert_eq!(ports_of(&set.union(&other)), ports.union(&others).copied().collect());
        prop_assert_eq!(ports_of(&set.intersection(&other)), ports.intersection(&others).copied().collect());
        prop_assert_eq!(ports_of(&set.difference(&other)), ports.difference(&others).copied().collect());
        prop_assert_eq!(ports_of(&PortSet::only(port)), Ports::from([port]));
        let mut fewer = set;
        let member = ports.iter().next().copied().unwrap_or(port);
        fewer.remove(member);
        fewer.remove(port);
        let wanted = ports.iter().copied().filter(|&it| it != member && it != port).collect();
        prop_assert_eq!(ports_of(&fewer), wanted);
        Ok(())
    });
}

/// A VLAN has an identifier from 1 to 4094 (IEEE 802.1Q, table 9-2).
///
/// Holds: `Vlan::try_new`, `Vlan::id`
#[test]
fn vlans_have_identifiers() {
    check(prop_oneof![0..3u16, 4090..4100u16, any::<u16>()], |number| {
        let wanted = if (1..=4094).contains(&number) { Ok(number) } else { Err(VlanError(number)) };
        prop_assert_eq!(Vlan::try_new(number).map(|vlan| vlan.id().value()), wanted);
        Ok(())
    });
}

/// A port for stations accepts frames without a tag, and a port to a bridge those with a tag that names a VLAN; neither
/// accepts a second tag, or a VLAN that it is not a member of. A bridge has the tags of its kind.
///
/// Holds: `PortConfig::access`, `PortConfig::trunk`, `BridgeKind::tpid`
#[test]
fn ports_accept_the_frames_of_their_use() {
    check((1..=4094u16, kind()), |(vid, kind)| {
        let vlan = Vlan::try_new(vid).expect("it is the identifier of a VLAN");
        let access = PortConfig {
            pvid: vlan,
            frame_types: AcceptableFrames::OnlyUntagged,
            refuses_second_tag: true,
            ingress_filtering: true,
            default_priority: VlanPcp::ZERO,
        };
        prop_assert_eq!(PortConfig::access(vlan), access);
        let (pvid, frame_types) = (Vlan::try_new(1).expect("the default PVID"), AcceptableFrames::OnlyVlanTagged);
        prop_assert_eq!(PortConfig::trunk(), PortConfig { pvid, frame_types, ..access });
        prop_assert_eq!(kind.tpid(), EtherType(bridge::tpid(kind)));
        Ok(())
    });
}

/// The parts of VLANs are in order exactly if each that has buckets begins at the end of those before it, or later.
///
/// Holds: `parts_are_in_order`
#[test]
fn parts_in_order_follow_one_another() {
    let part = prop_oneof![4 => (0..30u32, 0..4u32), 1 => (any::<u32>(), any::<u32>())];
    check(vec(part, 0..6), |parts| {
        let row = |&(first_bucket, buckets): &(u32, u32)| VlanConfig { first_bucket, buckets, ..VlanConfig::NONE };
        let rows: Vec<VlanConfig> = parts.iter().map(row).collect();
        let used: Vec<_> = parts.iter().filter(|part| part.1 > 0).collect();
        let follows = |pair: &[&(u32, u32)]| u64::from(pair[0].0) + u64::from(pair[0].1) <= u64::from(pair[1].0);
        prop_assert_eq!(parts_are_in_order(&rows), used.windows(2).all(follows));
        Ok(())
    });
}

/// Drawn bridges pass frames on, to one port and to several, with a tag and without, and discard some for each reason:
/// the properties above are about something.
#[test]
fn drawn_bridges_do_everything() {
    use proptest::strategy::ValueTree;
    let runner = &mut proptest::test_runner::TestRunner::deterministic();
    let mut counts = std::collections::BTreeMap::new();
    for _ in 0..150 {
        let (settings, events) = (settings(), events()).new_tree(runner).expect("it is drawn").current();
        let mut model = bridge::Bridge { settings, stations: Vec::new() };
        let outcomes = events.iter().filter_map(|event| match event {
            Event::Frame { from, port, frame, .. } => Some(model.receive(0, *from, port, frame)),
            Event::Forget { .. } => None,
        });
        outcomes.for_each(|outcome| *counts.entry(outcome_name(&outcome)).or_insert(0) += 1);
    }
    assert!(counts.len() == 12 && counts.values().all(|&count| count >= 10), "{counts:?}");
}

fn outcome_name(outcome: &Result<Answer, Discarded>) -> String {
    match outcome {
        Err(reason) => format!("{reason:?}"),
        Ok(answer) if answer.reserved => "reserved".into(),
        Ok(answer) => match (answer.tagged.len(), answer.untagged.len()) {
            (0, 0) => "nowhere".into(),
            (1, 0) | (0, 1) => "one port".into(),
            _ => "several ports".into(),
        },
    }
}
