//! A bridge with VLANs (IEEE 802.1Q, clauses 6.9 and 8), with a list of stations as its filtering database.

use crate::wire::{Ethernet, Tag, spelled};
use etherpeel::ether_switch::{AcceptableFrames, BridgeKind, Discarded, Forgotten};
use std::collections::{BTreeMap, BTreeSet};

/// Numbers of ports.
pub type Ports = BTreeSet<u8>;

/// A VLAN of a bridge.
#[derive(Clone, Debug, Default)]
pub struct VlanSettings {
    /// The member set (8.8.10).
    pub members: Ports,
    /// The untagged set (8.8.2).
    pub untagged: Ports,
    /// Whether there is room for its stations.
    pub learns: bool,
}

/// A static filtering entry (8.8.1).
#[derive(Clone, Debug)]
pub struct Entry {
    pub vid: u16,
    pub address: Vec<u8>,
    pub ports: Ports,
}

/// The settings of a bridge.
#[derive(Clone, Debug)]
pub struct Settings {
    pub kind: BridgeKind,
    pub ageing_time: u32,
    pub learning: Ports,
    pub forwarding: Ports,
    pub isolated: Ports,
    pub mirrors: Ports,
    /// By the identifier. A VLAN that is not here has no ports.
    pub vlans: BTreeMap<u16, VlanSettings>,
    pub entries: Vec<Entry>,
    /// Bit i: the reserved address that ends in i is forwarded all the same.
    pub forwarded: u16,
}

/// The settings of a port (6.9, 8.6.2).
#[derive(Clone, Debug)]
pub struct Port {
    pub pvid: u16,
    pub frame_types: AcceptableFrames,
    pub refuses_second_tag: bool,
    pub ingress_filtering: bool,
    pub default_priority: u8,
}

/// Where and when a station was seen last (8.8.3).
#[derive(Clone, PartialEq, Eq, Debug)]
pub struct Station {
    pub vid: u16,
    pub address: Vec<u8>,
    pub port: u8,
    pub time: u32,
}

/// Where a frame goes.
#[derive(Clone, PartialEq, Eq, Debug)]
pub struct Answer {
    pub kind: BridgeKind,
    pub vid: u16,
    pub priority: u8,
    pub drop_eligible: bool,
    /// It is for the bridge itself.
    pub reserved: bool,
    pub tagged: Ports,
    pub untagged: Ports,
}

/// The ether type that announces a tag of a bridge of this kind (table 9-1).
pub fn tpid(kind: BridgeKind) -> u16 {
    match kind {
        BridgeKind::Customer => 0x8100,
        BridgeKind::Provider => 0x88A8,
    }
}

/// Whether an address is a group address: the first bit that is sent is the lowest one (IEEE 802.3, 3.2.3).
pub fn is_group(address: &[u8]) -> bool {
    address[0] % 2 == 1
}

pub fn is_station(address: &[u8]) -> bool {
    !is_group(address) && address.iter().any(|&byte| byte != 0)
}

/// The last digit of an address that no bridge of this kind forwards: 01-80-C2-00-00-00 to -0F for a customer bridge
/// (table 8-1); for a provider bridge -01 to -0A and -0E, since customers may use the others (table 8-2).
fn reserved_digit(kind: BridgeKind, address: &[u8]) -> Option<u8> {
    let [0x01, 0x80, 0xC2, 0, 0, digit @ 0..=0x0F] = *address else { return None };
    match kind {
        BridgeKind::Customer => Some(digit),
        BridgeKind::Provider => [1, 2, 3, 4, 5, 6, 7, 8, 9, 0x0A, 0x0E].contains(&digit).then_some(digit),
    }
}

/// The header of a frame, and its tag if it is of the bridge's kind.
pub fn front(kind: BridgeKind, frame: &[u8]) -> Result<(Ethernet, Option<Tag>), Discarded> {
    if frame.len() < Ethernet::LEN {
        return Err(Discarded::NoHeader);
    }
    let header = Ethernet::read(frame);
    if header.ether_type != tpid(kind) {
        return Ok((header, None));
    }
    match frame.get(Ethernet::LEN..Ethernet::LEN + Tag::LEN) {
        Some(tag) => Ok((header, Some(Tag::read(tag)))),
        None => Err(Discarded::CutTag),
    }
}

impl Port {
    /// Whether a port admits a frame with this tag (6.9).
    fn admits(&self, tag: Option<&Tag>) -> bool {
        let names_vlan = tag.is_some_and(|tag| tag.vid != 0);
        match self.frame_types {
            AcceptableFrames::All => true,
            AcceptableFrames::OnlyVlanTagged => names_vlan,
            AcceptableFrames::OnlyUntaggedAndPriorityTagged => !names_vlan,
            AcceptableFrames::OnlyUntagged => tag.is_none(),
        }
    }
}

impl Settings {
    /// Whether a port is in the member set of a VLAN (8.8.10).
    fn is_member(&self, vid: u16, port: u8) -> bool {
        self.vlans.get(&vid).is_some_and(|vlan| vlan.members.contains(&port))
    }

    /// Whether a port is in the untagged set of a VLAN (8.8.2).
    fn is_untagged(&self, vid: u16, port: u8) -> bool {
        self.vlans.get(&vid).is_some_and(|vlan| vlan.untagged.contains(&port))
    }

    /// Why a port refuses a frame of a VLAN, if it does.
    fn refusal(&self, from: u8, port: &Port, vid: u16, tag: Option<&Tag>) -> Option<Discarded> {
        if !port.admits(tag) {
            return Some(Discarded::FrameType);
        }
        if port.refuses_second_tag && tag.is_some_and(|tag| tag.ether_type == tpid(self.kind)) {
            return Some(Discarded::SecondTag);
        }
        (port.ingress_filtering && !self.is_member(vid, from)).then_some(Discarded::NotAMember)
    }

    /// Whether a frame of a VLAN may go from one port to another (8.6.1, 8.6.4, and isolated ports).
    fn connects(&self, vid: u16, from: u8, to: u8) -> bool {
        let both_isolated = self.isolated.contains(&from) && self.isolated.contains(&to);
        from != to && self.is_member(vid, to) && self.forwarding.contains(&to) && !both_isolated
    }
}

/// A bridge with what it has learned.
#[derive(Clone, Debug)]
pub struct Bridge {
    pub settings: Settings,
    pub stations: Vec<Station>,
}

impl Bridge {
    /// The last sighting of a station, however old.
    pub fn station(&self, vid: u16, address: &[u8]) -> Option<&Station> {
        self.stations.iter().find(|station| station.vid == vid && station.address == address)
    }

    /// Whether a sighting is at most the ageing time ago (8.8.3).
    pub fn is_live(&self, station: &Station, now: u32) -> bool {
        now - station.time <= self.settings.ageing_time
    }

    /// Learns from a frame that came in by a port, and says where it goes (8.6, 8.7).
    pub fn receive(&mut self, now: u32, from: u8, port: &Port, frame: &[u8]) -> Result<Answer, Discarded> {
        let (header, tag) = front(self.settings.kind, frame)?;
        let vid = match tag.as_ref().map_or(0, |tag| tag.vid) {
            0 => port.pvid,
            4095 => return Err(Discarded::ReservedIdentifier), // (table 9-2)
            vid => vid,
        };
        if !is_station(&header.source) {
            return Err(Discarded::Source);
        }
        let refusal = self.settings.refusal(from, port, vid, tag.as_ref());
        let has_room = self.settings.vlans.get(&vid).is_some_and(|vlan| vlan.learns);
        if refusal.is_none() && self.settings.learning.contains(&from) && has_room {
            self.learn(Station { vid, address: header.source, port: from, time: now });
        }
        let answer = Answer {
            kind: self.settings.kind,
            vid,
            priority: tag.as_ref().map_or(port.default_priority, |tag| tag.pcp),
            drop_eligible: tag.is_some_and(|tag| tag.dei),
            reserved: self.is_for_bridge(&header.destination),
            tagged: Ports::new(),
            untagged: Ports::new(),
        };
        match refusal {
            _ if answer.reserved => Ok(answer),
            Some(reason) => Err(reason),
            None if !self.settings.forwarding.contains(&from) => Err(Discarded::PortState),
            None => Ok(self.relayed(now, from, &header.destination, answer)),
        }
    }

    /// Whether frames to an address are for the bridge itself (8.6.3).
    fn is_for_bridge(&self, address: &[u8]) -> bool {
        reserved_digit(self.settings.kind, address).is_some_and(|digit| self.settings.forwarded >> digit & 1 == 0)
    }

    fn learn(&mut self, new: Station) {
        self.stations.retain(|station| station.vid != new.vid || station.address != new.address);
        self.stations.push(new);
    }

    /// The ports through which a frame leaves. A static entry has precedence over what was learned (8.8.1, 8.8.3).
    fn relayed(&self, now: u32, from: u8, to: &[u8], answer: Answer) -> Answer {
        let vid = answer.vid;
        let entry = self.settings.entries.iter().find(|entry| entry.vid == vid && entry.address == to);
        let station = self.station(vid, to).filter(|station| self.is_live(station, now));
        let is_for = |port: u8| match (entry, station) {
            (Some(entry), _) => entry.ports.contains(&port),
            (None, Some(station)) => station.port == port,
            (None, None) => true,
        };
        let leaving = (0..=255).filter(|&port| self.settings.connects(vid, from, port) && is_for(port));
        let mirrors: Ports = self.settings.mirrors.iter().copied().filter(|&port| port != from).collect();
        let (untagged, mut tagged): (Ports, Ports) = leaving.partition(|&port| self.settings.is_untagged(vid, port));
        tagged.extend(&mirrors);
        Answer { tagged, untagged: untagged.difference(&mirrors).copied().collect(), ..answer }
    }

    /// Forgets stations, of one VLAN or of all.
    pub fn forget(&mut self, vid: Option<u16>, which: Forgotten) {
        let is_meant = |station: &Station| match which {
            Forgotten::All => true,
            Forgotten::Port(port) => station.port == port,
            Forgotten::Station(address) => station.address == address,
        };
        self.stations.retain(|station| vid.is_some_and(|vid| vid != station.vid) || !is_meant(station));
    }
}

/// The form of a frame with the tag of its VLAN: its own tag with another identifier, or a new one after the addresses
/// (9.1). There is none of a frame that is too short.
pub fn tagged_form(kind: BridgeKind, frame: &[u8], new: &Tag) -> Option<Vec<u8>> {
    let (addresses, rest) = frame.split_at_checked(12)?;
    let control = match front(kind, frame).ok()? {
        (_, Some(own)) => Tag { vid: new.vid, ..own }.control(),
        (_, None) => new.control(),
    };
    let rest = if front(kind, frame).ok()?.1.is_some() { &rest[4..] } else { rest };
    Some([addresses, &spelled(tpid(kind).into(), 2), &spelled(control.into(), 2), rest].concat())
}

/// The form of a frame without a tag: the four octets of its own tag are left out.
pub fn untagged_form(kind: BridgeKind, frame: &[u8]) -> Option<Vec<u8>> {
    match front(kind, frame).ok()? {
        (_, Some(_)) => Some([&frame[..12], &frame[16..]].concat()),
        (_, None) => Some(frame.to_vec()),
    }
}
