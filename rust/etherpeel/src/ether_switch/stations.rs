//! The stations that a bridge has learned.

use crate::ether_switch::VlanConfig;
use crate::ether_switch::arrival::is_station;
use crate::ether_switch::sip_hash::sip_hash;

/// A frame of a station: when it came in, and at which port.
///
/// Each bit pattern is a value.
#[repr(C)]
#[derive(Clone, Copy, PartialEq, Eq, Hash, Debug)]
pub struct Sighting {
    /// The address of the station, a number of 48 bits whose highest byte is the first one. 0 is not a station.
    pub address: u64,
    /// The time in seconds, as the caller gave it.
    pub time: u32,
    /// The number of the port.
    pub port: u8,
}

/// The last sightings of up to four stations. In a free place the address is 0.
///
/// Each bit pattern is a value, so a table can be any memory that is initially 0.
#[repr(C)]
#[derive(Clone, Copy, PartialEq, Eq, Hash, Debug)]
pub struct StationBucket {
    /// The first place.
    pub first: Sighting,
    /// The second place.
    pub second: Sighting,
    /// The third place.
    pub third: Sighting,
    /// The fourth place.
    pub fourth: Sighting,
}

impl StationBucket {
    /// A bucket without stations.
    pub const EMPTY: StationBucket = StationBucket {
        first: Sighting::NONE,
        second: Sighting::NONE,
        third: Sighting::NONE,
        fourth: Sighting::NONE,
    };

    /// The sighting in the place of this number, 0 to 3.
    #[inline]
    fn place(&self, number: usize) -> Sighting {
        match number {
            0 => self.first,
            1 => self.second,
            2 => self.third,
            _ => self.fourth,
        }
    }

    /// Puts a sighting into the place of this number, 0 to 3.
    #[inline]
    fn set_place(&mut self, number: usize, sighting: Sighting) {
        match number {
            0 => self.first = sighting,
            1 => self.second = sighting,
            2 => self.third = sighting,
            _ => self.fourth = sighting,
        }
    }

    /// The sighting of a station.
    #[inline]
    fn sighting(&self, address: u64) -> Option<Sighting> {
        if self.first.address == address {
            return Some(self.first);
        }
        if self.second.address == address {
            return Some(self.second);
        }
        if self.third.address == address {
            return Some(self.third);
        }
        if self.fourth.address == address {
            return Some(self.fourth);
        }
        None
    }

    /// The number of the place of a station.
    #[inline]
    fn place_of(&self, address: u64) -> Option<usize> {
        if self.first.address == address {
            return Some(0);
        }
        if self.second.address == address {
            return Some(1);
        }
        if self.third.address == address {
            return Some(2);
        }
        if self.fourth.address == address {
            return Some(3);
        }
        None
    }

    /// The number of its first free place, where a sighting that has aged is free, too.
    #[inline]
    fn free_place(&self, ageing_time: u32, now: u32) -> Option<usize> {
        if !self.first.is_live(ageing_time, now) {
            return Some(0);
        }
        if !self.second.is_live(ageing_time, now) {
            return Some(1);
        }
        if !self.third.is_live(ageing_time, now) {
            return Some(2);
        }
        if !self.fourth.is_live(ageing_time, now) {
            return Some(3);
        }
        None
    }

    /// How many of these sightings and a new one are at a port.
    #[inline]
    fn at_port(&self, new: &Sighting, port: u8) -> u8 {
        u8::from(new.port == port)
            + u8::from(self.first.port == port)
            + u8::from(self.second.port == port)
            + u8::from(self.third.port == port)
            + u8::from(self.fourth.port == port)
    }

    /// Whether the sighting in one place leaves before the one in another place: with the new one, there are more at
    /// its port, or as many, and it is older.
    #[inline]
    fn leaves_before(&self, new: &Sighting, one: usize, other: usize) -> bool {
        let (one, other) = (self.place(one), self.place(other));
        let (many, few) = (self.at_port(new, one.port), self.at_port(new, other.port));
        few < many || (few == many && one.time < other.time)
    }

    /// The place, of two, whose sighting leaves first.
    #[inline]
    fn first_to_leave(&self, new: &Sighting, one: usize, other: usize) -> usize {
        if self.leaves_before(new, other, one) {
            other
        } else {
            one
        }
    }

    /// The place of the sighting that leaves for a new one.
    #[inline]
    fn leaving(&self, new: &Sighting) -> usize {
        let place = self.first_to_leave(new, 0, 1);
        let place = self.first_to_leave(new, place, 2);
        self.first_to_leave(new, place, 3)
    }

    /// The place for a new sighting.
    #[inline]
    fn place_for(&self, new: &Sighting, ageing_time: u32) -> usize {
        if let Some(own) = self.place_of(new.address) {
            return own;
        }
        if let Some(free) = self.free_place(ageing_time, new.time) {
            return free;
        }
        self.leaving(new)
    }

    /// How many of its sightings are live.
    #[inline]
    fn live(&self, ageing_time: u32, now: u32) -> u8 {
        u8::from(self.first.is_live(ageing_time, now))
            + u8::from(self.second.is_live(ageing_time, now))
            + u8::from(self.third.is_live(ageing_time, now))
            + u8::from(self.fourth.is_live(ageing_time, now))
    }
}

impl Sighting {
    /// A free place.
    pub(in crate::ether_switch) const NONE: Sighting = Sighting {
        address: 0,
        time: 0,
        port: 0,
    };

    /// Whether it is a sighting of a station, at most the ageing time ago.
    #[inline]
    fn is_live(&self, ageing_time: u32, now: u32) -> bool {
        self.address != 0 && now.saturating_sub(self.time) <= ageing_time
    }
}

/// The indexes of the two buckets of an address.
#[inline]
fn buckets_of(key: [u64; 2], vlan: &VlanConfig, address: u64) -> (usize, usize) {
    let hash = sip_hash(key, (6 << 56) + address);
    let first = scale(vlan.buckets, hash % (1 << 32));
    let second = vlan.buckets / 2 + scale(vlan.buckets, hash / (1 << 32) % (1 << 32));
    let start = vlan.first_bucket as usize;
    (start + first as usize, start + second as usize)
}

/// The part of half of `buckets` buckets that a number below 2^32 is of 2^32.
#[inline]
fn scale(buckets: u32, number: u64) -> u32 {
    (number * u64::from(buckets - buckets / 2) / (1 << 32)) as u32
}

/// Whether a table of so many buckets has those of a VLAN.
#[inline]
fn is_part_of(vlan: &VlanConfig, len: usize) -> bool {
    0 < vlan.buckets && u64::from(vlan.first_bucket) + u64::from(vlan.buckets) <= len as u64
}

/// Learns a sighting of a station in a VLAN.
#[inline]
pub(in crate::ether_switch) fn learn(
    table: &mut [StationBucket],
    key: [u64; 2],
    vlan: &VlanConfig,
    sighting: Sighting,
    ageing_time: u32,
) {
    if !is_part_of(vlan, table.len()) {
        return;
    }
    let (first, second) = buckets_of(key, vlan, sighting.address);
    let at = choose(table, &sighting, ageing_time, first, second);
    let place = table[at].place_for(&sighting, ageing_time);
    table[at].set_place(place, sighting);
}

/// The index, of two, of the bucket for a sighting.
#[inline]
fn choose(
    table: &[StationBucket],
    sighting: &Sighting,
    ageing_time: u32,
    first: usize,
    second: usize,
) -> usize {
    let (one, other) = (&table[first], &table[second]);
    if one.place_of(sighting.address).is_some() {
        return first;
    }
    if other.place_of(sighting.address).is_some() {
        return second;
    }
    if other.live(ageing_time, sighting.time) < one.live(ageing_time, sighting.time) {
        second
    } else {
        first
    }
}

/// The sighting of a station in a VLAN.
#[inline]
pub(in crate::ether_switch) fn find(
    table: &[StationBucket],
    key: [u64; 2],
    vlan: &VlanConfig,
    address: u64,
) -> Option<Sighting> {
    if !is_part_of(vlan, table.len()) || !is_station(address) {
        return None;
    }
    let (first, second) = buckets_of(key, vlan, address);
    match table[first].sighting(address) {
        Some(sighting) => Some(sighting),
        None => table[second].sighting(address),
    }
}

/// The port at which a station of a VLAN was seen last, if that was at most the ageing time ago.
#[inline]
pub(in crate::ether_switch) fn port_of(
    table: &[StationBucket],
    key: [u64; 2],
    vlan: &VlanConfig,
    address: u64,
    ageing_time: u32,
    now: u32,
) -> Option<u8> {
    match find(table, key, vlan, address) {
        Some(sighting) if now.saturating_sub(sighting.time) <= ageing_time => Some(sighting.port),
        _ => None,
    }
}
