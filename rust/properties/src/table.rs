//! The table of stations: buckets of four places, and a hash that gives each station two of them.
//!
//! IEEE 802.1Q leaves open how a bridge stores its stations. The model follows the documentation of the crate and the
//! contract of `Bridge::receive`.
//!
//! The hash is SipHash-1-3 (Aumasson and Bernstein, "SipHash: a fast short-input PRF", section 2), which the Rust
//! standard library uses, too.

use etherpeel::ether_switch::{Sighting, StationBucket};
use std::cmp::Reverse;
use std::ops::Range;

/// A bucket as its places.
pub type Places = [Sighting; 4];

/// A place that is free.
pub const FREE: Sighting = Sighting { address: 0, time: 0, port: 0 };

pub fn places(bucket: &StationBucket) -> Places {
    [bucket.first, bucket.second, bucket.third, bucket.fourth]
}

pub fn bucket(places: Places) -> StationBucket {
    let [first, second, third, fourth] = places;
    StationBucket { first, second, third, fourth }
}

/// SipRound (2.3).
fn round(v: &mut [u64; 4]) {
    v[0] = v[0].wrapping_add(v[1]);
    v[2] = v[2].wrapping_add(v[3]);
    v[1] = v[1].rotate_left(13) ^ v[0];
    v[3] = v[3].rotate_left(16) ^ v[2];
    v[0] = v[0].rotate_left(32);
    v[2] = v[2].wrapping_add(v[1]);
    v[0] = v[0].wrapping_add(v[3]);
    v[1] = v[1].rotate_left(17) ^ v[2];
    v[3] = v[3].rotate_left(21) ^ v[0];
    v[2] = v[2].rotate_left(32);
}

/// SipHash with one round for each word of the message and three at the end (2.1 to 2.4).
pub fn sip_hash(key: [u64; 2], message: &[u8]) -> u64 {
    let constants = [0x736f6d6570736575, 0x646f72616e646f6d, 0x6c7967656e657261, 0x7465646279746573];
    let mut v: [u64; 4] = std::array::from_fn(|i| key[i % 2] ^ constants[i]);
    let mut padded = message.to_vec();
    padded.resize(message.len() / 8 * 8 + 7, 0);
    padded.push(message.len() as u8);
    for word in padded.chunks(8).map(|bytes| u64::from_le_bytes(bytes.try_into().expect("eight bytes"))) {
        v[3] ^= word;
        round(&mut v);
        v[0] ^= word;
    }
    v[2] ^= 0xFF;
    (0..3).for_each(|_| round(&mut v));
    v[0] ^ v[1] ^ v[2] ^ v[3]
}

/// How a bridge uses the part of its table that a VLAN has.
#[derive(Clone, Debug)]
pub struct Part {
    pub key: [u64; 2],
    /// The buckets of the VLAN.
    pub buckets: Range<usize>,
    pub ageing_time: u32,
}

impl Part {
    /// The two buckets of a station: one of each half of the part (the middle bucket of an odd number is in both), by
    /// the lower and the higher 32 bits of the hash of the address, the last byte first.
    fn of(&self, address: u64) -> [usize; 2] {
        let hash = sip_hash(self.key, &address.to_le_bytes()[..6]);
        let len = self.buckets.len();
        let scaled = |bits: u64| ((u128::from(bits) * (len - len / 2) as u128) >> 32) as usize;
        [self.buckets.start + scaled(hash % (1 << 32)), self.buckets.start + len / 2 + scaled(hash >> 32)]
    }

    fn is_live(&self, sighting: &Sighting, now: u32) -> bool {
        sighting.address != 0 && now.saturating_sub(sighting.time) <= self.ageing_time
    }

    /// The bucket for a sighting: the one that has the station, or else the one with fewer live sightings.
    fn bucket_for(&self, table: &[Places], new: &Sighting) -> usize {
        let both = self.of(new.address);
        let has = |&at: &usize| table[at].iter().any(|it| it.address == new.address);
        let live = |at: usize| table[at].iter().filter(|it| self.is_live(it, new.time)).count();
        match both.into_iter().find(has) {
            Some(at) => at,
            None if live(both[1]) < live(both[0]) => both[1],
            None => both[0],
        }
    }

    /// The place for a sighting in its bucket: that of the station, or else the first one that is free or has aged, or
    /// else that of a station whose port has most, and of these the one that was seen first.
    fn place_for(&self, places: &Places, new: &Sighting) -> usize {
        let at_port = |port: u8| places.iter().chain([new]).filter(|it| it.port == port).count();
        let own = places.iter().position(|it| it.address == new.address);
        let free = places.iter().position(|it| !self.is_live(it, new.time));
        let leaving = (0..4).min_by_key(|&at| (Reverse(at_port(places[at].port)), places[at].time));
        own.or(free).or(leaving).expect("there are four places")
    }

    /// Learns a sighting. A VLAN without buckets, or with some that are not in the table, learns nothing.
    pub fn learn(&self, table: &mut [Places], new: Sighting) {
        if self.buckets.is_empty() || self.buckets.end > table.len() {
            return;
        }
        let at = self.bucket_for(table, &new);
        let place = self.place_for(&table[at], &new);
        table[at][place] = new;
    }

    /// The sighting of a station.
    pub fn find(&self, table: &[Places], address: u64) -> Option<Sighting> {
        let is_group = address >> 40 & 1 == 1;
        if self.buckets.is_empty() || self.buckets.end > table.len() || is_group || address == 0 {
            return None;
        }
        let places = self.of(address).into_iter().flat_map(|at| table[at]);
        places.into_iter().find(|it| it.address == address)
    }
}
