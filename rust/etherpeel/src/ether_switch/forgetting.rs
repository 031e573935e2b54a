//! Stations that a bridge forgets.

use crate::ether_switch::arrival::address_of;
use crate::ether_switch::{Sighting, StationBucket};

/// Which stations a table forgets.
#[derive(Clone, Copy, PartialEq, Eq, Hash, Debug)]
pub enum Forgotten {
    /// All of them.
    All,
    /// Those that were seen last at this port.
    Port(u8),
    /// The station with this address.
    Station([u8; 6]),
}

/// Forgets stations, in a table or in the part of it that a VLAN has.
///
/// Frames to these stations then go to all members of their VLAN, until the stations are seen again. A spanning tree
/// asks for this when the topology changes, and so does a port that goes down or leaves a VLAN.
///
/// ```
/// use etherpeel::ether_switch::{Forgotten, StationBucket, forget};
///
/// let mut table = [StationBucket::EMPTY; 8];
/// forget(&mut table, Forgotten::Port(1));
/// ```
///
/// <details><summary>Contract</summary>
///
/// ```text
/// ensures { table.new ≡ map (without_of which) table.old }
/// ```
///
/// Words: [`without_of`](crate::definitions::ether_switch#def.without). [Notation](crate::definitions::notation)
///
/// </details>
#[inline]
pub fn forget(table: &mut [StationBucket], which: Forgotten) {
    for bucket in table.iter_mut() {
        *bucket = without(bucket, which);
    }
}

/// A bucket without the sightings that are forgotten.
#[inline]
fn without(bucket: &StationBucket, which: Forgotten) -> StationBucket {
    StationBucket {
        first: unless(bucket.first, which),
        second: unless(bucket.second, which),
        third: unless(bucket.third, which),
        fourth: unless(bucket.fourth, which),
    }
}

/// The sighting, or a free place if it is forgotten.
#[inline]
fn unless(sighting: Sighting, which: Forgotten) -> Sighting {
    let is_forgotten = match which {
        Forgotten::All => true,
        Forgotten::Port(port) => sighting.port == port,
        Forgotten::Station(address) => sighting.address == address_of(address),
    };
    if is_forgotten {
        Sighting::NONE
    } else {
        sighting
    }
}
