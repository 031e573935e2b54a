//! A bridge, as a struct of C.

use etherpeel::ether_switch::{Bridge, BridgeKind, PortStates, StaticEntry, VlanConfig};

/// A bridge: `etherpeel_bridge` in C.
#[repr(C)]
#[derive(Clone, Copy)]
pub struct EtherBridge<'a> {
    /// The key of the hash that chooses a station's buckets.
    pub key: [u64; 2],
    /// What its ports may do now.
    pub ports: &'a PortStates,
    /// Its VLANs, each at the index of its identifier.
    pub vlans: &'a [VlanConfig],
    /// Where the frames to some addresses go.
    pub static_entries: &'a [StaticEntry],
    /// The number of seconds for which it relies on a station's last sighting.
    pub ageing_time: u32,
    /// Which reserved addresses it forwards: bit `i` is for the address 01-80-C2-00-00-0i.
    pub forwarded: u16,
    /// The number of its kind.
    pub kind: u8,
}

// as c/etherpeel.h lays them out
const _: () = assert!(size_of::<EtherBridge<'_>>() == 64);

const _: () = assert!(size_of::<PortStates>() == 128);

const _: () = assert!(size_of::<VlanConfig>() == 72);

const _: () = assert!(size_of::<StaticEntry>() == 40);

impl<'a> EtherBridge<'a> {
    /// The bridge that was passed, if its kind has a number.
    pub(crate) fn to_bridge(&self) -> Option<Bridge<'a>> {
        let kind = bridge_kind(self.kind)?;
        Some(Bridge {
            kind,
            ageing_time: self.ageing_time,
            key: self.key,
            ports: self.ports,
            vlans: self.vlans,
            static_entries: self.static_entries,
            forwarded: self.forwarded,
        })
    }
}

/// The kind of bridge with this number.
pub(crate) fn bridge_kind(number: u8) -> Option<BridgeKind> {
    match number {
        1 => Some(BridgeKind::Customer),
        2 => Some(BridgeKind::Provider),
        _ => None,
    }
}
