//! The forwarding of a bridge with VLANs (IEEE 802.1Q, in the edition of 2018). No call allocates memory.
//!
//! A [`Bridge`] receives a frame by a port: it learns the port of the frame's source in a table of [`StationBucket`]s,
//! and decides through which ports the frame leaves. [`Received::make_tagged`] and [`Received::make_untagged`] make the
//! frame ready, in place, once for each form in which it leaves.
//!
//! ```
//! use etherpeel::ether_switch::{
//!     Bridge, BridgeKind, PortConfig, PortSet, PortStates, StationBucket, Vlan, VlanConfig,
//! };
//!
//! # fn main() -> Result<(), Box<dyn std::error::Error>> {
//! let vlan = Vlan::try_new(10)?;
//! let (access, trunk) = (1, 2);
//! let mut ports = PortSet::only(access);
//! ports.insert(trunk);
//! let states = PortStates {
//!     learning: ports,
//!     forwarding: ports,
//!     ..PortStates::NONE
//! };
//! let mut vlans = [VlanConfig::NONE; 11]; // each at the index of its identifier
//! vlans[10] = VlanConfig {
//!     members: ports,
//!     untagged: PortSet::only(access),
//!     first_bucket: 0,
//!     buckets: 64,
//! };
//! let bridge = Bridge {
//!     kind: BridgeKind::Customer,
//!     ageing_time: Bridge::AGEING_TIME,
//!     key: [0x0706050403020100, 0x0F0E0D0C0B0A0908], // random numbers in earnest
//!     ports: &states,
//!     vlans: &vlans,
//!     static_entries: &[],
//!     forwarded: 0,
//! };
//! let mut table = [StationBucket::EMPTY; 64];
//! let mut buffer = [
//!     0x00, 0x00, 0x00, 0x00, // free
//!     0xFF, 0xFF, 0xFF, 0xFF, 0xFF, 0xFF, 0x02, 0x00, 0x00, 0x00, 0x00, 0x01, 0x08, 0x06, // Ethernet II
//!     0x00,
//! ];
//! if let Ok(received) = bridge.receive(&mut table, 0, access, &PortConfig::access(vlan), &buffer[4..]) {
//!     assert!(received.tagged == PortSet::only(trunk) && received.untagged == PortSet::NONE);
//!     assert_eq!(received.make_tagged(&mut buffer), Some(0));
//!     assert_eq!(buffer, [
//!         0xFF, 0xFF, 0xFF, 0xFF, 0xFF, 0xFF, 0x02, 0x00, 0x00, 0x00, 0x00, 0x01, 0x81, 0x00, // Ethernet II
//!         0x00, 0x0A, 0x08, 0x06, // VLAN
//!         0x00,
//!     ]);
//! }
//! # Ok(())
//! # }
//! ```
//!
//! These parts of the standard are left out: the protocols of spanning trees and of the registration of VLANs and
//! groups (the caller may have them: frames to reserved addresses are returned to it, port states and static entries
//! are arguments), shared learning (each VLAN learns for itself), and tables that map priorities. No time to live
//! stops a frame in a loop: without a spanning tree, a network with two ways from one port to another floods for ever.

mod arrival;
mod bridge;
mod bridge_kind;
mod forgetting;
mod port;
mod port_set;
mod received;
mod retagging;
mod sip_hash;
mod stations;
mod vlan;
mod vlan_config;

pub use arrival::Discarded;
pub use bridge::{Bridge, StaticEntry};
pub use bridge_kind::BridgeKind;
pub use forgetting::{Forgotten, forget};
pub use port::{AcceptableFrames, PortConfig, PortStates};
pub use port_set::PortSet;
pub use received::Received;
pub use stations::{Sighting, StationBucket};
pub use vlan::{Vlan, VlanError};
pub use vlan_config::{VlanConfig, parts_are_in_order};
