//! What etherparse 0.19.0 has besides, for programs that were written for it: packets in one value, a builder in
//! steps, and `read` and `write` over the readers and writers of `std`.
//!
//! This module is **written by hand, and not proved**. It joins calls that are: [`Peel`](crate::ether_peel::Peel) reads
//! a packet, and [`ether_packet::PacketBuilder`](crate::ether_packet::PacketBuilder) writes it. The root has the names
//! of this module, too, and [`crate::err`] those of [`err`]. So this line in a manifest is all that such a program
//! needs:
//!
//! ```toml
//! etherparse = { package = "etherpeel", path = "..", features = ["compat"] }
//! ```
//!
//! A packet is read down to ARP. IP and all above it is payload here: `net` is an ARP packet or `None`, and `transport`
//! is always `None`. What is left out is in `docs/DIFFERENCES.md` of the repository.
//!
//! ```
//! use etherpeel::{LinkSlice, SlicedPacket, VlanId, ether_type};
//!
//! # fn main() -> Result<(), Box<dyn std::error::Error>> {
//! let packet = [
//!     0xFF, 0xFF, 0xFF, 0xFF, 0xFF, 0xFF, 0x02, 0x00, 0x00, 0x00, 0x00, 0x01, 0x81, 0x00, // Ethernet II
//!     0xB1, 0x23, 0x08, 0x00, // VLAN
//!     0x45,
//! ];
//! let sliced = SlicedPacket::from_ethernet(&packet)?;
//! assert!(matches!(sliced.link, Some(LinkSlice::Ethernet2(_))));
//! assert_eq!(sliced.vlan_ids().as_slice(), [VlanId::try_new(0x123)?]);
//! assert_eq!(sliced.payload_ether_type(), Some(ether_type::IPV4));
//! # Ok(())
//! # }
//! ```

pub mod err;
mod lax_link_ext_slice;
mod lax_macsec_slice;
mod lax_packet_headers;
mod lax_sliced_packet;
mod lax_walk;
mod net;
mod packet_builder;
mod packet_headers;
mod payload_slice;
mod sliced_packet;
mod streams;
mod transport;
mod unchecked;
mod vlan_tags;

pub use lax_link_ext_slice::LaxLinkExtSlice;
pub use lax_macsec_slice::{LaxEtherPayloadSlice, LaxMacsecPayloadSlice, LaxMacsecSlice};
pub use lax_packet_headers::LaxPacketHeaders;
pub use lax_sliced_packet::LaxSlicedPacket;
pub use net::{LaxNetSlice, NetHeaders, NetSlice};
pub use packet_builder::{PacketBuilder, PacketBuilderStep};
pub use packet_headers::PacketHeaders;
pub use payload_slice::{LaxPayloadSlice, PayloadSlice};
pub use sliced_packet::SlicedPacket;
pub use transport::{TransportHeader, TransportSlice};
