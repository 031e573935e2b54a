#![doc = include_str!("../README.md")]
#![no_std]
#![forbid(unsafe_code)]

//! # Headers and views
//!
//! Most formats have three types. A `..Header` is a value with public fields, and `to_bytes` writes it. A
//! `..HeaderSlice` is a view of the bytes of a header, and a `..Slice` is a view of a header and its payload. Both
//! views borrow the packet, and read a field when it is asked for. `from_slice` makes each of the three from the front
//! of a slice, or returns an error of [`err`]; a whole Ethernet II frame has `from_slice_without_fcs` and
//! `from_slice_with_crc32_fcs` instead. ARP has the value [`ArpPacket`] and its view [`ArpPacketSlice`].
//!
//! A frame is read header by header, each from the payload of the one before:
//!
//! ```
//! use etherpeel::{Ethernet2Slice, SingleVlanSlice, VlanId, ether_type};
//!
//! # fn main() -> Result<(), Box<dyn std::error::Error>> {
//! let frame = [
//!     0xFF, 0xFF, 0xFF, 0xFF, 0xFF, 0xFF, 0x02, 0x00, 0x00, 0x00, 0x00, 0x01, 0x81, 0x00, // Ethernet II
//!     0xB1, 0x23, 0x08, 0x00, // VLAN
//! ];
//! let ethernet = Ethernet2Slice::from_slice_without_fcs(&frame)?;
//! assert_eq!(ethernet.ether_type(), ether_type::VLAN_TAGGED_FRAME);
//!
//! let vlan = SingleVlanSlice::from_slice(ethernet.payload_slice())?;
//! assert_eq!(vlan.vlan_identifier(), VlanId::try_new(0x123)?);
//! assert_eq!(vlan.ether_type(), ether_type::IPV4);
//! # Ok(())
//! # }
//! ```
//!
//! # Modules
//!
//! - [`err`], [`ether_type`], [`write_front`]: errors, numbers of ether types, bytes put at a slice's front
//! - [`ether_peel`]: the walk through a frame, from header to header
#![cfg_attr(feature = "filter", doc = "- [`ether_fields`]: the fields of headers as a table, and the names of numbers")]
//! - [`ether_sll2`]: Linux cooked capture v2
//! - [`ether_packet`]: the headers of a frame in one value; packets that are built, and changed in place
#![cfg_attr(feature = "filter", doc = "- [`ether_filter`]: filters of packets, in words of pcap-filter(7)")]
#![cfg_attr(feature = "pcap", doc = "- [`ether_pcap`]: capture files of the classic pcap format and of pcapng")]
#![cfg_attr(feature = "content", doc = "- [`ether_content`]: captured packets, each read by its link type")]
#![cfg_attr(feature = "switch", doc = "- [`ether_switch`]: the forwarding of a bridge with VLANs")]
#![cfg_attr(feature = "format", doc = "- [`ether_output`]: text on its way to a writer")]
#![cfg_attr(feature = "format", doc = "- [`ether_format`]: captured packets as JSON, columns, lines for the eye")]
#![cfg_attr(feature = "compat", doc = "- [`compat`]: names for programs that use etherparse")]
//! - [`definitions`]: the words of the contracts

#[cfg(feature = "std")]
extern crate std;

#[doc(hidden)]
#[rustfmt::skip]
pub mod ether_base;
#[rustfmt::skip]
mod ether_tags;
#[rustfmt::skip]
mod ether_sll;
#[rustfmt::skip]
mod ether_arp;
mod error_sources;
mod fused_iterators;
#[cfg(feature = "serde")]
mod serialized;
#[rustfmt::skip]
pub mod ether_peel;
#[cfg(feature = "filter")]
#[rustfmt::skip]
pub mod ether_fields;
#[rustfmt::skip]
pub mod ether_sll2;
#[rustfmt::skip]
pub mod ether_packet;
#[cfg(feature = "filter")]
#[rustfmt::skip]
pub mod ether_filter;
#[cfg(feature = "pcap")]
#[rustfmt::skip]
pub mod ether_pcap;
#[cfg(feature = "content")]
#[rustfmt::skip]
pub mod ether_content;
#[cfg(feature = "switch")]
#[rustfmt::skip]
pub mod ether_switch;
#[cfg(feature = "format")]
#[rustfmt::skip]
pub mod ether_output;
#[cfg(feature = "format")]
#[rustfmt::skip]
pub mod ether_format;
#[cfg(feature = "compat")]
pub mod compat;
#[cfg(doc)]
#[rustfmt::skip]
pub mod definitions;

#[rustfmt::skip]
pub use crate::ether_arp::{ArpEthIpv4Packet, ArpPacket, ArpPacketSlice};
#[rustfmt::skip]
pub use crate::ether_base::{
    ArpHardwareId, ArpOperation, EtherType, LenSource, LinuxNonstandardEtherType,
    LinuxSllPacketType, LinuxSllProtocolType, MacsecAn, MacsecShortLen, VlanId, VlanPcp, err,
    ether_type, write_front,
};
#[rustfmt::skip]
pub use crate::ether_sll::{LinkHeader, LinkSlice, LinuxSllHeader, LinuxSllHeaderSlice, LinuxSllSlice};
#[rustfmt::skip]
pub use crate::ether_tags::{
    DoubleVlanHeader, DoubleVlanSlice, EtherPayloadSlice, Ethernet2Header, Ethernet2HeaderSlice,
    Ethernet2Slice, LinkExtHeader, LinkExtSlice, LinuxSllPayloadSlice, MacsecHeader,
    MacsecHeaderSlice, MacsecPType, MacsecPayloadSlice, MacsecSlice, SingleVlanHeader,
    SingleVlanHeaderSlice, SingleVlanSlice, VlanHeader, VlanSlice,
};

#[cfg(feature = "compat")]
pub use crate::compat::*;
