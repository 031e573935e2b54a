//! The words of contracts.
//!
//! The documentation of a function has its contract: what the caller has to make sure of (`requires`), and what then holds
//! of the result (`ensures`). Contracts are proved of the sources from which this crate is made. The words of a contract
//! lead to their definitions on these pages. Where a standard defines something, the text names the clause.
//!
//! [`notation`] explains how contracts and definitions are written. On a page, definitions are in the order in which they
//! are to be read. They use those of their own page and of pages that come before it, in this order:
//!
//! - [`ether_base`]: bytes and the numbers that they spell, the formats of headers, and why a header is refused
//! - [`ether_tags`]: views of Ethernet II frames, VLAN tags and MACsec SecTags
//! - [`ether_sll`]: views of Linux cooked capture v1
//! - [`ether_arp`]: views of ARP packets
//! - [`ether_peel`]: the walk through a frame, from header to header
//! - [`ether_fields`]: the fields of headers as a table, and the names of numbers
//! - [`ether_sll2`]: Linux cooked capture v2
//! - [`ether_packet`]: the headers of a frame in one value; packets that are built, and changed in place
//! - [`ether_filter`]: filters of packets, in words of pcap-filter(7)
//! - [`ether_pcap`]: capture files of the classic pcap format and of pcapng
//! - [`ether_content`]: captured packets, each read by its link type
//! - [`ether_switch`]: the forwarding of a bridge with VLANs
//! - [`ether_output`]: text on its way to a writer
//! - [`ether_format`]: captured packets as JSON, columns, lines for the eye

pub mod notation;
pub mod ether_base;
pub mod ether_tags;
pub mod ether_sll;
pub mod ether_arp;
pub mod ether_peel;
pub mod ether_fields;
pub mod ether_sll2;
pub mod ether_packet;
pub mod ether_filter;
pub mod ether_pcap;
pub mod ether_content;
pub mod ether_switch;
pub mod ether_output;
pub mod ether_format;
