//! A filter by VLAN, a test of snap lengths and a generator of ARP requests: examples of functions over
//! `ether_packet`. No call allocates memory.

pub mod arp_generator;
pub mod snap_checker;
pub mod vlan_filter;
