//! ARP packets (RFC 826), of any hardware and any protocol.

mod arp_addrs;
mod arp_eth_ipv4_packet;
mod arp_fields;
mod arp_front;
mod arp_packet;
mod arp_packet_slice;

pub use arp_eth_ipv4_packet::ArpEthIpv4Packet;
pub use arp_packet::ArpPacket;
pub use arp_packet_slice::ArpPacketSlice;
