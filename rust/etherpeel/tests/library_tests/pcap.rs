//! Tests of `ether_pcap`.
mod tests;
