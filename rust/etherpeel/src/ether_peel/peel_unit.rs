//! A header of a frame with its payload.
use crate::{ArpPacketSlice, Ethernet2Slice, LinuxSllSlice, MacsecSlice, SingleVlanSlice};

/// A header of a frame with its payload, as a view that borrows the frame.
#[derive(Clone, PartialEq, Eq, Debug)]
pub enum PeelUnit<'a> {
    /// An Ethernet II header, which only a frame begins with.
    Ethernet2(Ethernet2Slice<'a>),
    /// A header of Linux cooked capture v1, which only a frame begins with.
    LinuxSll(LinuxSllSlice<'a>),
    /// A VLAN tag, the TCI and the next ether type, after an ether type that announces one (IEEE 802.1Q).
    Vlan(SingleVlanSlice<'a>),
    /// A MACsec SecTag, after the ether type 0x88E5 (IEEE 802.1AE).
    Macsec(MacsecSlice<'a>),
    /// An ARP packet, without what follows it, after the ether type 0x0806 (RFC 826).
    Arp(ArpPacketSlice<'a>),
}
