//! What follows the headers of the link layer, as far as it is read: ARP.

use crate::{ArpPacket, ArpPacketSlice};

/// A view of the network layer of a packet. etherparse has variants for IP, too.
#[derive(Clone, PartialEq, Eq, Debug)]
#[non_exhaustive]
pub enum NetSlice<'a> {
    /// An ARP packet.
    Arp(ArpPacketSlice<'a>),
}

/// The same of a packet that may be cut short. ARP is refused then, so there is no other form of its view.
#[derive(Clone, PartialEq, Eq, Debug)]
#[non_exhaustive]
pub enum LaxNetSlice<'a> {
    /// An ARP packet.
    Arp(ArpPacketSlice<'a>),
}

/// The network layer of a packet as a value. etherparse has variants for IP, too.
#[derive(Clone, PartialEq, Eq, Hash, Debug)]
#[non_exhaustive]
pub enum NetHeaders {
    /// An ARP packet.
    Arp(ArpPacket),
}

impl<'a> NetSlice<'a> {
    /// Whether this is IP: never.
    #[must_use]
    pub fn is_ip(&self) -> bool {
        false
    }

    /// Whether this is IPv4: never.
    #[must_use]
    pub fn is_ipv4(&self) -> bool {
        false
    }

    /// Whether this is IPv6: never.
    #[must_use]
    pub fn is_ipv6(&self) -> bool {
        false
    }

    /// The ARP packet.
    #[must_use]
    pub fn arp_ref(&self) -> Option<&ArpPacketSlice<'a>> {
        let NetSlice::Arp(packet) = self;
        Some(packet)
    }
}

impl NetHeaders {
    /// Whether this is IP: never.
    #[must_use]
    pub fn is_ip(&self) -> bool {
        false
    }

    /// Whether this is IPv4: never.
    #[must_use]
    pub fn is_ipv4(&self) -> bool {
        false
    }

    /// Whether this is IPv6: never.
    #[must_use]
    pub fn is_ipv6(&self) -> bool {
        false
    }

    /// The ARP packet.
    #[must_use]
    pub fn arp_ref(&self) -> Option<&ArpPacket> {
        let NetHeaders::Arp(packet) = self;
        Some(packet)
    }

    /// The number of bytes of the packet when it is written.
    #[must_use]
    pub fn header_len(&self) -> usize {
        let NetHeaders::Arp(packet) = self;
        packet.packet_len()
    }
}

impl From<ArpPacket> for NetHeaders {
    fn from(packet: ArpPacket) -> NetHeaders {
        NetHeaders::Arp(packet)
    }
}
