//! The layer that an error is about.

use core::fmt;

/// A layer of a packet, as errors name it: a header, a header with its payload, or a payload.
///
/// `Display` gives the name within a text, as `VLAN header`. Layers are ordered as they are listed.
///
/// ```
/// use etherpeel::err::Layer;
///
/// assert_eq!(Layer::VlanHeader.error_title(), "VLAN Header Error");
/// assert!(Layer::VlanHeader < Layer::MacsecHeader);
/// ```
#[cfg_attr(feature = "serde", derive(serde::Serialize, serde::Deserialize))]
#[derive(Clone, Copy, PartialEq, Eq, PartialOrd, Ord, Hash, Debug)]
pub enum Layer {
    /// The header of Linux cooked capture v1.
    LinuxSllHeader,
    /// The Ethernet II header.
    Ethernet2Header,
    /// The payload after an ether type.
    EtherPayload,
    /// A VLAN tag (IEEE 802.1Q), without its own ether type.
    VlanHeader,
    /// A MACsec SecTag (IEEE 802.1AE), without its own ether type.
    MacsecHeader,
    /// A MACsec SecTag, and the payload whose length its short length names.
    MacsecPacket,
    /// An IP header of either version.
    IpHeader,
    /// The IPv4 header.
    Ipv4Header,
    /// An IPv4 header and its payload.
    Ipv4Packet,
    /// The IP authentication header.
    IpAuthHeader,
    /// The IPv6 header.
    Ipv6Header,
    /// An IPv6 header and its payload.
    Ipv6Packet,
    /// An IPv6 extension header.
    Ipv6ExtHeader,
    /// The hop-by-hop options of IPv6.
    Ipv6HopByHopHeader,
    /// The destination options of IPv6.
    Ipv6DestOptionsHeader,
    /// The routing header of IPv6.
    Ipv6RouteHeader,
    /// The fragment header of IPv6.
    Ipv6FragHeader,
    /// The UDP header.
    UdpHeader,
    /// A UDP header's payload.
    UdpPayload,
    /// The TCP header.
    TcpHeader,
    /// A message of ICMP for IPv4.
    Icmpv4,
    /// A timestamp message of ICMP for IPv4.
    Icmpv4Timestamp,
    /// A reply to a timestamp message of ICMP for IPv4.
    Icmpv4TimestampReply,
    /// A message of ICMP for IPv6.
    Icmpv6,
    /// An ARP packet (RFC 826).
    Arp,
}

impl Layer {
    /// The words with which the text of an error of this layer begins, as `VLAN Header Error`.
    ///
    /// <details><summary>Contract</summary>
    ///
    /// ```text
    /// ensures { result.now ≡ layer_title self.now }
    /// ```
    ///
    /// Words: [`layer_title`](crate::definitions::ether_base#def.layer_title).
    /// [Notation](crate::definitions::notation)
    ///
    /// </details>
    #[must_use]
    #[inline]
    pub fn error_title(&self) -> &'static str {
        match self {
            Layer::LinuxSllHeader => "Linux Cooked Capture v1 Error",
            Layer::Ethernet2Header => "Ethernet 2 Header Error",
            Layer::EtherPayload => "Payload with Ether Type Error",
            Layer::VlanHeader => "VLAN Header Error",
            Layer::MacsecHeader => "MACsec Header Error",
            Layer::MacsecPacket => "MACsec Packet Error",
            Layer::IpHeader => "IP Header Error",
            Layer::Ipv4Header => "IPv4 Header Error",
            Layer::Ipv4Packet => "IPv4 Packet Error",
            Layer::IpAuthHeader => "IP Authentication Header Error",
            Layer::Ipv6Header => "IPv6 Header Error",
            Layer::Ipv6Packet => "IPv6 Packet Error",
            Layer::Ipv6ExtHeader => "IPv6 Extension Header Error",
            Layer::Ipv6HopByHopHeader => "IPv6 Hop-by-Hop Option Header Error",
            Layer::Ipv6DestOptionsHeader => "IPv6 Destination Options Header Error",
            Layer::Ipv6RouteHeader => "IPv6 Routing Header Error",
            Layer::Ipv6FragHeader => "IPv6 Fragment Header Error",
            Layer::UdpHeader => "UDP Header Error",
            Layer::UdpPayload => "UDP Payload Error",
            Layer::TcpHeader => "TCP Header Error",
            Layer::Icmpv4 => "ICMP Packet Error",
            Layer::Icmpv4Timestamp => "ICMP Timestamp Error",
            Layer::Icmpv4TimestampReply => "ICMP Timestamp Reply Error",
            Layer::Icmpv6 => "ICMPv6 Packet Error",
            Layer::Arp => "Address Resolution Protocol Packet Error",
        }
    }

    /// The name within a text.
    #[inline]
    fn name(&self) -> &'static str {
        match self {
            Layer::LinuxSllHeader => "Linux Cooked Capture v1 header",
            Layer::Ethernet2Header => "Ethernet 2 header",
            Layer::EtherPayload => "Ether type payload",
            Layer::VlanHeader => "VLAN header",
            Layer::MacsecHeader => "MACsec header",
            Layer::MacsecPacket => "MACsec packet",
            Layer::IpHeader => "IP header",
            Layer::Ipv4Header => "IPv4 header",
            Layer::Ipv4Packet => "IPv4 packet",
            Layer::IpAuthHeader => "IP Authentication header",
            Layer::Ipv6Header => "IPv6 header",
            Layer::Ipv6Packet => "IPv6 packet",
            Layer::Ipv6ExtHeader => "IPv6 extension header",
            Layer::Ipv6HopByHopHeader => "IPv6 hop-by-hop option header",
            Layer::Ipv6DestOptionsHeader => "IPv6 destination options header",
            Layer::Ipv6RouteHeader => "IPv6 routing header",
            Layer::Ipv6FragHeader => "IPv6 fragment header",
            Layer::UdpHeader => "UDP header",
            Layer::UdpPayload => "UDP payload",
            Layer::TcpHeader => "TCP header",
            Layer::Icmpv4 => "ICMP packet",
            Layer::Icmpv4Timestamp => "ICMP timestamp message",
            Layer::Icmpv4TimestampReply => "ICMP timestamp reply message",
            Layer::Icmpv6 => "ICMPv6 packet",
            Layer::Arp => "Address Resolution Protocol packet",
        }
    }
}

impl fmt::Display for Layer {
    fn fmt(&self, f: &mut fmt::Formatter<'_>) -> fmt::Result {
        f.write_str(self.name())
    }
}
