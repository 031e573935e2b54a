//! The field that a value was too big for.

use core::fmt;

/// The field that a value was too big for.
///
/// `Display` gives the name within a text, as `VLAN ID`. Fields are ordered as they are listed.
///
/// ```
/// use etherpeel::err::ValueType;
///
/// let field = ValueType::VlanId;
/// assert_eq!(format!("{field}").as_str(), "VLAN ID");
/// ```
#[derive(Clone, Copy, PartialEq, Eq, PartialOrd, Ord, Hash, Debug)]
pub enum ValueType {
    /// The identifier of a VLAN tag (IEEE 802.1Q): 12 bits.
    VlanId,
    /// The priority of a VLAN tag (IEEE 802.1Q): 3 bits.
    VlanPcp,
    /// The association number of a MACsec SecTag (IEEE 802.1AE): 2 bits.
    MacsecAn,
    /// The short length of a MACsec SecTag (IEEE 802.1AE): 6 bits.
    MacsecShortLen,
    /// The fragment offset of an IP header: 13 bits.
    IpFragmentOffset,
    /// The differentiated services code point of an IP header: 6 bits.
    IpDscp,
    /// The congestion notification of an IP header: 2 bits.
    IpEcn,
    /// The flow label of an IPv6 header: 20 bits.
    Ipv6FlowLabel,
    /// The length of an IPv4 header's payload.
    Ipv4PayloadLength,
    /// The length of an IPv6 header's payload.
    Ipv6PayloadLength,
    /// The length of a UDP header's payload, over IPv4.
    UdpPayloadLengthIpv4,
    /// The length of a UDP header's payload, over IPv6.
    UdpPayloadLengthIpv6,
    /// The length of a TCP header's payload, over IPv4.
    TcpPayloadLengthIpv4,
    /// The length of a TCP header's payload, over IPv6.
    TcpPayloadLengthIpv6,
    /// The length of an ICMPv6 header's payload.
    Icmpv6PayloadLength,
    /// The packet type of Linux cooked capture v1.
    LinuxSllType,
}

impl ValueType {
    /// The name within a text.
    #[inline]
    #[rustfmt::skip]
    fn name(&self) -> &'static str {
        match self {
            ValueType::VlanId => "VLAN ID",
            ValueType::VlanPcp => "VLAN PCP (Priority Code Point)",
            ValueType::MacsecAn => "MACsec AN (Association Number)",
            ValueType::MacsecShortLen => "MACsec SL (Short Length)",
            ValueType::IpFragmentOffset => "IP Fragment Offset",
            ValueType::IpDscp => "IPv4 DSCP (Differentiated Services Code Point)",
            ValueType::IpEcn => "IPv4 ECN (Explicit Congestion Notification)",
            ValueType::Ipv6FlowLabel => "IPv6 Flow Label",
            ValueType::Ipv4PayloadLength => "IPv4 Header 'Payload Length' (sets 'Total Length')",
            ValueType::Ipv6PayloadLength => "IPv6 Header 'Payload Length'",
            ValueType::UdpPayloadLengthIpv4 => "UDP Payload Length (in IPv4 checksum calculation)",
            ValueType::UdpPayloadLengthIpv6 => "UDP Payload Length (in IPv6 checksum calculation)",
            ValueType::TcpPayloadLengthIpv4 => "TCP Payload Length (in IPv4 checksum calculation)",
            ValueType::TcpPayloadLengthIpv6 => "TCP Payload Length (in IPv6 checksum calculation)",
            ValueType::Icmpv6PayloadLength => "ICMPv6 Payload Length",
            ValueType::LinuxSllType => "Linux Cooked Capture v1 (SLL)",
        }
    }
}

impl fmt::Display for ValueType {
    fn fmt(&self, f: &mut fmt::Formatter<'_>) -> fmt::Result {
        f.write_str(self.name())
    }
}
