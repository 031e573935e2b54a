//! The names of layers, types of values and sources of lengths, in their order.
use super::equal;
use etherpeel::LenSource;
use etherpeel::err::{Layer, LenError, ValueType};
use crate::kit::Fail;

/// Layer, title of its errors, and name.
static LAYERS: [(Layer, &str, &str); 25] = [
    (
        Layer::LinuxSllHeader,
        "Linux Cooked Capture v1 Error",
        "Linux Cooked Capture v1 header",
    ),
    (
        Layer::Ethernet2Header,
        "Ethernet 2 Header Error",
        "Ethernet 2 header",
    ),
    (
        Layer::EtherPayload,
        "Payload with Ether Type Error",
        "Ether type payload",
    ),
    (Layer::VlanHeader, "VLAN Header Error", "VLAN header"),
    (Layer::MacsecHeader, "MACsec Header Error", "MACsec header"),
    (Layer::MacsecPacket, "MACsec Packet Error", "MACsec packet"),
    (Layer::IpHeader, "IP Header Error", "IP header"),
    (Layer::Ipv4Header, "IPv4 Header Error", "IPv4 header"),
    (Layer::Ipv4Packet, "IPv4 Packet Error", "IPv4 packet"),
    (
        Layer::IpAuthHeader,
        "IP Authentication Header Error",
        "IP Authentication header",
    ),
    (Layer::Ipv6Header, "IPv6 Header Error", "IPv6 header"),
    (Layer::Ipv6Packet, "IPv6 Packet Error", "IPv6 packet"),
    (
        Layer::Ipv6ExtHeader,
        "IPv6 Extension Header Error",
        "IPv6 extension header",
    ),
    (
        Layer::Ipv6HopByHopHeader,
        "IPv6 Hop-by-Hop Option Header Error",
        "IPv6 hop-by-hop option header",
    ),
    (
        Layer::Ipv6DestOptionsHeader,
        "IPv6 Destination Options Header Error",
        "IPv6 destination options header",
    ),
    (
        Layer::Ipv6RouteHeader,
        "IPv6 Routing Header Error",
        "IPv6 routing header",
    ),
    (
        Layer::Ipv6FragHeader,
        "IPv6 Fragment Header Error",
        "IPv6 fragment header",
    ),
    (Layer::UdpHeader, "UDP Header Error", "UDP header"),
    (Layer::UdpPayload, "UDP Payload Error", "UDP payload"),
    (Layer::TcpHeader, "TCP Header Error", "TCP header"),
    (Layer::Icmpv4, "ICMP Packet Error", "ICMP packet"),
    (
        Layer::Icmpv4Timestamp,
        "ICMP Timestamp Error",
        "ICMP timestamp message",
    ),
    (
        Layer::Icmpv4TimestampReply,
        "ICMP Timestamp Reply Error",
        "ICMP timestamp reply message",
    ),
    (Layer::Icmpv6, "ICMPv6 Packet Error", "ICMPv6 packet"),
    (
        Layer::Arp,
        "Address Resolution Protocol Packet Error",
        "Address Resolution Protocol packet",
    ),
];

#[test]
fn layers_have_names_and_an_order() -> Result<(), Fail> {
    let rt = crate::kit::HostRuntime;
    let mut before = None;
    for &(layer, title, name) in &LAYERS {
        let shown = format!("{layer}");
        equal!(rt, name;
            layer.error_title() => title,
            shown.as_str() => name,
            before < Some(layer) => true,
        );
        before = Some(layer);
    }
    Ok(())
}

#[rustfmt::skip]
static VALUE_TYPES: [(ValueType, &str); 16] = [
    (ValueType::VlanId, "VLAN ID"),
    (ValueType::VlanPcp, "VLAN PCP (Priority Code Point)"),
    (ValueType::MacsecAn, "MACsec AN (Association Number)"),
    (ValueType::MacsecShortLen, "MACsec SL (Short Length)"),
    (ValueType::IpFragmentOffset, "IP Fragment Offset"),
    (ValueType::IpDscp, "IPv4 DSCP (Differentiated Services Code Point)"),
    (ValueType::IpEcn, "IPv4 ECN (Explicit Congestion Notification)"),
    (ValueType::Ipv6FlowLabel, "IPv6 Flow Label"),
    (ValueType::Ipv4PayloadLength, "IPv4 Header 'Payload Length' (sets 'Total Length')"),
    (ValueType::Ipv6PayloadLength, "IPv6 Header 'Payload Length'"),
    (ValueType::UdpPayloadLengthIpv4, "UDP Payload Length (in IPv4 checksum calculation)"),
    (ValueType::UdpPayloadLengthIpv6, "UDP Payload Length (in IPv6 checksum calculation)"),
    (ValueType::TcpPayloadLengthIpv4, "TCP Payload Length (in IPv4 checksum calculation)"),
    (ValueType::TcpPayloadLengthIpv6, "TCP Payload Length (in IPv6 checksum calculation)"),
    (ValueType::Icmpv6PayloadLength, "ICMPv6 Payload Length"),
    (ValueType::LinuxSllType, "Linux Cooked Capture v1 (SLL)"),
];

#[test]
fn types_of_values_have_names_and_an_order() -> Result<(), Fail> {
    let rt = crate::kit::HostRuntime;
    let mut before = None;
    for &(value_type, name) in &VALUE_TYPES {
        let shown = format!("{value_type}");
        equal!(rt, name;
            shown.as_str() => name,
            before < Some(value_type) => true,
        );
        before = Some(value_type);
    }
    Ok(())
}

/// Source and name.
static SOURCES: [(LenSource, &str); 7] = [
    (LenSource::Slice, "slice length"),
    (
        LenSource::MacsecShortLength,
        "length calculated from the MACsec header 'short length' field",
    ),
    (
        LenSource::Ipv4HeaderTotalLen,
        "length calculated from the IPv4 header 'total length' field",
    ),
    (
        LenSource::Ipv6HeaderPayloadLen,
        "length calculated from the IPv6 header 'payload length' field",
    ),
    (
        LenSource::UdpHeaderLen,
        "length calculated from the UDP header 'length' field",
    ),
    (
        LenSource::TcpHeaderLen,
        "length calculated from the TCP header 'length' field",
    ),
    (
        LenSource::ArpAddrLengths,
        "length calculated from the ARP 'hw_addr_size' & 'proto_addr_size' fields",
    ),
];

#[test]
fn sources_of_lengths_have_names_and_an_order() -> Result<(), Fail> {
    let rt = crate::kit::HostRuntime;
    let mut before = None;
    for &(len_source, name) in &SOURCES {
        let error = LenError {
            required_len: 4,
            len: 2,
            len_source,
            layer: Layer::VlanHeader,
            layer_start_offset: 0,
        };
        let shown = format!("{error}");
        let wanted = format!(
            "VLAN Header Error: Not enough data to decode 'VLAN header'. 4 byte(s) would be required, but only 2 byte(s) are available based on the {name}."
        );
        equal!(rt, name;
            shown.as_str() => wanted.as_str(),
            before < Some(len_source) => true,
        );
        before = Some(len_source);
    }
    Ok(())
}
