//! Of headers and views of them.
use super::Returned;
use crate::text::Text;
use etherpeel::ether_base::header_slice_error::HeaderSliceError;
use etherpeel::ether_sll2::{LinuxSll2Error, LinuxSll2Header, LinuxSll2HeaderSlice, LinuxSll2Slice};
use etherpeel::err::arp::{ArpEthIpv4FromError, ArpHwAddrError, ArpNewError, ArpProtoAddrError};
use etherpeel::err::{
    Layer, LenError, SliceWriteSpaceError, ValueTooBigError, ValueType, linux_sll, macsec,
};
use etherpeel::{
    ArpEthIpv4Packet, ArpHardwareId, ArpOperation, ArpPacket, ArpPacketSlice, DoubleVlanHeader,
    DoubleVlanSlice, EtherPayloadSlice, EtherType, Ethernet2Header, Ethernet2HeaderSlice,
    Ethernet2Slice, LenSource, LinkExtHeader, LinkExtSlice, LinkHeader, LinkSlice,
    LinuxNonstandardEtherType, LinuxSllHeader, LinuxSllHeaderSlice, LinuxSllPacketType,
    LinuxSllPayloadSlice, LinuxSllProtocolType, LinuxSllSlice, MacsecAn, MacsecHeader,
    MacsecHeaderSlice, MacsecPType, MacsecPayloadSlice, MacsecShortLen, MacsecSlice,
    SingleVlanHeader, SingleVlanHeaderSlice, SingleVlanSlice, VlanHeader, VlanId, VlanPcp,
    VlanSlice,
};
use std::net::Ipv4Addr;

/// The numbers of an error that has another one are those of that, after the number of the variant.
macro_rules! wrapping {
    ($kind:ident { $($number:literal $variant:ident),* }) => {
        impl<E: Returned> Returned for $kind<E> {
            fn add_to(&self, text: &mut Text) {
                match self {
                    $($kind::$variant(error) => {
                        text.number($number);
                        error.add_to(text);
                    })*
                }
            }
        }
    };
}

wrapping! { HeaderSliceError { 0 Len, 1 Content } }

impl Returned for linux_sll::HeaderError {
    fn add_to(&self, text: &mut Text) {
        match self {
            linux_sll::HeaderError::UnsupportedPacketTypeField { packet_type } => {
                (0u8, packet_type).add_to(text)
            }
            linux_sll::HeaderError::UnsupportedArpHardwareId { arp_hardware_type } => {
                (1u8, arp_hardware_type).add_to(text)
            }
        }
    }
}

impl Returned for macsec::HeaderError {
    fn add_to(&self, text: &mut Text) {
        match self {
            macsec::HeaderError::UnexpectedVersion => text.number(0),
            macsec::HeaderError::InvalidUnmodifiedShortLen => text.number(1),
        }
    }
}

macro_rules! too_big {
    ($($number:ident)*) => { $(
        impl Returned for ValueTooBigError<$number> {
            fn add_to(&self, text: &mut Text) {
                (self.actual, self.max_allowed, self.value_type).add_to(text);
            }
        }
    )* };
}

too_big! { u8 u16 usize }

fields! {
    ArpHardwareId { 0 }
    ArpOperation { 0 }
    LenError { required_len, len, len_source, layer, layer_start_offset }
    SliceWriteSpaceError { required_len, len, layer, layer_start_offset }
    EtherType { 0 }
    DoubleVlanHeader { outer, inner }
    DoubleVlanSlice<'_> { outer, inner }
    EtherPayloadSlice<'_> { ether_type, len_source, payload }
    Ethernet2Header { source, destination, ether_type }
    LinuxSllPayloadSlice<'_> { protocol_type, payload }
    MacsecHeader { ptype, endstation_id, scb, an, short_len, packet_nr, sci }
    MacsecSlice<'_> { header, payload }
    SingleVlanHeader { pcp, drop_eligible_indicator, vlan_id, ether_type }
    LinuxSllHeader {
        packet_type, arp_hrd_type, sender_address_valid_length, sender_address, protocol_type,
    }
    ArpEthIpv4Packet { operation, sender_mac, sender_ipv4, target_mac, target_ipv4 }
    LinuxSll2Header {
        protocol_type, interface_index, arp_hrd_type, packet_type, sender_address_valid_length,
        sender_address,
    }
}

methods! {
    MacsecAn { value }
    MacsecShortLen { value }
    VlanId { value }
    VlanPcp { value }
    Ethernet2HeaderSlice<'_> { slice }
    Ethernet2Slice<'_> { slice, fcs }
    SingleVlanHeaderSlice<'_> { slice }
    SingleVlanSlice<'_> { slice }
    MacsecHeaderSlice<'_> { slice }
    LinuxSllHeaderSlice<'_> { slice }
    LinuxSllSlice<'_> { slice }
    LinuxSll2HeaderSlice<'_> { slice }
    LinuxSll2Slice<'_> { slice }
    ArpPacketSlice<'_> { slice }
    Ipv4Addr { octets }
}

variants! {
    ArpEthIpv4FromError {
        0 NonMatchingHwType(it), 1 NonMatchingProtocolType(it), 2 NonMatchingHwAddrSize(it),
        3 NonMatchingProtoAddrSize(it),
    }
    ArpHwAddrError { 0 LenTooBig(it), 1 LenNonMatching(a, b) }
    ArpNewError { 0 HwAddr(it), 1 ProtoAddr(it) }
    ArpProtoAddrError { 0 LenTooBig(it), 1 LenNonMatching(a, b) }
    Layer {
        0 LinuxSllHeader, 1 Ethernet2Header, 2 EtherPayload, 3 VlanHeader, 4 MacsecHeader,
        5 MacsecPacket, 6 IpHeader, 7 Ipv4Header, 8 Ipv4Packet, 9 IpAuthHeader, 10 Ipv6Header,
        11 Ipv6Packet, 12 Ipv6ExtHeader, 13 Ipv6HopByHopHeader, 14 Ipv6DestOptionsHeader,
        15 Ipv6RouteHeader, 16 Ipv6FragHeader, 17 UdpHeader, 18 UdpPayload, 19 TcpHeader, 20 Icmpv4,
        21 Icmpv4Timestamp, 22 Icmpv4TimestampReply, 23 Icmpv6, 24 Arp,
    }
    ValueType {
        0 VlanId, 1 VlanPcp, 2 MacsecAn, 3 MacsecShortLen, 4 IpFragmentOffset, 5 IpDscp, 6 IpEcn,
        7 Ipv6FlowLabel, 8 Ipv4PayloadLength, 9 Ipv6PayloadLength, 10 UdpPayloadLengthIpv4,
        11 UdpPayloadLengthIpv6, 12 TcpPayloadLengthIpv4, 13 TcpPayloadLengthIpv6,
        14 Icmpv6PayloadLength, 15 LinuxSllType,
    }
    LenSource {
        0 Slice, 1 MacsecShortLength, 2 Ipv4HeaderTotalLen, 3 Ipv6HeaderPayloadLen, 4 UdpHeaderLen,
        5 TcpHeaderLen, 6 ArpAddrLengths,
    }
    LinuxSllProtocolType {
        0 Ignored(it), 1 NetlinkProtocolType(it), 2 GenericRoutingEncapsulationProtocolType(it),
        3 EtherType(it), 4 LinuxNonstandardEtherType(it),
    }
    LinkExtHeader { 0 Vlan(it), 1 Macsec(it) }
    LinkExtSlice<'_> { 0 Vlan(it), 1 Macsec(it) }
    MacsecPType { 0 Unmodified(it), 1 Modified, 2 Encrypted, 3 EncryptedUnmodified }
    MacsecPayloadSlice<'_> { 0 Unmodified(it), 1 Modified(it) }
    VlanHeader { 0 Single(it), 1 Double(it) }
    VlanSlice<'_> { 0 SingleVlan(it), 1 DoubleVlan(it) }
    LinkHeader { 0 LinuxSll(it), 1 Ethernet2(it) }
    LinkSlice<'_> { 0 Ethernet2(it), 1 LinuxSll(it), 2 EtherPayload(it), 3 LinuxSllPayload(it) }
    LinuxSll2Error { 0 Len { required_len, len }, 1 PacketType(it) }
}

/// What a type of numbers has is one of them.
macro_rules! converted {
    ($($kind:ident)*) => { $(
        impl Returned for $kind {
            fn add_to(&self, text: &mut Text) {
                u16::from(*self).add_to(text);
            }
        }
    )* };
}

converted! { LinuxSllPacketType LinuxNonstandardEtherType }

impl Returned for ArpPacket {
    fn add_to(&self, text: &mut Text) {
        (self.hw_addr_type, self.proto_addr_type, self.operation).add_to(text);
        (self.sender_hw_addr(), self.sender_protocol_addr()).add_to(text);
        (self.target_hw_addr(), self.target_protocol_addr()).add_to(text);
    }
}
