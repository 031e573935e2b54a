//! The named numbers, which are those of the public lists.

use etherpeel::LinuxNonstandardEtherType as Linux;
use etherpeel::ether_switch::{Bridge, PortSet, PortStates, StationBucket, VlanConfig};
use etherpeel::{
    ArpEthIpv4Packet, ArpHardwareId as Hardware, ArpOperation, ArpPacket, EtherType, Ethernet2Header, LinuxSllHeader,
    LinuxSllPacketType as PacketType, LinuxSllProtocolType, MacsecAn, MacsecHeader, MacsecShortLen, SingleVlanHeader,
    VlanHeader, VlanId, VlanPcp,
};
use properties::cooked::{Cooked, NONSTANDARD, Protocol};
use properties::table::{FREE, places};
use properties::wire::{Ethernet, Tag, announces_vlan};

/// The hardware types of IANA's "Address Resolution Protocol (ARP) Parameters", from 0 on; 0 is from `linux/if_arp.h`.
const ASSIGNED: [Hardware; 39] = [
    Hardware::NETROM,
    Hardware::ETHERNET,
    Hardware::EETHER,
    Hardware::AX25,
    Hardware::PRONET,
    Hardware::CHAOS,
    Hardware::IEEE802,
    Hardware::ARCNET,
    Hardware::HYPERCHANNEL,
    Hardware::LANSTAR,
    Hardware::AUTONET_SHORT_ADDRESS,
    Hardware::LOCAL_TALK,
    Hardware::LOCAL_NET,
    Hardware::ULTRA_LINK,
    Hardware::SMDS,
    Hardware::FRAME_RELAY,
    Hardware::ATM_JXB2,
    Hardware::HDLC,
    Hardware::FIBRE_CHANNEL,
    Hardware::ATM,
    Hardware::SERIAL_LINE,
    Hardware::ATM_21,
    Hardware::MIL_STD_188_220,
    Hardware::METRICOM,
    Hardware::IEEE1394,
    Hardware::MAPOS,
    Hardware::TWINAXIAL,
    Hardware::EUI64,
    Hardware::HIPARP,
    Hardware::IP_AND_ARP_OVER_ISO_7816_3,
    Hardware::ARPSEC,
    Hardware::IPSEC_TUNNEL,
    Hardware::INFINIBAND,
    Hardware::CAI,
    Hardware::WIEGAND_INTERFACE,
    Hardware::PURE_IP,
    Hardware::HW_EXP1,
    Hardware::HFI,
    Hardware::UNIFIED_BUS,
];

/// The hardware types of `linux/if_arp.h` that IANA does not have.
const OF_LINUX: [(Hardware, u16); 51] = [
    (Hardware::SLIP, 256),
    (Hardware::CSLIP, 257),
    (Hardware::SLIP6, 258),
    (Hardware::CSLIP6, 259),
    (Hardware::RSRVD, 260),
    (Hardware::ADAPT, 264),
    (Hardware::ROSE, 270),
    (Hardware::X25, 271),
    (Hardware::HWX25, 272),
    (Hardware::CAN, 280),
    (Hardware::PPP, 512),
    (Hardware::CISCO_HDLC, 513),
    (Hardware::LAPB, 516),
    (Hardware::DDCMP, 517),
    (Hardware::RAWHDLC, 518),
    (Hardware::RAWIP, 519),
    (Hardware::TUNNEL, 768),
    (Hardware::TUNNEL6, 769),
    (Hardware::FRAD, 770),
    (Hardware::SKIP, 771),
    (Hardware::LOOPBACK, 772),
    (Hardware::LOCALTLK, 773),
    (Hardware::FDDI, 774),
    (Hardware::BIF, 775),
    (Hardware::SIT, 776),
    (Hardware::IPDDP, 777),
    (Hardware::IPGRE, 778),
    (Hardware::PIMREG, 779),
    (Hardware::HIPPI, 780),
    (Hardware::ASH, 781),
    (Hardware::ECONET, 782),
    (Hardware::IRDA, 783),
    (Hardware::FCPP, 784),
    (Hardware::FCAL, 785),
    (Hardware::FCPL, 786),
    (Hardware::FCFABRIC, 787),
    (Hardware::IEEE802_TR, 800),
    (Hardware::IEEE80211, 801),
    (Hardware::IEEE80211_PRISM, 802),
    (Hardware::IEEE80211_RADIOTAP, 803),
    (Hardware::IEEE802154, 804),
    (Hardware::IEEE802154_MONITOR, 805),
    (Hardware::PHONET, 820),
    (Hardware::PHONET_PIPE, 821),
    (Hardware::CAIF, 822),
    (Hardware::IP6GRE, 823),
    (Hardware::NETLINK, 824),
    (Hardware::IPV6LOWPAN, 825),
    (Hardware::VSOCKMON, 826),
    (Hardware::VOID, 0xFFFF),
    (Hardware::NONE, 0xFFFE),
];

/// The protocols of `linux/if_ether.h` without an ether type, in the order of the file.
const WITHOUT_TYPE: [Linux; 28] = [
    Linux::N802_3,
    Linux::AX25,
    Linux::ALL,
    Linux::N802_2,
    Linux::SNAP,
    Linux::DDCMP,
    Linux::WAN_PPP,
    Linux::PPP_MP,
    Linux::LOCALTALK,
    Linux::CAN,
    Linux::CANFD,
    Linux::CANXL,
    Linux::PPPTALK,
    Linux::TR_802_2,
    Linux::MOBITEX,
    Linux::CONTROL,
    Linux::IRDA,
    Linux::ECONET,
    Linux::HDLC,
    Linux::ARCNET,
    Linux::DSA,
    Linux::TRAILER,
    Linux::PHONET,
    Linux::IEEE802154,
    Linux::CAIF,
    Linux::XDSA,
    Linux::MAP,
    Linux::MCTP,
];

#[test]
fn hardware_types_are_listed() {
    assert!(ASSIGNED.iter().enumerate().all(|(number, hardware)| usize::from(hardware.0) == number));
    assert!(OF_LINUX.iter().all(|(hardware, number)| hardware.0 == *number));
    assert_eq!((Hardware::ETHER, Hardware::APPLETLK), (Hardware(1), Hardware(8)));
    assert_eq!(Hardware::DLCI, Hardware(15));
}

#[test]
fn protocols_without_an_ether_type_are_listed() {
    assert_eq!(WITHOUT_TYPE.map(u16::from), NONSTANDARD);
}

/// The packet types of `linux/if_packet.h`, from 0 on.
#[test]
fn packet_types_are_listed() {
    let types = [
        PacketType::HOST,
        PacketType::BROADCAST,
        PacketType::MULTICAST,
        PacketType::OTHERHOST,
        PacketType::OUTGOING,
        PacketType::LOOPBACK,
        PacketType::USER,
        PacketType::KERNEL,
    ];
    assert_eq!(types.map(u16::from), [0, 1, 2, 3, 4, 5, 6, 7]);
}

/// The ether types of IEEE's registry, and the operations of RFC 826.
#[test]
fn ether_types_and_operations_are_listed() {
    assert_eq!((EtherType::IPV4.0, EtherType::IPV6.0, EtherType::ARP.0), (0x0800, 0x86DD, 0x0806));
    assert_eq!((EtherType::WAKE_ON_LAN.0, EtherType::MACSEC.0), (0x0842, 0x88E5));
    assert_eq!((EtherType::VLAN_TAGGED_FRAME.0, EtherType::PROVIDER_BRIDGING.0), (0x8100, 0x88A8));
    assert_eq!(EtherType::VLAN_DOUBLE_TAGGED_FRAME.0, 0x9100);
    assert_eq!(VlanHeader::VLAN_ETHER_TYPES.map(|it| announces_vlan(it.0)), [true; 3]);
    assert_eq!((ArpOperation::REQUEST.0, ArpOperation::REPLY.0), (1, 2));
}

/// The lengths of headers: a SecTag has 6 to 16 bytes, and an ARP packet at most 8 and four addresses of 255.
#[test]
fn lengths_are_those_of_the_formats() {
    assert_eq!([Ethernet2Header::LEN, Ethernet2Header::SERIALIZED_SIZE], [Ethernet::LEN; 2]);
    assert_eq!([SingleVlanHeader::LEN, SingleVlanHeader::SERIALIZED_SIZE], [Tag::LEN; 2]);
    assert_eq!((MacsecHeader::MIN_LEN, MacsecHeader::MAX_LEN), (6, 16));
    assert_eq!(LinuxSllHeader::LEN, Cooked::LEN);
    assert_eq!((ArpPacket::MAX_LEN, ArpEthIpv4Packet::LEN), (8 + 4 * 255, 8 + 2 * (6 + 4)));
}

/// The greatest numbers of fields, and the least.
#[test]
fn numbers_have_their_ranges() {
    assert_eq!((VlanId::MAX_U16, VlanPcp::MAX_U8, MacsecAn::MAX_U8), (0x0FFF, 7, 3));
    assert_eq!((MacsecShortLen::MAX_U8, MacsecShortLen::MAX_USIZE), (63, 63));
    assert_eq!(PacketType::MAX_VAL, Cooked::GREATEST_PACKET_TYPE);
    assert_eq!((VlanId::ZERO.value(), VlanPcp::ZERO.value(), MacsecAn::ZERO.value()), (0, 0, 0));
    assert_eq!(MacsecShortLen::ZERO.value(), 0);
    assert!(LinuxSllProtocolType::SUPPORTED_ARPHWD.iter().all(|hardware| Protocol::of(hardware.0, 0).is_some()));
}

/// The ageing time that IEEE 802.1Q recommends (8.8.3), sets without ports, and a bucket without stations.
#[test]
fn bridges_begin_empty() {
    assert_eq!(Bridge::AGEING_TIME, 300);
    assert!((0..=255).all(|port| !PortSet::NONE.contains(port)));
    let (states, vlan) = (PortStates::NONE, VlanConfig::NONE);
    let sets = [states.learning, states.forwarding, states.isolated, states.mirrors, vlan.members, vlan.untagged];
    assert_eq!(sets, [PortSet::NONE; 6]);
    assert_eq!((vlan.first_bucket, vlan.buckets), (0, 0));
    assert_eq!(places(&StationBucket::EMPTY), [FREE; 4]);
}
