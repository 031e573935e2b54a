//! The names of numbers, as `fields.py` writes them.

/// Names ether types.
#[inline]
pub(in crate::ether_fields) fn ether_type_name(number: u64) -> Option<&'static str> {
    match number {
        0x0800 => Some("IPv4"),
        0x0806 => Some("ARP"),
        0x0842 => Some("Wake-on-LAN"),
        0x8035 => Some("RARP"),
        0x8100 => Some("VLAN tag"),
        0x86DD => Some("IPv6"),
        0x8808 => Some("flow control"),
        0x8809 => Some("slow protocols"),
        0x8847 => Some("MPLS"),
        0x8848 => Some("MPLS, multicast"),
        0x8863 => Some("PPPoE discovery"),
        0x8864 => Some("PPPoE"),
        0x888E => Some("EAPOL"),
        0x88A8 => Some("service VLAN tag"),
        0x88CC => Some("LLDP"),
        0x88E5 => Some("MACsec"),
        0x88F7 => Some("PTP"),
        0x8906 => Some("FCoE"),
        0x892F => Some("HSR"),
        0x9100 => Some("VLAN tag"),
        _ => None,
    }
}

/// Names hardware types.
#[inline]
pub(in crate::ether_fields) fn hardware_type_name(number: u64) -> Option<&'static str> {
    match number {
        1 => Some("Ethernet"),
        512 => Some("PPP"),
        768 => Some("IP tunnel"),
        772 => Some("loopback"),
        776 => Some("IPv6 in IPv4"),
        778 => Some("GRE over IP"),
        801 => Some("IEEE 802.11"),
        803 => Some("IEEE 802.11 with radiotap"),
        824 => Some("netlink"),
        _ => None,
    }
}

/// Names packet types of cooked captures.
#[inline]
pub(in crate::ether_fields) fn packet_type_name(number: u64) -> Option<&'static str> {
    match number {
        0 => Some("to us"),
        1 => Some("broadcast"),
        2 => Some("multicast"),
        3 => Some("to someone else"),
        4 => Some("sent by us"),
        _ => None,
    }
}

/// Names operations of ARP.
#[inline]
pub(in crate::ether_fields) fn operation_name(number: u64) -> Option<&'static str> {
    match number {
        1 => Some("request"),
        2 => Some("reply"),
        _ => None,
    }
}

/// Names link types of captures.
#[inline]
pub(in crate::ether_fields) fn link_type_name(number: u64) -> Option<&'static str> {
    match number {
        1 => Some("Ethernet"),
        113 => Some("Linux cooked capture v1"),
        276 => Some("Linux cooked capture v2"),
        _ => None,
    }
}
