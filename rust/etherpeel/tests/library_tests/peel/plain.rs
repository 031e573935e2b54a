//! Expected headers and refusals as numbers, without the types of the libraries.
use etherpeel::LenSource;
use etherpeel::err::Layer;

/// A header as numbers. An Ethernet address, the address field of a cooked capture and an SCI are each one number,
/// whose most significant byte is the first one. The addresses of an ARP packet are parts of the frame.
#[derive(Clone, Copy, PartialEq, Debug)]
pub enum PlainHeader<'a> {
    Ethernet2 {
        destination: u64,
        source: u64,
        ether_type: u16,
    },
    Ethernet2Fcs {
        destination: u64,
        source: u64,
        ether_type: u16,
        check_sequence: u64,
    },
    LinuxSll {
        packet_type: u16,
        hardware_type: u16,
        address_len: u16,
        address: u64,
        protocol: u16,
    },
    Vlan {
        pcp: u16,
        dei: u16,
        vid: u16,
        ether_type: u16,
    },
    Macsec {
        end_station: u16,
        single_copy_broadcast: u16,
        encrypted: u16,
        changed: u16,
        association_number: u16,
        short_len: u16,
        packet_number: u64,
        sci: Option<u64>,
        ether_type: Option<u16>,
    },
    Arp {
        hardware_type: u16,
        protocol_type: u16,
        operation: u16,
        sender_hardware: &'a [u8],
        sender_protocol: &'a [u8],
        target_hardware: &'a [u8],
        target_protocol: &'a [u8],
    },
}

/// What the bytes that are left are announced as.
#[derive(Clone, Copy)]
pub enum PlainKind {
    Start,
    EtherType(u16),
    Gre(u16),
    Netlink(u16),
    Ignored(u16),
    Sealed,
    AfterArp,
}

/// Why a unit is refused.
#[derive(Clone, Copy)]
pub enum PlainRefusal {
    Length {
        required: usize,
        len: usize,
        source: LenSource,
        layer: Layer,
    },
    PacketType(u16),
    HardwareType(u16),
    Version,
    ShortLen,
}
