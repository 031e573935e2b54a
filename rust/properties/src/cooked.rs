//! Linux cooked capture v1 (LINKTYPE_LINUX_SLL of the tcpdump group).

use crate::wire::{Breach, Layer, Source, demand, number16, spelled};

/// A header of Linux cooked capture v1.
#[derive(Clone, PartialEq, Eq, Debug)]
pub struct Cooked {
    pub packet_type: u16,
    pub hardware_type: u16,
    pub address_len: u16,
    pub address: Vec<u8>,
    pub protocol: u16,
}

/// What the protocol number of a cooked capture means, by its hardware type.
#[derive(Clone, Copy, PartialEq, Eq, Debug)]
pub enum Protocol {
    /// It means nothing: frame relay and radiotap.
    Ignored(u16),
    Netlink(u16),
    Gre(u16),
    EtherType(u16),
    /// A number of Linux that is not an ether type.
    Nonstandard(u16),
}

/// ARPHRD_ numbers of Linux.
pub const ETHER: u16 = 1;
pub const FRAME_RELAY: u16 = 770;
pub const IP_GRE: u16 = 778;
pub const RADIOTAP: u16 = 803;
pub const NETLINK: u16 = 824;

/// The numbers that `linux/if_ether.h` lists as "Non DIX types", from ETH_P_802_3 on. They are not ether types.
pub const NONSTANDARD: [u16; 28] = [
    0x0001, 0x0002, 0x0003, 0x0004, 0x0005, 0x0006, 0x0007, 0x0008, 0x0009, 0x000C, 0x000D, 0x000E, 0x0010, 0x0011,
    0x0015, 0x0016, 0x0017, 0x0018, 0x0019, 0x001A, 0x001B, 0x001C, 0x00F5, 0x00F6, 0x00F7, 0x00F8, 0x00F9, 0x00FA,
];

impl Protocol {
    /// The meaning of a number on a link of a supported hardware type.
    pub fn of(hardware_type: u16, number: u16) -> Option<Protocol> {
        match hardware_type {
            NETLINK => Some(Protocol::Netlink(number)),
            IP_GRE => Some(Protocol::Gre(number)),
            RADIOTAP | FRAME_RELAY => Some(Protocol::Ignored(number)),
            ETHER if NONSTANDARD.contains(&number) => Some(Protocol::Nonstandard(number)),
            ETHER => Some(Protocol::EtherType(number)),
            _ => None,
        }
    }

    pub fn number(self) -> u16 {
        match self {
            Protocol::Ignored(number)
            | Protocol::Netlink(number)
            | Protocol::Gre(number)
            | Protocol::EtherType(number)
            | Protocol::Nonstandard(number) => number,
        }
    }

    /// The number, if it is in the place of an ether type.
    pub fn ether_type(self) -> Option<u16> {
        match self {
            Protocol::EtherType(number) | Protocol::Nonstandard(number) => Some(number),
            _ => None,
        }
    }
}

impl Cooked {
    pub const LEN: usize = 16;
    /// The greatest packet type: PACKET_KERNEL of `linux/if_packet.h`.
    pub const GREATEST_PACKET_TYPE: u16 = 7;

    /// Packet type, ARPHRD_ type and address length of two bytes each, an address of eight, the protocol of two.
    pub fn read(window: &[u8], bound: Source) -> Result<Cooked, Breach> {
        demand(Layer::Cooked, Cooked::LEN, window, bound)?;
        let header = Cooked {
            packet_type: number16(window, 0),
            hardware_type: number16(window, 2),
            address_len: number16(window, 4),
            address: window[6..14].to_vec(),
            protocol: number16(window, 14),
        };
        if header.packet_type > Cooked::GREATEST_PACKET_TYPE {
            return Err(Breach::PacketType(header.packet_type));
        }
        match Protocol::of(header.hardware_type, header.protocol) {
            Some(_) => Ok(header),
            None => Err(Breach::HardwareType(header.hardware_type)),
        }
    }

    /// The meaning of the protocol number. The hardware type of a header that was read is supported.
    pub fn meaning(&self) -> Protocol {
        Protocol::of(self.hardware_type, self.protocol).expect("the hardware type is supported")
    }

    /// The bytes of the address that are valid: "If there are more than 8 bytes, only the first 8 bytes are present".
    pub fn valid_address(&self) -> &[u8] {
        &self.address[..usize::from(self.address_len).min(8)]
    }

    pub fn bytes(&self) -> Vec<u8> {
        let numbers = [self.packet_type, self.hardware_type, self.address_len];
        let front: Vec<u8> = numbers.iter().flat_map(|&number| spelled(number.into(), 2)).collect();
        [front, self.address.clone(), spelled(self.protocol.into(), 2)].concat()
    }
}
