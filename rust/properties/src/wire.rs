//! Headers as the public standards draw them, and why bytes are refused as a header.

use crate::arp::Arp;
use crate::cooked::Cooked;
use crate::sec_tag::SecTag;

/// The number that bytes in network order write: the first byte is the most significant one.
pub fn number(bytes: &[u8]) -> u64 {
    bytes.iter().fold(0, |number, &byte| number * 256 + u64::from(byte))
}

/// The 16-bit number at a place.
pub fn number16(bytes: &[u8], at: usize) -> u16 {
    u16::from(bytes[at]) * 256 + u16::from(bytes[at + 1])
}

/// The last `len` bytes of a number in network order.
pub fn spelled(number: u64, len: usize) -> Vec<u8> {
    (0..len).rev().map(|place| (number >> (8 * place)) as u8).collect()
}

/// A bit of an octet as IEEE 802 numbers them: bit 8 is the most significant one, bit 1 the least.
pub fn bit(octet: u8, place: u32) -> bool {
    octet / 2u8.pow(place - 1) % 2 == 1
}

/// What named the length of a window.
#[derive(Clone, Copy, PartialEq, Eq, Debug)]
pub enum Source {
    /// The frame itself.
    Frame,
    /// The short length of a SecTag.
    ShortLength,
    /// The address sizes of an ARP packet.
    ArpSizes,
}

/// The part of a frame for which bytes are missing.
#[derive(Clone, Copy, PartialEq, Eq, Debug)]
pub enum Layer {
    Ethernet,
    Cooked,
    Vlan,
    SecTag,
    SecuredPayload,
    Arp,
}

/// Bytes are missing.
#[derive(Clone, Copy, PartialEq, Eq, Debug)]
pub struct Shortage {
    pub required: usize,
    pub available: usize,
    pub source: Source,
    pub layer: Layer,
    /// Where the unit starts in the frame.
    pub start: usize,
}

/// Why bytes are refused as a header.
#[derive(Clone, Copy, PartialEq, Eq, Debug)]
pub enum Breach {
    Short(Shortage),
    /// A packet type of a cooked capture that LINKTYPE_LINUX_SLL does not list.
    PacketType(u16),
    /// A hardware type of a cooked capture that is not supported.
    HardwareType(u16),
    /// The bit V of a SecTag is 1.
    Version,
    /// The short length of a SecTag does not cover the ether type after the tag.
    ShortLength,
}

impl Breach {
    /// Bytes are missing at the start of a window.
    pub fn short(layer: Layer, required: usize, available: usize, source: Source) -> Breach {
        Breach::Short(Shortage { required, available, source, layer, start: 0 })
    }

    /// The same breach of a unit that starts at this place of the frame.
    pub fn starting_at(self, start: usize) -> Breach {
        match self {
            Breach::Short(shortage) => Breach::Short(Shortage { start, ..shortage }),
            other => other,
        }
    }
}

/// The header of an Ethernet frame whose type field is an ether type (IEEE 802.3, 3.2.3 to 3.2.6).
#[derive(Clone, PartialEq, Eq, Debug)]
pub struct Ethernet {
    pub destination: Vec<u8>,
    pub source: Vec<u8>,
    pub ether_type: u16,
}

impl Ethernet {
    pub const LEN: usize = 14;
    /// The length of a frame check sequence (IEEE 802.3, 3.2.9).
    pub const FCS_LEN: usize = 4;

    /// Two addresses of six octets, then the type.
    pub fn read(bytes: &[u8]) -> Ethernet {
        Ethernet { destination: bytes[..6].to_vec(), source: bytes[6..12].to_vec(), ether_type: number16(bytes, 12) }
    }

    pub fn bytes(&self) -> Vec<u8> {
        [self.destination.clone(), self.source.clone(), spelled(self.ether_type.into(), 2)].concat()
    }
}

/// A VLAN tag without the ether type that announces it, and the ether type after it.
#[derive(Clone, PartialEq, Eq, Debug)]
pub struct Tag {
    pub pcp: u8,
    pub dei: bool,
    pub vid: u16,
    pub ether_type: u16,
}

impl Tag {
    pub const LEN: usize = 4;

    /// The tag control information has the PCP in bits 8 to 6 of its first octet, the DEI in bit 5, and the VID in the
    /// other twelve bits (IEEE 802.1Q, 9.6).
    pub fn read(bytes: &[u8]) -> Tag {
        Tag {
            pcp: bytes[0] / 32,
            dei: bit(bytes[0], 5),
            vid: u16::from(bytes[0] % 16) * 256 + u16::from(bytes[1]),
            ether_type: number16(bytes, 2),
        }
    }

    /// The two octets of the tag control information.
    pub fn control(&self) -> u16 {
        u16::from(self.pcp) * 0x2000 + u16::from(self.dei) * 0x1000 + self.vid
    }

    pub fn bytes(&self) -> Vec<u8> {
        [spelled(self.control().into(), 2), spelled(self.ether_type.into(), 2)].concat()
    }
}

/// Whether an ether type announces a VLAN tag: customer tag or service tag (IEEE 802.1Q, table 9-1), or the older
/// 0x9100.
pub fn announces_vlan(ether_type: u16) -> bool {
    [0x8100, 0x88A8, 0x9100].contains(&ether_type)
}

/// A kind of header.
#[derive(Clone, Copy, PartialEq, Eq, Debug)]
pub enum Kind {
    Ethernet,
    /// Of a frame that ends in a frame check sequence.
    EthernetFcs,
    Cooked,
    Vlan,
    SecTag,
    Arp,
}

/// A header as a value.
#[derive(Clone, PartialEq, Eq, Debug)]
pub enum Header {
    Ethernet(Ethernet),
    EthernetFcs(Ethernet),
    Cooked(Cooked),
    Vlan(Tag),
    SecTag(SecTag),
    Arp(Arp),
}

impl Header {
    /// Reads a header from the front of a window whose length `bound` named.
    pub fn read(kind: Kind, window: &[u8], bound: Source) -> Result<Header, Breach> {
        let with_fcs = Ethernet::LEN + Ethernet::FCS_LEN;
        match kind {
            Kind::Ethernet => {
                demand(Layer::Ethernet, Ethernet::LEN, window, bound)?;
                Ok(Header::Ethernet(Ethernet::read(window)))
            }
            Kind::EthernetFcs => {
                demand(Layer::Ethernet, with_fcs, window, bound)?;
                Ok(Header::EthernetFcs(Ethernet::read(window)))
            }
            Kind::Cooked => Ok(Header::Cooked(Cooked::read(window, bound)?)),
            Kind::Vlan => {
                demand(Layer::Vlan, Tag::LEN, window, bound)?;
                Ok(Header::Vlan(Tag::read(window)))
            }
            Kind::SecTag => Ok(Header::SecTag(SecTag::read_with_payload(window, bound)?)),
            Kind::Arp => Ok(Header::Arp(Arp::read(window, bound)?)),
        }
    }

    pub fn kind(&self) -> Kind {
        match self {
            Header::Ethernet(_) => Kind::Ethernet,
            Header::EthernetFcs(_) => Kind::EthernetFcs,
            Header::Cooked(_) => Kind::Cooked,
            Header::Vlan(_) => Kind::Vlan,
            Header::SecTag(_) => Kind::SecTag,
            Header::Arp(_) => Kind::Arp,
        }
    }

    /// How many bytes the header has.
    pub fn header_len(&self) -> usize {
        self.bytes().len()
    }

    /// The bytes of the header. Those of a SecTag have version 0 and reserved bits 0.
    pub fn bytes(&self) -> Vec<u8> {
        match self {
            Header::Ethernet(header) | Header::EthernetFcs(header) => header.bytes(),
            Header::Cooked(header) => header.bytes(),
            Header::Vlan(tag) => tag.bytes(),
            Header::SecTag(tag) => tag.bytes(),
            Header::Arp(packet) => packet.bytes(),
        }
    }

    /// The length of the payload, if the header names it.
    pub fn named_payload(&self) -> Option<usize> {
        match self {
            Header::SecTag(tag) => tag.named_payload(),
            _ => None,
        }
    }

    /// The length of the header, and of the payload if the header names it.
    pub fn unit_len(&self) -> usize {
        self.header_len() + self.named_payload().unwrap_or(0)
    }

    /// How many bytes at the end of the window follow the payload.
    pub fn trailer_len(&self) -> usize {
        match self {
            Header::EthernetFcs(_) => Ethernet::FCS_LEN,
            _ => 0,
        }
    }
}

/// Refuses a window that has fewer bytes than required.
pub fn demand(layer: Layer, required: usize, window: &[u8], source: Source) -> Result<(), Breach> {
    if window.len() < required {
        return Err(Breach::short(layer, required, window.len(), source));
    }
    Ok(())
}
