//! A packet that is built in steps.

use crate::err::packet::BuildWriteError;
use crate::ether_packet::{self, PacketContent};
use crate::{
    ArpHardwareId, ArpPacket, DoubleVlanHeader, EtherType, Ethernet2Header, LinkExtHeader, LinkHeader, LinuxSllHeader,
    LinuxSllPacketType, LinuxSllProtocolType, SingleVlanHeader, VlanHeader, VlanId,
};
use arrayvec::ArrayVec;
use std::io::Write;

/// The most VLAN tags of a packet.
const MOST_TAGS: usize = 2;

/// The most bytes of a packet.
const MOST_BYTES: usize = LinuxSllHeader::LEN + MOST_TAGS * SingleVlanHeader::LEN + ArpPacket::MAX_LEN;

/// Begins a packet that is built in steps, from the outermost header on, and ends in an ARP packet.
///
/// The ether type of each header is set by what follows it: 0x88A8 before the outer one of two VLAN tags, 0x8100 before
/// any other. The steps for IP and above are left out. For packets with SecTags or any payload there is
/// [`ether_packet::PacketBuilder`].
///
/// ```
/// use etherpeel::{ArpEthIpv4Packet, ArpOperation, PacketBuilder, VlanId};
///
/// # fn main() -> Result<(), Box<dyn std::error::Error>> {
/// let request = ArpEthIpv4Packet {
///     operation: ArpOperation::REQUEST,
///     sender_mac: [2, 0, 0, 0, 0, 1],
///     sender_ipv4: [10, 0, 0, 1],
///     target_mac: [0; 6],
///     target_ipv4: [10, 0, 0, 2],
/// };
/// let builder = PacketBuilder::ethernet2([2, 0, 0, 0, 0, 1], [0xFF; 6])
///     .single_vlan(VlanId::try_new(100)?)
///     .arp(request.to_arp_packet());
/// let mut packet = Vec::with_capacity(builder.size());
/// builder.write(&mut packet)?;
/// assert_eq!(packet[12..18], [0x81, 0x00, 0x00, 0x64, 0x08, 0x06]);
/// assert_eq!(packet.len(), 14 + 4 + 28);
/// # Ok(())
/// # }
/// ```
#[derive(Clone, Copy, PartialEq, Eq, Debug)]
pub struct PacketBuilder {}

/// A packet that is being built, after the step that its parameter names.
#[derive(Clone, Debug)]
pub struct PacketBuilderStep<LastStep> {
    link: LinkHeader,
    tags: ArrayVec<LinkExtHeader, MOST_TAGS>,
    last: LastStep,
}

impl PacketBuilder {
    /// Begins with an Ethernet II header.
    #[must_use]
    pub fn ethernet2(source: [u8; 6], destination: [u8; 6]) -> PacketBuilderStep<Ethernet2Header> {
        let last = Ethernet2Header { source, destination, ether_type: EtherType(0) };
        PacketBuilderStep { link: LinkHeader::Ethernet2(last), tags: ArrayVec::new(), last }
    }

    /// Begins with a header of Linux cooked capture v1, of the hardware type Ethernet.
    #[must_use]
    pub fn linux_sll(
        packet_type: LinuxSllPacketType,
        sender_address_valid_length: u16,
        sender_address: [u8; 8],
    ) -> PacketBuilderStep<LinuxSllHeader> {
        let last = LinuxSllHeader {
            packet_type,
            arp_hrd_type: ArpHardwareId::ETHERNET,
            sender_address_valid_length,
            sender_address,
            protocol_type: LinuxSllProtocolType::EtherType(EtherType(0)),
        };
        PacketBuilderStep { link: LinkHeader::LinuxSll(last), tags: ArrayVec::new(), last }
    }
}

impl PacketBuilderStep<Ethernet2Header> {
    /// Adds one VLAN tag or two. Their ether types are set when the packet is written.
    #[must_use]
    pub fn vlan(self, vlan: VlanHeader) -> PacketBuilderStep<VlanHeader> {
        let mut tags = self.tags;
        match vlan {
            VlanHeader::Single(tag) => tags.push(untyped(tag)),
            VlanHeader::Double(both) => tags.extend([untyped(both.outer), untyped(both.inner)]),
        }
        PacketBuilderStep { link: self.link, tags, last: vlan }
    }

    /// Adds one VLAN tag, with the priority 0.
    #[must_use]
    pub fn single_vlan(self, vlan_identifier: VlanId) -> PacketBuilderStep<VlanHeader> {
        self.vlan(VlanHeader::Single(tag_of(vlan_identifier)))
    }

    /// Adds two VLAN tags, with the priority 0.
    #[must_use]
    pub fn double_vlan(
        self,
        outer_vlan_identifier: VlanId,
        inner_vlan_identifier: VlanId,
    ) -> PacketBuilderStep<VlanHeader> {
        let (outer, inner) = (tag_of(outer_vlan_identifier), tag_of(inner_vlan_identifier));
        self.vlan(VlanHeader::Double(DoubleVlanHeader { outer, inner }))
    }

    /// Ends with an ARP packet.
    #[must_use]
    pub fn arp(self, arp_packet: ArpPacket) -> PacketBuilderStep<ArpPacket> {
        self.ended(arp_packet)
    }
}

impl PacketBuilderStep<LinuxSllHeader> {
    /// Ends with an ARP packet.
    #[must_use]
    pub fn arp(self, arp_packet: ArpPacket) -> PacketBuilderStep<ArpPacket> {
        self.ended(arp_packet)
    }
}

impl PacketBuilderStep<VlanHeader> {
    /// Ends with an ARP packet.
    #[must_use]
    pub fn arp(self, arp_packet: ArpPacket) -> PacketBuilderStep<ArpPacket> {
        self.ended(arp_packet)
    }
}

impl<LastStep> PacketBuilderStep<LastStep> {
    fn ended(self, last: ArpPacket) -> PacketBuilderStep<ArpPacket> {
        PacketBuilderStep { link: self.link, tags: self.tags, last }
    }
}

impl PacketBuilderStep<ArpPacket> {
    /// Writes the packet.
    ///
    /// # Errors
    ///
    /// The writer has failed. Or the ARP packet has another hardware type than the header of cooked capture before it;
    /// then nothing is written.
    pub fn write<T: Write + Sized>(self, writer: &mut T) -> Result<(), BuildWriteError> {
        if let LinkHeader::LinuxSll(link) = &self.link {
            if link.arp_hrd_type != self.last.hw_addr_type {
                return Err(BuildWriteError::ArpHeaderNotMatch);
            }
        }
        let mut bytes = [0; MOST_BYTES];
        match self.packet().write(&mut bytes) {
            Ok(len) => Ok(writer.write_all(&bytes[..len])?),
            Err(error) => unreachable!("{error}"),
        }
    }

    /// The number of bytes of the packet.
    #[must_use]
    pub fn size(&self) -> usize {
        self.packet().size()
    }

    fn packet(&self) -> ether_packet::PacketBuilder<'_, '_> {
        ether_packet::PacketBuilder { link: self.link, link_exts: &self.tags, content: PacketContent::Arp(&self.last) }
    }
}

fn tag_of(vlan_id: VlanId) -> SingleVlanHeader {
    SingleVlanHeader { vlan_id, ..SingleVlanHeader::default() }
}

/// The tag with no ether type, so that it is set by what follows the tag.
fn untyped(tag: SingleVlanHeader) -> LinkExtHeader {
    LinkExtHeader::Vlan(SingleVlanHeader { ether_type: EtherType(0), ..tag })
}
