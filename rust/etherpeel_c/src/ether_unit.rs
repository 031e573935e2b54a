//! A header of a frame and where its payload is, as a struct of C.

use etherpeel::ether_peel::PeelUnit;
use etherpeel::{
    ArpPacketSlice, EtherType, Ethernet2Slice, LinuxSllSlice, MacsecHeaderSlice, MacsecPType,
    SingleVlanHeader, SingleVlanSlice, VlanId, VlanPcp,
};

/// The fields of an Ethernet II header: `etherpeel_ethernet2` in C.
#[repr(C)]
#[derive(Clone, Copy)]
pub struct EtherEthernet2 {
    /// The MAC address of the destination.
    pub destination: [u8; 6],
    /// The MAC address of the source.
    pub source: [u8; 6],
    /// The ether type of the payload.
    pub ether_type: u16,
    /// 1 if the frame ends in a frame check sequence, else 0.
    pub has_fcs: u8,
}

/// The fields of a header of Linux cooked capture v1: `etherpeel_linux_sll` in C.
#[repr(C)]
#[derive(Clone, Copy)]
pub struct EtherLinuxSll {
    /// Who sent the packet, and to whom: 0 to 7.
    pub packet_type: u16,
    /// The ARPHRD number of the link.
    pub hardware_type: u16,
    /// The length of the sender's address, which may exceed 8.
    pub address_len: u16,
    /// The sender's address, truncated to 8 bytes or padded.
    pub address: [u8; 8],
    /// The protocol number, read according to the hardware type.
    pub protocol: u16,
}

/// The fields of a VLAN tag (IEEE 802.1Q, 9.6): `etherpeel_vlan` in C.
#[repr(C)]
#[derive(Clone, Copy)]
pub struct EtherVlan {
    /// The VLAN identifier, 12 bits.
    pub vid: u16,
    /// The ether type after the tag.
    pub ether_type: u16,
    /// The priority code point, 3 bits.
    pub pcp: u8,
    /// The drop eligible indicator, 1 bit.
    pub dei: u8,
}

/// The fields of a MACsec SecTag (IEEE 802.1AE, 9.3): `etherpeel_macsec` in C.
#[repr(C)]
#[derive(Clone, Copy)]
pub struct EtherMacsec {
    /// The secure channel identifier, 0 if there is none.
    pub sci: u64,
    /// The packet number.
    pub packet_number: u32,
    /// The ether type after the tag, 0 if the payload is encrypted or changed.
    pub ether_type: u16,
    /// Bit ES.
    pub end_station: u8,
    /// Bit SC: whether there is a secure channel identifier.
    pub sci_present: u8,
    /// Bit SCB.
    pub single_copy_broadcast: u8,
    /// Bit E.
    pub encrypted: u8,
    /// Bit C.
    pub changed: u8,
    /// The association number, 2 bits.
    pub association_number: u8,
    /// The short length, 6 bits.
    pub short_len: u8,
}

/// The fields of an ARP packet (RFC 826): `etherpeel_arp` in C.
#[repr(C)]
#[derive(Clone, Copy)]
pub struct EtherArp {
    /// The offset of the sender's hardware address, in bytes from the start of the frame.
    pub sender_hardware: usize,
    /// The offset of the sender's protocol address.
    pub sender_protocol: usize,
    /// The offset of the target's hardware address.
    pub target_hardware: usize,
    /// The offset of the target's protocol address.
    pub target_protocol: usize,
    /// The hardware type.
    pub hardware_type: u16,
    /// The protocol type.
    pub protocol_type: u16,
    /// The operation.
    pub operation: u16,
    /// The length of each hardware address in bytes.
    pub hardware_size: u8,
    /// The length of each protocol address in bytes.
    pub protocol_size: u8,
}

/// A header and the place of its payload: `etherpeel_unit` in C. Of the five header structs, only that of the unit's
/// kind is filled; the others are 0.
///
/// Each bit pattern is a value, so that C may pass memory that it has not written to.
#[repr(C)]
#[derive(Clone, Copy)]
pub struct EtherUnit {
    /// The offset of the header in bytes from the start of the frame.
    pub offset: usize,
    /// The length of the header in bytes; for an ARP packet, that of the whole packet.
    pub header_len: usize,
    /// The offset at which the payload starts.
    pub payload_start: usize,
    /// The offset at which the payload ends.
    pub payload_end: usize,
    /// 1 Ethernet II, 2 Linux cooked capture, 3 a VLAN tag, 4 a MACsec SecTag, 5 an ARP packet.
    pub kind: u32,
    /// 1 if bytes appended to the frame would lie outside the payload, else 0.
    pub closed: u8,
    /// The fields of an Ethernet II header.
    pub ethernet2: EtherEthernet2,
    /// The fields of a header of Linux cooked capture.
    pub linux_sll: EtherLinuxSll,
    /// The fields of a VLAN tag.
    pub vlan: EtherVlan,
    /// The fields of a SecTag.
    pub macsec: EtherMacsec,
    /// The fields of an ARP packet.
    pub arp: EtherArp,
}

// as c/etherpeel.h lays them out
const _: () = assert!(size_of::<EtherEthernet2>() == 16);

const _: () = assert!(size_of::<EtherLinuxSll>() == 16);

const _: () = assert!(size_of::<EtherVlan>() == 6);

const _: () = assert!(size_of::<EtherMacsec>() == 24);

const _: () = assert!(size_of::<EtherArp>() == 40);

const _: () = assert!(size_of::<EtherUnit>() == 144);

/// The place of a unit in a frame.
#[derive(Clone, Copy)]
pub(crate) struct UnitPlace {
    pub(crate) offset: usize,
    pub(crate) payload_start: usize,
    pub(crate) payload_end: usize,
    pub(crate) closed: bool,
}

impl EtherUnit {
    const NONE: EtherUnit = EtherUnit {
        offset: 0,
        header_len: 0,
        payload_start: 0,
        payload_end: 0,
        kind: 0,
        closed: 0,
        ethernet2: EtherEthernet2::NONE,
        linux_sll: EtherLinuxSll::NONE,
        vlan: EtherVlan::NONE,
        macsec: EtherMacsec::NONE,
        arp: EtherArp::NONE,
    };

    /// Sets the struct to a unit at a place. Making a new unit and copying it takes up to 1.9 times the instructions.
    #[inline(always)]
    pub(crate) fn set(&mut self, unit: &PeelUnit<'_>, place: UnitPlace) {
        *self = EtherUnit {
            offset: place.offset,
            header_len: place.payload_start - place.offset,
            payload_start: place.payload_start,
            payload_end: place.payload_end,
            closed: u8::from(place.closed),
            ..EtherUnit::NONE
        };
        match unit {
            PeelUnit::Ethernet2(frame) => {
                self.kind = 1;
                self.ethernet2 = EtherEthernet2::of(frame);
            }
            PeelUnit::LinuxSll(packet) => {
                self.kind = 2;
                self.linux_sll = EtherLinuxSll::of(packet);
            }
            PeelUnit::Vlan(tag) => {
                self.kind = 3;
                self.vlan = EtherVlan::of(tag);
            }
            PeelUnit::Macsec(packet) => {
                self.kind = 4;
                self.macsec = EtherMacsec::of(&packet.header);
            }
            PeelUnit::Arp(packet) => {
                self.kind = 5;
                self.arp = EtherArp::of(packet, place.offset);
            }
        }
    }
}

impl EtherEthernet2 {
    const NONE: EtherEthernet2 = EtherEthernet2 {
        destination: [0; 6],
        source: [0; 6],
        ether_type: 0,
        has_fcs: 0,
    };

    #[inline(always)]
    fn of(frame: &Ethernet2Slice<'_>) -> EtherEthernet2 {
        EtherEthernet2 {
            destination: frame.destination(),
            source: frame.source(),
            ether_type: frame.ether_type().0,
            has_fcs: u8::from(frame.fcs().is_some()),
        }
    }
}

impl EtherLinuxSll {
    const NONE: EtherLinuxSll = EtherLinuxSll {
        packet_type: 0,
        hardware_type: 0,
        address_len: 0,
        address: [0; 8],
        protocol: 0,
    };

    #[inline(always)]
    fn of(packet: &LinuxSllSlice<'_>) -> EtherLinuxSll {
        EtherLinuxSll {
            packet_type: u16::from(packet.packet_type()),
            hardware_type: packet.arp_hardware_type().0,
            address_len: packet.sender_address_valid_length(),
            address: packet.sender_address_full(),
            protocol: u16::from(packet.protocol_type()),
        }
    }
}

impl EtherVlan {
    const NONE: EtherVlan = EtherVlan {
        vid: 0,
        ether_type: 0,
        pcp: 0,
        dei: 0,
    };

    #[inline(always)]
    fn of(tag: &SingleVlanSlice<'_>) -> EtherVlan {
        EtherVlan {
            vid: tag.vlan_identifier().value(),
            ether_type: tag.ether_type().0,
            pcp: tag.priority_code_point().value(),
            dei: u8::from(tag.drop_eligible_indicator()),
        }
    }

    /// The fields of a tag as a value.
    pub(crate) fn of_header(tag: SingleVlanHeader) -> EtherVlan {
        EtherVlan {
            vid: tag.vlan_id.value(),
            ether_type: tag.ether_type.0,
            pcp: tag.pcp.value(),
            dei: u8::from(tag.drop_eligible_indicator),
        }
    }

    /// The tag with these fields; `None` if a number does not fit its field.
    pub(crate) fn to_header(&self) -> Option<SingleVlanHeader> {
        let (Ok(vlan_id), Ok(pcp)) = (VlanId::try_new(self.vid), VlanPcp::try_new(self.pcp)) else {
            return None;
        };
        if self.dei > 1 {
            return None;
        }
        Some(SingleVlanHeader {
            pcp,
            drop_eligible_indicator: self.dei == 1,
            vlan_id,
            ether_type: EtherType(self.ether_type),
        })
    }
}

impl EtherMacsec {
    const NONE: EtherMacsec = EtherMacsec {
        sci: 0,
        packet_number: 0,
        ether_type: 0,
        end_station: 0,
        sci_present: 0,
        single_copy_broadcast: 0,
        encrypted: 0,
        changed: 0,
        association_number: 0,
        short_len: 0,
    };

    #[inline(always)]
    fn of(tag: &MacsecHeaderSlice<'_>) -> EtherMacsec {
        let (encrypted, changed, ether_type) = match tag.ptype() {
            MacsecPType::Unmodified(ether_type) => (0, 0, ether_type.0),
            MacsecPType::Modified => (0, 1, 0),
            MacsecPType::EncryptedUnmodified => (1, 0, 0),
            MacsecPType::Encrypted => (1, 1, 0),
        };
        let (sci_present, sci) = match tag.sci() {
            Some(sci) => (1, sci),
            None => (0, 0),
        };
        EtherMacsec {
            sci,
            packet_number: tag.packet_nr(),
            ether_type,
            end_station: u8::from(tag.endstation_id()),
            sci_present,
            single_copy_broadcast: u8::from(tag.tci_scb()),
            encrypted,
            changed,
            association_number: tag.an().value(),
            short_len: tag.short_len().value(),
        }
    }
}

impl EtherArp {
    const NONE: EtherArp = EtherArp {
        sender_hardware: 0,
        sender_protocol: 0,
        target_hardware: 0,
        target_protocol: 0,
        hardware_type: 0,
        protocol_type: 0,
        operation: 0,
        hardware_size: 0,
        protocol_size: 0,
    };

    #[inline(always)]
    fn of(packet: &ArpPacketSlice<'_>, offset: usize) -> EtherArp {
        let hardware_size = packet.hw_addr_size();
        let protocol_size = packet.proto_addr_size();
        let (hardware, protocol) = (usize::from(hardware_size), usize::from(protocol_size));
        EtherArp {
            sender_hardware: offset + 8,
            sender_protocol: offset + 8 + hardware,
            target_hardware: offset + 8 + hardware + protocol,
            target_protocol: offset + 8 + 2 * hardware + protocol,
            hardware_type: packet.hw_addr_type().0,
            protocol_type: packet.proto_addr_type().0,
            operation: packet.operation().0,
            hardware_size,
            protocol_size,
        }
    }
}
