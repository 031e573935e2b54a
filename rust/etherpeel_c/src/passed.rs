//! Reads headers that are passed from C as units.

use crate::statuses::{BAD_FIELD, BAD_KIND};
use crate::{EtherArp, EtherEthernet2, EtherLinuxSll, EtherMacsec, EtherUnit};
use etherpeel::{
    ArpHardwareId, ArpOperation, ArpPacket, EtherType, Ethernet2Header, LinkExtHeader, LinkHeader,
    LinuxSllHeader, LinuxSllPacketType, LinuxSllProtocolType, MacsecAn, MacsecHeader, MacsecPType,
    MacsecShortLen,
};

impl EtherUnit {
    /// The link's header in the unit, or the status if it is not one.
    pub(crate) fn to_link(&self) -> Result<LinkHeader, u32> {
        match self.kind {
            1 => Ok(self.ethernet2.to_link()),
            2 => match self.linux_sll.to_link() {
                Some(link) => Ok(link),
                None => Err(BAD_FIELD),
            },
            _ => Err(BAD_KIND),
        }
    }

    /// The VLAN tag or SecTag in the unit, or the status if it is not one.
    pub(crate) fn to_link_ext(&self) -> Result<LinkExtHeader, u32> {
        match self.kind {
            3 => match self.vlan.to_header() {
                Some(tag) => Ok(LinkExtHeader::Vlan(tag)),
                None => Err(BAD_FIELD),
            },
            4 => match self.macsec.to_header() {
                Some(tag) => Ok(LinkExtHeader::Macsec(tag)),
                None => Err(BAD_FIELD),
            },
            _ => Err(BAD_KIND),
        }
    }

    /// The ARP packet in the unit, with its addresses in these bytes, or the status if it is not one.
    pub(crate) fn to_arp(&self, bytes: &[u8]) -> Result<ArpPacket, u32> {
        match self.kind {
            5 => match self.arp.to_packet(bytes) {
                Some(packet) => Ok(packet),
                None => Err(BAD_FIELD),
            },
            _ => Err(BAD_KIND),
        }
    }
}

impl EtherEthernet2 {
    /// The header with these fields.
    fn to_link(&self) -> LinkHeader {
        LinkHeader::Ethernet2(Ethernet2Header {
            source: self.source,
            destination: self.destination,
            ether_type: EtherType(self.ether_type),
        })
    }
}

impl EtherLinuxSll {
    /// The header with these fields; `None` if its packet type is above 7.
    fn to_link(&self) -> Option<LinkHeader> {
        let Ok(packet_type) = LinuxSllPacketType::try_from(self.packet_type) else {
            return None;
        };
        Some(LinkHeader::LinuxSll(LinuxSllHeader {
            packet_type,
            arp_hrd_type: ArpHardwareId(self.hardware_type),
            sender_address_valid_length: self.address_len,
            sender_address: self.address,
            protocol_type: protocol_type(self.hardware_type, self.protocol),
        }))
    }
}

/// A protocol number, read according to the hardware type. A walk accepts no hardware type that gives it no meaning.
fn protocol_type(hardware_type: u16, protocol: u16) -> LinuxSllProtocolType {
    match LinuxSllProtocolType::try_from((ArpHardwareId(hardware_type), protocol)) {
        Ok(protocol_type) => protocol_type,
        Err(_) => LinuxSllProtocolType::Ignored(protocol),
    }
}

impl EtherMacsec {
    /// The tag with these fields; `None` if a number does not fit its field.
    fn to_header(&self) -> Option<MacsecHeader> {
        let (Ok(an), Ok(short_len)) = (
            MacsecAn::try_new(self.association_number),
            MacsecShortLen::try_from_u8(self.short_len),
        ) else {
            return None;
        };
        if self.end_station > 1 || self.single_copy_broadcast > 1 {
            return None;
        }
        if self.sci_present > 1 || self.encrypted > 1 || self.changed > 1 {
            return None;
        }
        Some(MacsecHeader {
            ptype: payload_type(self.encrypted, self.changed, self.ether_type),
            endstation_id: self.end_station == 1,
            scb: self.single_copy_broadcast == 1,
            an,
            short_len,
            packet_nr: self.packet_number,
            sci: if self.sci_present == 0 {
                None
            } else {
                Some(self.sci)
            },
        })
    }
}

/// The type of the payload, by the bits E and C.
fn payload_type(encrypted: u8, changed: u8, ether_type: u16) -> MacsecPType {
    match (encrypted, changed) {
        (0, 0) => MacsecPType::Unmodified(EtherType(ether_type)),
        (0, _) => MacsecPType::Modified,
        (_, 0) => MacsecPType::EncryptedUnmodified,
        _ => MacsecPType::Encrypted,
    }
}

impl EtherArp {
    /// The packet with these fields, and the addresses in these bytes; `None` if an address is not within the bytes.
    fn to_packet(&self, bytes: &[u8]) -> Option<ArpPacket> {
        let (hardware, protocol) = (
            usize::from(self.hardware_size),
            usize::from(self.protocol_size),
        );
        let sender_hardware = address(bytes, self.sender_hardware, hardware)?;
        let sender_protocol = address(bytes, self.sender_protocol, protocol)?;
        let target_hardware = address(bytes, self.target_hardware, hardware)?;
        let target_protocol = address(bytes, self.target_protocol, protocol)?;
        let packet = ArpPacket::new(
            ArpHardwareId(self.hardware_type),
            EtherType(self.protocol_type),
            ArpOperation(self.operation),
            sender_hardware,
            sender_protocol,
            target_hardware,
            target_protocol,
        );
        match packet {
            Ok(packet) => Some(packet),
            // Not reached: the two addresses of each kind have one length, which fits in a byte.
            Err(_) => None,
        }
    }
}

/// The `len` bytes from the offset `at` on; `None` if they are not all there.
fn address(bytes: &[u8], at: usize, len: usize) -> Option<&[u8]> {
    if at > bytes.len() || len > bytes.len() - at {
        return None;
    }
    Some(&bytes[at..at + len])
}
