//! ARP packets (RFC 826, "Packet format").

use crate::wire::{Breach, Layer, Source, demand, number16, spelled};

/// An ARP packet. The two addresses of a kind have one length, up to 255.
#[derive(Clone, PartialEq, Eq, Debug)]
pub struct Arp {
    pub hardware_type: u16,
    pub protocol_type: u16,
    pub operation: u16,
    pub sender_hardware: Vec<u8>,
    pub sender_protocol: Vec<u8>,
    pub target_hardware: Vec<u8>,
    pub target_protocol: Vec<u8>,
}

impl Arp {
    /// The length of the fields before the addresses.
    pub const FRONT_LEN: usize = 8;

    /// The length of a packet with addresses of these sizes.
    pub fn len_for(hardware_size: usize, protocol_size: usize) -> usize {
        Arp::FRONT_LEN + 2 * hardware_size + 2 * protocol_size
    }

    /// ar$hrd and ar$pro of 16 bits, ar$hln and ar$pln of 8 bits, ar$op of 16 bits; then ar$sha, ar$spa, ar$tha,
    /// ar$tpa.
    pub fn read(window: &[u8], bound: Source) -> Result<Arp, Breach> {
        demand(Layer::Arp, Arp::FRONT_LEN, window, bound)?;
        let (hardware_size, protocol_size) = (usize::from(window[4]), usize::from(window[5]));
        let required = Arp::len_for(hardware_size, protocol_size);
        demand(Layer::Arp, required, window, Source::ArpSizes)?;
        let (sender_hardware, rest) = window[Arp::FRONT_LEN..].split_at(hardware_size);
        let (sender_protocol, rest) = rest.split_at(protocol_size);
        let (target_hardware, rest) = rest.split_at(hardware_size);
        Ok(Arp {
            hardware_type: number16(window, 0),
            protocol_type: number16(window, 2),
            operation: number16(window, 6),
            sender_hardware: sender_hardware.to_vec(),
            sender_protocol: sender_protocol.to_vec(),
            target_hardware: target_hardware.to_vec(),
            target_protocol: rest[..protocol_size].to_vec(),
        })
    }

    pub fn bytes(&self) -> Vec<u8> {
        let mut bytes = spelled(self.hardware_type.into(), 2);
        bytes.extend(spelled(self.protocol_type.into(), 2));
        bytes.push(self.sender_hardware.len() as u8);
        bytes.push(self.sender_protocol.len() as u8);
        bytes.extend(spelled(self.operation.into(), 2));
        for address in [&self.sender_hardware, &self.sender_protocol, &self.target_hardware, &self.target_protocol] {
            bytes.extend(address);
        }
        bytes
    }
}
