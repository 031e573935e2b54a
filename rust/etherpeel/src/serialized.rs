//! What serde reads and writes of values that are not made of their fields. Written by hand, since Rattle has no serde.
//! No value is read that a constructor refuses.

use crate::{ArpHardwareId, ArpOperation, ArpPacket, EtherType, LinuxNonstandardEtherType};
use arrayvec::ArrayVec;
use serde::de::Error;
use serde::{Deserialize, Deserializer, Serialize, Serializer};

/// A hardware or a protocol address, which has at most 255 bytes.
type Address = ArrayVec<u8, 255>;

/// The fields of an ARP packet.
#[derive(Serialize, Deserialize)]
#[serde(rename = "ArpPacket")]
struct Fields {
    hw_addr_type: ArpHardwareId,
    proto_addr_type: EtherType,
    operation: ArpOperation,
    sender_hw_addr: Address,
    sender_protocol_addr: Address,
    target_hw_addr: Address,
    target_protocol_addr: Address,
}

/// The bytes of an address. There are no more than have room.
fn address(bytes: &[u8]) -> Address {
    bytes.iter().copied().collect()
}

impl Serialize for ArpPacket {
    fn serialize<S: Serializer>(&self, serializer: S) -> Result<S::Ok, S::Error> {
        let fields = Fields {
            hw_addr_type: self.hw_addr_type,
            proto_addr_type: self.proto_addr_type,
            operation: self.operation,
            sender_hw_addr: address(self.sender_hw_addr()),
            sender_protocol_addr: address(self.sender_protocol_addr()),
            target_hw_addr: address(self.target_hw_addr()),
            target_protocol_addr: address(self.target_protocol_addr()),
        };
        fields.serialize(serializer)
    }
}

impl<'de> Deserialize<'de> for ArpPacket {
    fn deserialize<D: Deserializer<'de>>(deserializer: D) -> Result<ArpPacket, D::Error> {
        let fields = Fields::deserialize(deserializer)?;
        let packet = ArpPacket::new(
            fields.hw_addr_type,
            fields.proto_addr_type,
            fields.operation,
            &fields.sender_hw_addr,
            &fields.sender_protocol_addr,
            &fields.target_hw_addr,
            &fields.target_protocol_addr,
        );
        packet.map_err(D::Error::custom)
    }
}

impl Serialize for LinuxNonstandardEtherType {
    fn serialize<S: Serializer>(&self, serializer: S) -> Result<S::Ok, S::Error> {
        u16::from(*self).serialize(serializer)
    }
}

impl<'de> Deserialize<'de> for LinuxNonstandardEtherType {
    fn deserialize<D: Deserializer<'de>>(deserializer: D) -> Result<Self, D::Error> {
        let refused = |()| D::Error::custom("no protocol of Linux that is not an ether type has this number");
        Self::try_from(u16::deserialize(deserializer)?).map_err(refused)
    }
}

#[cfg(feature = "switch")]
impl Serialize for crate::ether_switch::Vlan {
    fn serialize<S: Serializer>(&self, serializer: S) -> Result<S::Ok, S::Error> {
        self.id().serialize(serializer)
    }
}

#[cfg(feature = "switch")]
impl<'de> Deserialize<'de> for crate::ether_switch::Vlan {
    fn deserialize<D: Deserializer<'de>>(deserializer: D) -> Result<Self, D::Error> {
        Self::try_new(u16::deserialize(deserializer)?).map_err(D::Error::custom)
    }
}
