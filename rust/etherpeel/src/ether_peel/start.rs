//! What a frame begins with.
use crate::EtherType;

/// What a frame begins with.
#[cfg_attr(feature = "serde", derive(serde::Serialize, serde::Deserialize))]
#[derive(Clone, Copy, PartialEq, Eq, Hash, Debug)]
pub enum Start {
    /// An Ethernet II header, of a frame without a frame check sequence.
    Ethernet2,
    /// An Ethernet II header, of a frame with a frame check sequence in its last 4 bytes.
    Ethernet2Fcs,
    /// A header of Linux cooked capture v1.
    LinuxSll,
    /// What an ether type announces: a VLAN tag, a MACsec SecTag, an ARP packet, or a payload that is not read
    /// further.
    EtherType(EtherType),
}
