//! What the bytes that are left of a frame are announced as.
use crate::{EtherType, LinuxSllProtocolType};

/// What the bytes that are left of a frame are announced as.
#[cfg_attr(feature = "serde", derive(serde::Serialize, serde::Deserialize))]
#[derive(Clone, Copy, PartialEq, Eq, Hash, Debug)]
pub enum RestKind {
    /// The header that the frame begins with, which is not read yet.
    Start,
    /// A protocol, by an ether type.
    EtherType(EtherType),
    /// A protocol of a cooked capture that has no ether type.
    Sll(LinuxSllProtocolType),
    /// A payload that MACsec has encrypted or changed, so that its protocol is not known.
    Sealed,
    /// What follows an ARP packet: the padding of a short frame.
    AfterArp,
}
