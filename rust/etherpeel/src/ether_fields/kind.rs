//! What the value of a field is.

/// What the value of a field is.
#[derive(Clone, Copy, PartialEq, Eq, Hash, Debug)]
pub enum Kind {
    /// A number.
    Number,
    /// A bit: 1 if it is set.
    Flag,
    /// Whether something holds.
    Truth,
    /// An ether type, or another protocol number in its place.
    EtherType,
    /// A hardware type of ARP.
    HardwareType,
    /// How a packet of cooked capture was sent.
    PacketType,
    /// An operation of ARP.
    Operation,
    /// A link type of captures.
    LinkType,
    /// Bytes, as those of an address.
    Bytes,
    /// The bytes of an address of the protocol of an ARP packet: of IPv4, or another one.
    ProtocolAddress,
    /// One of some words.
    Word,
    /// A time.
    Time,
}
