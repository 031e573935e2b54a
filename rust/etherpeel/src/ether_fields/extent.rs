//! How many bits of a header a field has.

/// How many bits of its header a field has.
#[derive(Clone, Copy, PartialEq, Eq, Hash, Debug)]
pub enum Extent {
    /// None: its value is computed from others, or from where the header is.
    Computed,
    /// This number, in each header.
    Bits(u8),
    /// Those of a hardware address of an ARP packet.
    HardwareAddress,
    /// Those of a protocol address of an ARP packet.
    ProtocolAddress,
    /// 64, if the SecTag has a secure channel identifier.
    SecureChannel,
    /// 16, if the ether type after the SecTag can be read.
    PayloadType,
    /// 32 bits that follow the payload, if the frame has a check sequence.
    CheckSequence,
}
