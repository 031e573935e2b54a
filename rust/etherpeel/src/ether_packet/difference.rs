//! How two headers differ in what they say about what follows them.

use core::fmt;

/// How a header differs, in what it says about what follows it, from the one that it is to replace. Of several
/// differences it is the first in this order.
///
/// ```
/// use etherpeel::ether_packet::Difference;
///
/// assert_eq!(
///     format!("{}", Difference::EtherType).as_str(),
///     "the ether type"
/// );
/// ```
#[derive(Clone, Copy, PartialEq, Eq, Hash, Debug)]
pub enum Difference {
    /// The kind: one header is a VLAN tag and the other a SecTag, or one is of Ethernet II and the other of cooked
    /// capture.
    Kind,
    /// The ether type of an Ethernet II header or VLAN tag.
    EtherType,
    /// The hardware type of a cooked capture header.
    HardwareType,
    /// The protocol type of a cooked capture header.
    ProtocolType,
    /// The payload type of a SecTag: its ether type, or whether the payload is encrypted or changed.
    PayloadType,
    /// The short length of a SecTag.
    ShortLen,
    /// Whether a SecTag has an SCI.
    Sci,
    /// The length of the hardware addresses of an ARP packet.
    HwAddrLen,
    /// The length of the protocol addresses of an ARP packet.
    ProtocolAddrLen,
}

impl fmt::Display for Difference {
    fn fmt(&self, f: &mut fmt::Formatter<'_>) -> fmt::Result {
        f.write_str(match self {
            Difference::Kind => "the kind",
            Difference::EtherType => "the ether type",
            Difference::HardwareType => "the hardware type",
            Difference::ProtocolType => "the protocol type",
            Difference::PayloadType => "the type of the payload",
            Difference::ShortLen => "the short length",
            Difference::Sci => "the SCI",
            Difference::HwAddrLen => "the length of the hardware addresses",
            Difference::ProtocolAddrLen => "the length of the protocol addresses",
        })
    }
}
