//! ARP packets that are not of Ethernet and IPv4.

use crate::ether_base::number_text::{ShownArpHardwareId, ShownEtherType};
use crate::ether_base::{ArpHardwareId, EtherType};
use core::error::Error;
use core::fmt;

/// Why an ARP packet is not one of Ethernet and IPv4. Each variant holds what the packet has instead.
///
/// ```
/// use etherpeel::err::arp::ArpEthIpv4FromError;
///
/// let error = ArpEthIpv4FromError::NonMatchingHwAddrSize(8);
/// assert_eq!(
///     format!("{error}").as_str(),
///     "Hardware address size is expected to be 6 but is 8"
/// );
/// ```
#[derive(Clone, Copy, PartialEq, Eq, Hash, Debug)]
pub enum ArpEthIpv4FromError {
    /// The hardware type is not Ethernet's, 1.
    NonMatchingHwType(ArpHardwareId),
    /// The protocol type is not IPv4's, 0x0800.
    NonMatchingProtocolType(EtherType),
    /// The size of a hardware address is not 6.
    NonMatchingHwAddrSize(u8),
    /// The size of a protocol address is not 4.
    NonMatchingProtoAddrSize(u8),
}

impl fmt::Display for ArpEthIpv4FromError {
    fn fmt(&self, f: &mut fmt::Formatter<'_>) -> fmt::Result {
        match self {
            ArpEthIpv4FromError::NonMatchingHwType(hw_type) => {
                let shown = ShownArpHardwareId(*hw_type);
                write!(
                    f,
                    "Hardware address type is expected to have the type '1 (Ethernet)' but is '{shown}'"
                )
            }
            ArpEthIpv4FromError::NonMatchingProtocolType(protocol_type) => {
                let shown = ShownEtherType(*protocol_type);
                write!(
                    f,
                    "Protocol address type is expected to have the type '0x0800 (Internet Protocol version 4 (IPv4))' but is '{shown}'"
                )
            }
            ArpEthIpv4FromError::NonMatchingHwAddrSize(size) => {
                write!(f, "Hardware address size is expected to be 6 but is {size}")
            }
            ArpEthIpv4FromError::NonMatchingProtoAddrSize(size) => {
                write!(f, "Protocol address size is expected to be 4 but is {size}")
            }
        }
    }
}

impl Error for ArpEthIpv4FromError {}
