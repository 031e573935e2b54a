//! Field values of Linux cooked capture v1 that are not supported.

use crate::ether_base::ArpHardwareId;
use crate::ether_base::number_text::ShownArpHardwareId;
use core::error::Error;
use core::fmt;

/// A field of a header of Linux cooked capture v1 has a value that is not supported.
///
/// ```
/// use etherpeel::LinuxSllPacketType;
/// use etherpeel::err::linux_sll::HeaderError;
///
/// let refused = HeaderError::UnsupportedPacketTypeField { packet_type: 8 };
/// assert_eq!(LinuxSllPacketType::try_from(8), Err(refused));
/// ```
#[cfg_attr(feature = "serde", derive(serde::Serialize, serde::Deserialize))]
#[derive(Clone, Copy, PartialEq, Eq, Hash, Debug)]
pub enum HeaderError {
    /// The packet type is above 7.
    UnsupportedPacketTypeField {
        /// The packet type of the header.
        packet_type: u16,
    },
    /// The hardware type is not one of `LinuxSllProtocolType::SUPPORTED_ARPHWD`, so the meaning of the protocol
    /// number is not known.
    UnsupportedArpHardwareId {
        /// The hardware type of the header.
        arp_hardware_type: ArpHardwareId,
    },
}

impl fmt::Display for HeaderError {
    fn fmt(&self, f: &mut fmt::Formatter<'_>) -> fmt::Result {
        match self {
            HeaderError::UnsupportedPacketTypeField { packet_type } => write!(
                f,
                "Linux cooked capture v1 (SLL) Header Error: Encountered '{packet_type}' as the packet type, but its not supported."
            ),
            HeaderError::UnsupportedArpHardwareId { arp_hardware_type } => {
                let shown = ShownArpHardwareId(*arp_hardware_type);
                write!(
                    f,
                    "Linux cooked capture v1 (SLL)  Header Error:  Encountered '{shown}' as the ARP harware type, but its not supported."
                )
            }
        }
    }
}

impl Error for HeaderError {}
