//! How a packet of a cooked capture was sent.

use crate::ether_base::err::linux_sll::HeaderError;
use core::fmt;

/// The packet type of Linux cooked capture v1, 0 to 7: who sent the packet, and to whom.
///
/// `Debug` shows the number, and its meaning in parentheses.
///
/// ```
/// use etherpeel::LinuxSllPacketType;
///
/// let read = LinuxSllPacketType::try_from(4);
/// assert_eq!(read, Ok(LinuxSllPacketType::OUTGOING));
/// assert!(LinuxSllPacketType::try_from(8).is_err());
/// ```
#[cfg_attr(feature = "serde", derive(serde::Serialize, serde::Deserialize), serde(try_from = "u16", into = "u16"))]
#[derive(Clone, Copy, PartialEq, Eq, Hash, Default)]
pub struct LinuxSllPacketType(u16);

impl LinuxSllPacketType {
    /// Sent to us.
    pub const HOST: LinuxSllPacketType = LinuxSllPacketType(0);

    /// Sent to all.
    pub const BROADCAST: LinuxSllPacketType = LinuxSllPacketType(1);

    /// Sent to a group.
    pub const MULTICAST: LinuxSllPacketType = LinuxSllPacketType(2);

    /// Sent to someone else.
    pub const OTHERHOST: LinuxSllPacketType = LinuxSllPacketType(3);

    /// Sent by us.
    pub const OUTGOING: LinuxSllPacketType = LinuxSllPacketType(4);

    /// A multicast or broadcast frame, looped back.
    pub const LOOPBACK: LinuxSllPacketType = LinuxSllPacketType(5);

    /// Sent to user space.
    pub const USER: LinuxSllPacketType = LinuxSllPacketType(6);

    /// Sent to kernel space.
    pub const KERNEL: LinuxSllPacketType = LinuxSllPacketType(7);

    /// The greatest packet type, 7.
    pub const MAX_VAL: u16 = 7;

    /// Returns what the number means. This is `Some` for each packet type.
    #[inline]
    fn description(self) -> Option<&'static str> {
        match self {
            LinuxSllPacketType::HOST => Some("Sent to us"),
            LinuxSllPacketType::BROADCAST => Some("Sent to all"),
            LinuxSllPacketType::MULTICAST => Some("Sent to group"),
            LinuxSllPacketType::OTHERHOST => Some("Sent to someone else"),
            LinuxSllPacketType::OUTGOING => Some("Sent by us"),
            LinuxSllPacketType::LOOPBACK => Some("MC/BRD frame looped back"),
            LinuxSllPacketType::USER => Some("Sent to user space"),
            LinuxSllPacketType::KERNEL => Some("Sent to kernel space"),
            _ => None,
        }
    }
}

impl TryFrom<u16> for LinuxSllPacketType {
    type Error = HeaderError;

    #[inline(always)]
    fn try_from(number: u16) -> Result<LinuxSllPacketType, HeaderError> {
        if number <= LinuxSllPacketType::MAX_VAL {
            Ok(LinuxSllPacketType(number))
        } else {
            Err(HeaderError::UnsupportedPacketTypeField {
                packet_type: number,
            })
        }
    }
}

impl From<LinuxSllPacketType> for u16 {
    #[inline]
    fn from(packet_type: LinuxSllPacketType) -> u16 {
        packet_type.0
    }
}

impl fmt::Debug for LinuxSllPacketType {
    fn fmt(&self, f: &mut fmt::Formatter<'_>) -> fmt::Result {
        let number = self.0;
        match self.description() {
            Some(description) => write!(f, "{number} ({description})"),
            None => write!(f, "{number}"),
        }
    }
}
