//! The protocol that a packet of a cooked capture carries.

use crate::ether_base::err::linux_sll::HeaderError;
use crate::ether_base::{ArpHardwareId, EtherType, LinuxNonstandardEtherType};

/// The protocol type of Linux cooked capture v1: a number whose meaning depends on the hardware type of the link.
///
/// ```
/// use etherpeel::{ArpHardwareId, EtherType, LinuxSllProtocolType};
///
/// let read = LinuxSllProtocolType::try_from((ArpHardwareId::ETHERNET, 0x0800));
/// assert_eq!(read, Ok(LinuxSllProtocolType::EtherType(EtherType::IPV4)));
/// assert!(LinuxSllProtocolType::try_from((ArpHardwareId::SLIP, 0x0800)).is_err());
/// ```
#[cfg_attr(feature = "serde", derive(serde::Serialize, serde::Deserialize))]
#[derive(Clone, Copy, PartialEq, Eq, PartialOrd, Ord, Hash, Debug)]
pub enum LinuxSllProtocolType {
    /// A number without a meaning (IEEE 802.11 with radiotap, frame relay).
    Ignored(u16),
    /// A netlink protocol.
    NetlinkProtocolType(u16),
    /// A protocol of generic routing encapsulation (GRE), numbered as ether types are.
    GenericRoutingEncapsulationProtocolType(u16),
    /// An ether type.
    EtherType(EtherType),
    /// A protocol that Linux numbers below the ether types.
    LinuxNonstandardEtherType(LinuxNonstandardEtherType),
}

/// The number of supported hardware types.
const SUPPORTED: usize = 5;

impl LinuxSllProtocolType {
    /// The hardware types whose protocol numbers can be read. A cooked capture v1 header with another one is refused.
    pub const SUPPORTED_ARPHWD: [ArpHardwareId; SUPPORTED] = [
        ArpHardwareId::NETLINK,
        ArpHardwareId::IPGRE,
        ArpHardwareId::IEEE80211_RADIOTAP,
        ArpHardwareId::FRAD,
        ArpHardwareId::ETHERNET,
    ];

    /// Replaces the number by `value`. The variant is unchanged, except that `value` decides anew between `EtherType`
    /// and `LinuxNonstandardEtherType`, the two variants of Ethernet.
    ///
    /// <details><summary>Contract</summary>
    ///
    /// ```text
    /// ensures { self.new ≡ with_number self.old value }
    /// ```
    ///
    /// Words: [`with_number`](crate::definitions::ether_base#def.with_number).
    /// [Notation](crate::definitions::notation)
    ///
    /// </details>
    #[inline]
    pub fn change_value(&mut self, value: u16) {
        *self = match *self {
            LinuxSllProtocolType::Ignored(_) => LinuxSllProtocolType::Ignored(value),
            LinuxSllProtocolType::NetlinkProtocolType(_) => {
                LinuxSllProtocolType::NetlinkProtocolType(value)
            }
            LinuxSllProtocolType::GenericRoutingEncapsulationProtocolType(_) => {
                LinuxSllProtocolType::GenericRoutingEncapsulationProtocolType(value)
            }
            LinuxSllProtocolType::EtherType(_)
            | LinuxSllProtocolType::LinuxNonstandardEtherType(_) => on_ethernet(value),
        };
    }
}

/// The hardware type of a link, and a protocol number there.
type NumberOnLink = (ArpHardwareId, u16);

impl TryFrom<NumberOnLink> for LinuxSllProtocolType {
    type Error = HeaderError;

    #[inline(always)]
    fn try_from(pair: NumberOnLink) -> Result<LinuxSllProtocolType, HeaderError> {
        let (hardware, number) = pair;
        match hardware {
            ArpHardwareId::NETLINK => Ok(LinuxSllProtocolType::NetlinkProtocolType(number)),
            ArpHardwareId::IPGRE => Ok(
                LinuxSllProtocolType::GenericRoutingEncapsulationProtocolType(number),
            ),
            ArpHardwareId::IEEE80211_RADIOTAP => Ok(LinuxSllProtocolType::Ignored(number)),
            ArpHardwareId::FRAD => Ok(LinuxSllProtocolType::Ignored(number)),
            ArpHardwareId::ETHERNET => Ok(on_ethernet(number)),
            arp_hardware_type => Err(HeaderError::UnsupportedArpHardwareId { arp_hardware_type }),
        }
    }
}

impl From<LinuxSllProtocolType> for u16 {
    #[inline]
    fn from(protocol_type: LinuxSllProtocolType) -> u16 {
        match protocol_type {
            LinuxSllProtocolType::Ignored(number)
            | LinuxSllProtocolType::NetlinkProtocolType(number)
            | LinuxSllProtocolType::GenericRoutingEncapsulationProtocolType(number) => number,
            LinuxSllProtocolType::EtherType(ether_type) => ether_type.0,
            LinuxSllProtocolType::LinuxNonstandardEtherType(ether_type) => u16::from(ether_type),
        }
    }
}

/// Returns what a protocol number means on Ethernet: one that Linux numbers below the ether types, or an ether type.
#[inline(always)]
fn on_ethernet(number: u16) -> LinuxSllProtocolType {
    match LinuxNonstandardEtherType::try_from(number) {
        Ok(ether_type) => LinuxSllProtocolType::LinuxNonstandardEtherType(ether_type),
        Err(()) => LinuxSllProtocolType::EtherType(EtherType(number)),
    }
}
