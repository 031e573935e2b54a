//! Ether types, which say what protocol follows a header. Some have a name, as a constant of this module and of
//! [`EtherType`].

use crate::ether_base::number_text::ShownEtherType;
use core::fmt;

/// Internet Protocol version 4.
pub const IPV4: EtherType = EtherType(0x0800);

/// Internet Protocol version 6.
pub const IPV6: EtherType = EtherType(0x86DD);

/// Address Resolution Protocol.
pub const ARP: EtherType = EtherType(0x0806);

/// Wake on LAN.
pub const WAKE_ON_LAN: EtherType = EtherType(0x0842);

/// A customer VLAN tag, C-TAG.
pub const VLAN_TAGGED_FRAME: EtherType = EtherType(0x8100);

/// A service VLAN tag, S-TAG.
pub const PROVIDER_BRIDGING: EtherType = EtherType(0x88A8);

/// A MACsec SecTag.
pub const MACSEC: EtherType = EtherType(0x88E5);

/// The older outer VLAN tag of QinQ.
pub const VLAN_DOUBLE_TAGGED_FRAME: EtherType = EtherType(0x9100);

/// An ether type (IEEE 802, 9.2): the 16 bits that name the protocol of what follows a header.
///
/// Any number is accepted. In IEEE 802.3 (3.2.6) ether types begin at 0x0600, and a number up to 1500 is a length;
/// here it is passed through unchanged. `Debug` shows `0x` and four upper-case hexadecimal digits, followed by the
/// description in parentheses if there is one.
///
/// ```
/// use etherpeel::EtherType;
///
/// assert_eq!(EtherType::from(0x0806), EtherType::ARP);
/// assert_eq!(
///     EtherType::ARP.name(),
///     Some("Address Resolution Protocol (ARP)")
/// );
/// assert_eq!(EtherType(1500).name(), None);
/// ```
#[cfg_attr(feature = "serde", derive(serde::Serialize, serde::Deserialize))]
#[derive(Clone, Copy, PartialEq, Eq, PartialOrd, Ord, Hash, Default)]
pub struct EtherType(pub u16);

/// The constants are also in the module [`crate::ether_base::ether_type`].
impl EtherType {
    /// Internet Protocol version 4 (RFC 894).
    pub const IPV4: EtherType = IPV4;

    /// Internet Protocol version 6 (RFC 2464).
    pub const IPV6: EtherType = IPV6;

    /// Address Resolution Protocol (RFC 826).
    pub const ARP: EtherType = ARP;

    /// Wake on LAN: a packet that wakes a sleeping computer.
    pub const WAKE_ON_LAN: EtherType = WAKE_ON_LAN;

    /// A customer VLAN tag, C-TAG (IEEE 802.1Q, table 9-1).
    pub const VLAN_TAGGED_FRAME: EtherType = VLAN_TAGGED_FRAME;

    /// A service VLAN tag, S-TAG, the outer tag of QinQ (IEEE 802.1Q, table 9-1).
    pub const PROVIDER_BRIDGING: EtherType = PROVIDER_BRIDGING;

    /// A MACsec SecTag (IEEE 802.1AE, 9.4).
    pub const MACSEC: EtherType = MACSEC;

    /// The outer VLAN tag of QinQ, as some devices sent it before service tags had a number.
    pub const VLAN_DOUBLE_TAGGED_FRAME: EtherType = VLAN_DOUBLE_TAGGED_FRAME;

    /// Returns the description of the ether type, or `None` if it is not one of the constants.
    ///
    /// <details><summary>Contract</summary>
    ///
    /// ```text
    /// ensures { option_copied result ≡ ether_type_description self.now.0 }
    /// ```
    ///
    /// Words: [`ether_type_description`](crate::definitions::ether_base#def.ether_type_description).
    /// [Notation](crate::definitions::notation)
    ///
    /// </details>
    #[must_use]
    #[inline]
    pub fn name(&self) -> Option<&'static str> {
        match *self {
            EtherType::IPV4 => Some("Internet Protocol version 4 (IPv4)"),
            EtherType::IPV6 => Some("Internet Protocol Version 6 (IPV6)"),
            EtherType::ARP => Some("Address Resolution Protocol (ARP)"),
            EtherType::WAKE_ON_LAN => Some("Wake on LAN"),
            EtherType::VLAN_TAGGED_FRAME => {
                Some("Customer VLAN Tag (C-TAG) as defined in IEEE Std 802.1Q")
            }
            EtherType::PROVIDER_BRIDGING => {
                Some("IEEE Std 802.1Q - Service VLAN tag identifier (S-Tag)")
            }
            EtherType::MACSEC => Some("IEEE Std 802.1AE - Media Access Control Security"),
            EtherType::VLAN_DOUBLE_TAGGED_FRAME => Some("VLAN Double Tagged Frame"),
            _ => None,
        }
    }

    /// Returns whether the ether type is 0x8100, 0x88A8 or 0x9100, so that a VLAN tag follows the header.
    ///
    /// ```
    /// use etherpeel::EtherType;
    ///
    /// assert!(EtherType::PROVIDER_BRIDGING.announces_vlan());
    /// assert!(!EtherType::MACSEC.announces_vlan());
    /// ```
    ///
    /// <details><summary>Contract</summary>
    ///
    /// ```text
    /// ensures { result ≡ is_vlan_ether_type self.0 }
    /// ```
    ///
    /// Words: [`is_vlan_ether_type`](crate::definitions::ether_base#def.is_vlan_ether_type).
    /// [Notation](crate::definitions::notation)
    ///
    /// </details>
    #[must_use]
    #[inline(always)]
    pub fn announces_vlan(self) -> bool {
        self == EtherType::VLAN_TAGGED_FRAME
            || self == EtherType::PROVIDER_BRIDGING
            || self == EtherType::VLAN_DOUBLE_TAGGED_FRAME
    }
}

impl From<u16> for EtherType {
    #[inline]
    fn from(number: u16) -> EtherType {
        EtherType(number)
    }
}

impl From<EtherType> for u16 {
    #[inline]
    fn from(ether_type: EtherType) -> u16 {
        ether_type.0
    }
}

impl fmt::Debug for EtherType {
    fn fmt(&self, f: &mut fmt::Formatter<'_>) -> fmt::Result {
        fmt::Display::fmt(&ShownEtherType(*self), f)
    }
}
