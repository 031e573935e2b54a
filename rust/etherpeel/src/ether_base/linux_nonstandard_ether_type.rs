//! Protocols that Linux numbers below the ether types.

use crate::ether_base::number_text::HexNumber;
use core::fmt;

/// A number below 0x0600 that Linux gives to a protocol without an ether type, one of 28 (`ETH_P_` in its
/// `if_ether.h`).
///
/// `Debug` shows `0x` and four upper-case digits, and the description in parentheses.
///
/// ```
/// use etherpeel::LinuxNonstandardEtherType;
///
/// let read = LinuxNonstandardEtherType::try_from(0x0C);
/// assert_eq!(read, Ok(LinuxNonstandardEtherType::CAN));
/// assert_eq!(LinuxNonstandardEtherType::try_from(0x0800), Err(()));
/// ```
#[derive(Clone, Copy, PartialEq, Eq, PartialOrd, Ord, Hash)]
pub struct LinuxNonstandardEtherType(u16);

impl LinuxNonstandardEtherType {
    /// Dummy type for 802.3 frames.
    pub const N802_3: LinuxNonstandardEtherType = LinuxNonstandardEtherType(0x01);

    /// Dummy protocol id for AX.25.
    pub const AX25: LinuxNonstandardEtherType = LinuxNonstandardEtherType(0x02);

    /// Every packet.
    pub const ALL: LinuxNonstandardEtherType = LinuxNonstandardEtherType(0x03);

    /// 802.2 frames.
    pub const N802_2: LinuxNonstandardEtherType = LinuxNonstandardEtherType(0x04);

    /// SNAP: Internal only.
    pub const SNAP: LinuxNonstandardEtherType = LinuxNonstandardEtherType(0x05);

    /// DEC DDCMP: Internal only.
    pub const DDCMP: LinuxNonstandardEtherType = LinuxNonstandardEtherType(0x06);

    /// Dummy type for WAN PPP frames.
    pub const WAN_PPP: LinuxNonstandardEtherType = LinuxNonstandardEtherType(0x07);

    /// Dummy type for PPP MP frames.
    pub const PPP_MP: LinuxNonstandardEtherType = LinuxNonstandardEtherType(0x08);

    /// Localtalk pseudo type.
    pub const LOCALTALK: LinuxNonstandardEtherType = LinuxNonstandardEtherType(0x09);

    /// CAN: Controller Area Network.
    pub const CAN: LinuxNonstandardEtherType = LinuxNonstandardEtherType(0x0C);

    /// CANFD: CAN flexible data rate.
    pub const CANFD: LinuxNonstandardEtherType = LinuxNonstandardEtherType(0x0D);

    /// CANXL: eXtended frame Length.
    pub const CANXL: LinuxNonstandardEtherType = LinuxNonstandardEtherType(0x0E);

    /// Dummy type for Atalk over PPP.
    pub const PPPTALK: LinuxNonstandardEtherType = LinuxNonstandardEtherType(0x10);

    /// 802.2 frames on token ring.
    pub const TR_802_2: LinuxNonstandardEtherType = LinuxNonstandardEtherType(0x11);

    /// Mobitex.
    pub const MOBITEX: LinuxNonstandardEtherType = LinuxNonstandardEtherType(0x15);

    /// Card specific control frames.
    pub const CONTROL: LinuxNonstandardEtherType = LinuxNonstandardEtherType(0x16);

    /// Linux-IrDA.
    pub const IRDA: LinuxNonstandardEtherType = LinuxNonstandardEtherType(0x17);

    /// Acorn Econet.
    pub const ECONET: LinuxNonstandardEtherType = LinuxNonstandardEtherType(0x18);

    /// HDLC frames.
    pub const HDLC: LinuxNonstandardEtherType = LinuxNonstandardEtherType(0x19);

    /// ARCnet.
    pub const ARCNET: LinuxNonstandardEtherType = LinuxNonstandardEtherType(0x1A);

    /// Distributed Switch Arch.
    pub const DSA: LinuxNonstandardEtherType = LinuxNonstandardEtherType(0x1B);

    /// Trailer switch tagging.
    pub const TRAILER: LinuxNonstandardEtherType = LinuxNonstandardEtherType(0x1C);

    /// Nokia Phonet frame.
    pub const PHONET: LinuxNonstandardEtherType = LinuxNonstandardEtherType(0xF5);

    /// IEEE802.15.4 frame.
    pub const IEEE802154: LinuxNonstandardEtherType = LinuxNonstandardEtherType(0xF6);

    /// ST-Ericsson CAIF protocol.
    pub const CAIF: LinuxNonstandardEtherType = LinuxNonstandardEtherType(0xF7);

    /// Multiplexed DSA protocol.
    pub const XDSA: LinuxNonstandardEtherType = LinuxNonstandardEtherType(0xF8);

    /// Qualcomm multiplexing and aggregation protocol.
    pub const MAP: LinuxNonstandardEtherType = LinuxNonstandardEtherType(0xF9);

    /// Management component transport protocol packets.
    pub const MCTP: LinuxNonstandardEtherType = LinuxNonstandardEtherType(0xFA);
}

impl Default for LinuxNonstandardEtherType {
    #[inline]
    fn default() -> LinuxNonstandardEtherType {
        LinuxNonstandardEtherType::N802_3
    }
}

impl TryFrom<u16> for LinuxNonstandardEtherType {
    type Error = ();

    #[inline(always)]
    fn try_from(number: u16) -> Result<LinuxNonstandardEtherType, ()> {
        match description_of(number) {
            Some(_) => Ok(LinuxNonstandardEtherType(number)),
            None => Err(()),
        }
    }
}

impl From<LinuxNonstandardEtherType> for u16 {
    #[inline]
    fn from(ether_type: LinuxNonstandardEtherType) -> u16 {
        ether_type.0
    }
}

impl fmt::Debug for LinuxNonstandardEtherType {
    fn fmt(&self, f: &mut fmt::Formatter<'_>) -> fmt::Result {
        let digits = HexNumber(self.0);
        match description_of(self.0) {
            Some(description) => write!(f, "{digits} ({description})"),
            None => write!(f, "{digits}"),
        }
    }
}

/// The description of a number, if it is one of the 28.
#[inline]
fn description_of(number: u16) -> Option<&'static str> {
    match number {
        0x01 => Some("Dummy type for 802.3 frames"),
        0x02 => Some("Dummy protocol id for AX.25"),
        0x03 => Some("Every packet"),
        0x04 => Some("802.2 frames"),
        0x05 => Some("SNAP: Internal only"),
        0x06 => Some("DEC DDCMP: Internal only"),
        0x07 => Some("Dummy type for WAN PPP frames"),
        0x08 => Some("Dummy type for PPP MP frames"),
        0x09 => Some("Localtalk pseudo type"),
        0x0C => Some("CAN: Controller Area Network"),
        0x0D => Some("CANFD: CAN flexible data rate"),
        0x0E => Some("CANXL: eXtended frame Length"),
        0x10 => Some("Dummy type for Atalk over PPP"),
        0x11 => Some("802.2 frames"),
        0x15 => Some("Mobitex"),
        0x16 => Some("Card specific control frames"),
        0x17 => Some("Linux-IrDA"),
        0x18 => Some("Acorn Econet"),
        0x19 => Some("HDLC frames"),
        0x1A => Some("1A for ArcNet"),
        0x1B => Some("Distributed Switch Arch"),
        0x1C => Some("Trailer switch tagging"),
        0xF5 => Some("Nokia Phonet frame"),
        0xF6 => Some("IEEE802.15.4 frame"),
        0xF7 => Some("ST-Ericsson CAIF protocol"),
        0xF8 => Some("Multiplexed DSA protocol"),
        0xF9 => Some("Qualcomm multiplexing and aggregation protocol"),
        0xFA => Some("Management component transport protocol packets"),
        _ => None,
    }
}
