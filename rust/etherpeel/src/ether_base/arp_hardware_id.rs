//! The hardware types of ARP and of Linux cooked capture.

use crate::ether_base::number_text::ShownArpHardwareId;
use core::fmt;

/// A hardware type: 16 bits that say what kind of link a packet was sent on (RFC 826, and the `ARPHRD_` numbers of
/// Linux).
///
/// Any number is accepted; those with a description are constants. `Debug` shows a constant as decimal digits, `VOID`
/// and `NONE` as hexadecimal digits, followed by the description in parentheses. It shows any other number as `0x` and
/// four upper-case hexadecimal digits.
///
/// ```
/// use etherpeel::ArpHardwareId;
///
/// assert_eq!(ArpHardwareId::from(1), ArpHardwareId::ETHERNET);
/// assert_eq!(ArpHardwareId::ETHERNET.name(), Some("Ethernet"));
/// assert_eq!(ArpHardwareId(39).name(), None);
/// ```
#[cfg_attr(feature = "serde", derive(serde::Serialize, serde::Deserialize))]
#[derive(Clone, Copy, PartialEq, Eq, PartialOrd, Ord, Hash, Default)]
pub struct ArpHardwareId(pub u16);

impl ArpHardwareId {
    /// NET/ROM pseudo, from KA9Q.
    pub const NETROM: ArpHardwareId = ArpHardwareId(0);

    /// Ethernet.
    pub const ETHERNET: ArpHardwareId = ArpHardwareId(1);

    /// [`ArpHardwareId::ETHERNET`] by another name.
    pub const ETHER: ArpHardwareId = ArpHardwareId::ETHERNET;

    /// Experimental Ethernet.
    pub const EETHER: ArpHardwareId = ArpHardwareId(2);

    /// AX.25 Level 2.
    pub const AX25: ArpHardwareId = ArpHardwareId(3);

    /// PROnet token ring.
    pub const PRONET: ArpHardwareId = ArpHardwareId(4);

    /// Chaosnet.
    pub const CHAOS: ArpHardwareId = ArpHardwareId(5);

    /// IEEE 802.2 Ethernet/TR/TB.
    pub const IEEE802: ArpHardwareId = ArpHardwareId(6);

    /// ARCnet.
    pub const ARCNET: ArpHardwareId = ArpHardwareId(7);

    /// APPLEtalk or Hyperchannel.
    pub const HYPERCHANNEL: ArpHardwareId = ArpHardwareId(8);

    /// [`ArpHardwareId::HYPERCHANNEL`] by another name.
    pub const APPLETLK: ArpHardwareId = ArpHardwareId::HYPERCHANNEL;

    /// Lanstar.
    pub const LANSTAR: ArpHardwareId = ArpHardwareId(9);

    /// Autonet Short Address.
    pub const AUTONET_SHORT_ADDRESS: ArpHardwareId = ArpHardwareId(10);

    /// LocalTalk.
    pub const LOCAL_TALK: ArpHardwareId = ArpHardwareId(11);

    /// LocalNet.
    pub const LOCAL_NET: ArpHardwareId = ArpHardwareId(12);

    /// Ultra link.
    pub const ULTRA_LINK: ArpHardwareId = ArpHardwareId(13);

    /// SMDS.
    pub const SMDS: ArpHardwareId = ArpHardwareId(14);

    /// Frame Relay DLCI.
    pub const DLCI: ArpHardwareId = ArpHardwareId(15);

    /// [`ArpHardwareId::DLCI`] by another name.
    pub const FRAME_RELAY: ArpHardwareId = ArpHardwareId::DLCI;

    /// Asynchronous Transmission Mode (ATM) JXB2.
    pub const ATM_JXB2: ArpHardwareId = ArpHardwareId(16);

    /// HDLC.
    pub const HDLC: ArpHardwareId = ArpHardwareId(17);

    /// Fibre Channel.
    pub const FIBRE_CHANNEL: ArpHardwareId = ArpHardwareId(18);

    /// ATM.
    pub const ATM: ArpHardwareId = ArpHardwareId(19);

    /// Serial Line.
    pub const SERIAL_LINE: ArpHardwareId = ArpHardwareId(20);

    /// Asynchronous Transmission Mode (ATM).
    pub const ATM_21: ArpHardwareId = ArpHardwareId(21);

    /// MIL-STD-188-220.
    pub const MIL_STD_188_220: ArpHardwareId = ArpHardwareId(22);

    /// Metricom STRIP (new IANA id).
    pub const METRICOM: ArpHardwareId = ArpHardwareId(23);

    /// IEEE 1394 IPv4 - RFC 2734.
    pub const IEEE1394: ArpHardwareId = ArpHardwareId(24);

    /// MAPOS.
    pub const MAPOS: ArpHardwareId = ArpHardwareId(25);

    /// Twinaxial.
    pub const TWINAXIAL: ArpHardwareId = ArpHardwareId(26);

    /// EUI-64.
    pub const EUI64: ArpHardwareId = ArpHardwareId(27);

    /// HIPARP.
    pub const HIPARP: ArpHardwareId = ArpHardwareId(28);

    /// IP and ARP over ISO 7816-3.
    pub const IP_AND_ARP_OVER_ISO_7816_3: ArpHardwareId = ArpHardwareId(29);

    /// ARPSec.
    pub const ARPSEC: ArpHardwareId = ArpHardwareId(30);

    /// IPsec tunnel.
    pub const IPSEC_TUNNEL: ArpHardwareId = ArpHardwareId(31);

    /// InfiniBand.
    pub const INFINIBAND: ArpHardwareId = ArpHardwareId(32);

    /// TIA-102 Project 25 Common Air Interface (CAI).
    pub const CAI: ArpHardwareId = ArpHardwareId(33);

    /// Wiegand Interface.
    pub const WIEGAND_INTERFACE: ArpHardwareId = ArpHardwareId(34);

    /// Pure IP.
    pub const PURE_IP: ArpHardwareId = ArpHardwareId(35);

    /// HW_EXP1.
    pub const HW_EXP1: ArpHardwareId = ArpHardwareId(36);

    /// HFI.
    pub const HFI: ArpHardwareId = ArpHardwareId(37);

    /// Unified Bus (UB).
    pub const UNIFIED_BUS: ArpHardwareId = ArpHardwareId(38);

    /// SLIP.
    pub const SLIP: ArpHardwareId = ArpHardwareId(256);

    /// CSLIP.
    pub const CSLIP: ArpHardwareId = ArpHardwareId(257);

    /// SLIP6.
    pub const SLIP6: ArpHardwareId = ArpHardwareId(258);

    /// CSLIP6.
    pub const CSLIP6: ArpHardwareId = ArpHardwareId(259);

    /// Notional KISS type.
    pub const RSRVD: ArpHardwareId = ArpHardwareId(260);

    /// ADAPT.
    pub const ADAPT: ArpHardwareId = ArpHardwareId(264);

    /// ROSE.
    pub const ROSE: ArpHardwareId = ArpHardwareId(270);

    /// CCITT X.25.
    pub const X25: ArpHardwareId = ArpHardwareId(271);

    /// Boards with X.25 in firmware.
    pub const HWX25: ArpHardwareId = ArpHardwareId(272);

    /// Controller Area Network.
    pub const CAN: ArpHardwareId = ArpHardwareId(280);

    /// PPP.
    pub const PPP: ArpHardwareId = ArpHardwareId(512);

    /// Cisco HDLC.
    pub const CISCO_HDLC: ArpHardwareId = ArpHardwareId(513);

    /// LAPB.
    pub const LAPB: ArpHardwareId = ArpHardwareId(516);

    /// Digital's DDCMP protocol.
    pub const DDCMP: ArpHardwareId = ArpHardwareId(517);

    /// Raw HDLC.
    pub const RAWHDLC: ArpHardwareId = ArpHardwareId(518);

    /// Raw IP.
    pub const RAWIP: ArpHardwareId = ArpHardwareId(519);

    /// IPIP tunnel.
    pub const TUNNEL: ArpHardwareId = ArpHardwareId(768);

    /// IP6IP6 tunnel.
    pub const TUNNEL6: ArpHardwareId = ArpHardwareId(769);

    /// Frame Relay Access Device.
    pub const FRAD: ArpHardwareId = ArpHardwareId(770);

    /// SKIP vif.
    pub const SKIP: ArpHardwareId = ArpHardwareId(771);

    /// Loopback device.
    pub const LOOPBACK: ArpHardwareId = ArpHardwareId(772);

    /// Localtalk device.
    pub const LOCALTLK: ArpHardwareId = ArpHardwareId(773);

    /// Fiber Distributed Data Interface.
    pub const FDDI: ArpHardwareId = ArpHardwareId(774);

    /// AP1000 BIF.
    pub const BIF: ArpHardwareId = ArpHardwareId(775);

    /// sit0 device - IPv6-in-IPv4.
    pub const SIT: ArpHardwareId = ArpHardwareId(776);

    /// IP over DDP tunneller.
    pub const IPDDP: ArpHardwareId = ArpHardwareId(777);

    /// GRE over IP.
    pub const IPGRE: ArpHardwareId = ArpHardwareId(778);

    /// PIMSM register interface.
    pub const PIMREG: ArpHardwareId = ArpHardwareId(779);

    /// High Performance Parallel Interface.
    pub const HIPPI: ArpHardwareId = ArpHardwareId(780);

    /// Nexus 64Mbps Ash.
    pub const ASH: ArpHardwareId = ArpHardwareId(781);

    /// Acorn Econet.
    pub const ECONET: ArpHardwareId = ArpHardwareId(782);

    /// Linux-IrDA.
    pub const IRDA: ArpHardwareId = ArpHardwareId(783);

    /// Point to point fibrechannel.
    pub const FCPP: ArpHardwareId = ArpHardwareId(784);

    /// Fibrechannel arbitrated loop.
    pub const FCAL: ArpHardwareId = ArpHardwareId(785);

    /// Fibrechannel public loop.
    pub const FCPL: ArpHardwareId = ArpHardwareId(786);

    /// Fibrechannel fabric.
    pub const FCFABRIC: ArpHardwareId = ArpHardwareId(787);

    /// Magic type ident for TR.
    pub const IEEE802_TR: ArpHardwareId = ArpHardwareId(800);

    /// IEEE 802.11.
    pub const IEEE80211: ArpHardwareId = ArpHardwareId(801);

    /// IEEE 802.11 + Prism2 header.
    pub const IEEE80211_PRISM: ArpHardwareId = ArpHardwareId(802);

    /// IEEE 802.11 + radiotap header.
    pub const IEEE80211_RADIOTAP: ArpHardwareId = ArpHardwareId(803);

    /// IEEE 802.15.4.
    pub const IEEE802154: ArpHardwareId = ArpHardwareId(804);

    /// IEEE 802.15.4 network monitor.
    pub const IEEE802154_MONITOR: ArpHardwareId = ArpHardwareId(805);

    /// PhoNet media type.
    pub const PHONET: ArpHardwareId = ArpHardwareId(820);

    /// PhoNet pipe header.
    pub const PHONET_PIPE: ArpHardwareId = ArpHardwareId(821);

    /// CAIF media type.
    pub const CAIF: ArpHardwareId = ArpHardwareId(822);

    /// GRE over IPv6.
    pub const IP6GRE: ArpHardwareId = ArpHardwareId(823);

    /// Netlink header.
    pub const NETLINK: ArpHardwareId = ArpHardwareId(824);

    /// IPv6 over LoWPAN.
    pub const IPV6LOWPAN: ArpHardwareId = ArpHardwareId(825);

    /// Vsock monitor header.
    pub const VSOCKMON: ArpHardwareId = ArpHardwareId(826);

    /// Void type, nothing is known.
    pub const VOID: ArpHardwareId = ArpHardwareId(65535);

    /// Zero header length.
    pub const NONE: ArpHardwareId = ArpHardwareId(65534);

    /// Returns the description of the hardware type, or `None` if it is not one of the constants.
    ///
    /// <details><summary>Contract</summary>
    ///
    /// ```text
    /// ensures { option_copied result ≡ arp_hardware_description self.now.0 }
    /// ```
    ///
    /// Words: [`arp_hardware_description`](crate::definitions::ether_base#def.arp_hardware_description).
    /// [Notation](crate::definitions::notation)
    ///
    /// </details>
    #[must_use]
    #[inline]
    pub fn name(&self) -> Option<&'static str> {
        self.assigned_name()
            .or(self.link_name())
            .or(self.device_name())
    }

    /// The description of a hardware type that ARP has a number for.
    #[inline]
    fn assigned_name(self) -> Option<&'static str> {
        match self {
            ArpHardwareId::NETROM => Some("from KA9Q: NET/ROM pseudo"),
            ArpHardwareId::ETHERNET => Some("Ethernet"),
            ArpHardwareId::EETHER => Some("Experimental Ethernet"),
            ArpHardwareId::AX25 => Some("AX.25 Level 2"),
            ArpHardwareId::PRONET => Some("PROnet token ring"),
            ArpHardwareId::CHAOS => Some("Chaosnet"),
            ArpHardwareId::IEEE802 => Some("IEEE 802.2 Ethernet/TR/TB"),
            ArpHardwareId::ARCNET => Some("ARCnet"),
            ArpHardwareId::HYPERCHANNEL => Some("APPLEtalk or Hyperchannel"),
            ArpHardwareId::LANSTAR => Some("Lanstar"),
            ArpHardwareId::AUTONET_SHORT_ADDRESS => Some("Autonet Short Address"),
            ArpHardwareId::LOCAL_TALK => Some("LocalTalk"),
            ArpHardwareId::LOCAL_NET => Some("LocalNet"),
            ArpHardwareId::ULTRA_LINK => Some("Ultra link"),
            ArpHardwareId::SMDS => Some("SMDS"),
            ArpHardwareId::DLCI => Some("Frame Relay DLCI"),
            ArpHardwareId::ATM_JXB2 => Some("Asynchronous Transmission Mode (ATM) JXB2"),
            ArpHardwareId::HDLC => Some("HDLC"),
            ArpHardwareId::FIBRE_CHANNEL => Some("Fibre Channel"),
            ArpHardwareId::ATM => Some("ATM"),
            ArpHardwareId::SERIAL_LINE => Some("Serial Line"),
            ArpHardwareId::ATM_21 => Some("Asynchronous Transmission Mode (ATM)"),
            ArpHardwareId::MIL_STD_188_220 => Some("MIL-STD-188-220"),
            ArpHardwareId::METRICOM => Some("Metricom STRIP (new IANA id)"),
            ArpHardwareId::IEEE1394 => Some("IEEE 1394 IPv4 - RFC 2734"),
            ArpHardwareId::MAPOS => Some("MAPOS"),
            ArpHardwareId::TWINAXIAL => Some("Twinaxial"),
            ArpHardwareId::EUI64 => Some("EUI-64"),
            ArpHardwareId::HIPARP => Some("HIPARP"),
            ArpHardwareId::IP_AND_ARP_OVER_ISO_7816_3 => Some("IP and ARP over ISO 7816-3"),
            ArpHardwareId::ARPSEC => Some("ARPSec"),
            ArpHardwareId::IPSEC_TUNNEL => Some("IPsec tunnel"),
            ArpHardwareId::INFINIBAND => Some("InfiniBand"),
            ArpHardwareId::CAI => Some("TIA-102 Project 25 Common Air Interface (CAI)"),
            ArpHardwareId::WIEGAND_INTERFACE => Some("Wiegand Interface"),
            ArpHardwareId::PURE_IP => Some("Pure IP"),
            ArpHardwareId::HW_EXP1 => Some("HW_EXP1"),
            ArpHardwareId::HFI => Some("HFI"),
            ArpHardwareId::UNIFIED_BUS => Some("Unified Bus (UB)"),
            _ => None,
        }
    }

    /// The description of a link type that Linux numbers from 256 on.
    #[inline]
    fn link_name(self) -> Option<&'static str> {
        match self {
            ArpHardwareId::SLIP => Some("SLIP"),
            ArpHardwareId::CSLIP => Some("CSLIP"),
            ArpHardwareId::SLIP6 => Some("SLIP6"),
            ArpHardwareId::CSLIP6 => Some("CSLIP6"),
            ArpHardwareId::RSRVD => Some("Notional KISS type"),
            ArpHardwareId::ADAPT => Some("ADAPT"),
            ArpHardwareId::ROSE => Some("ROSE"),
            ArpHardwareId::X25 => Some("CCITT X.25"),
            ArpHardwareId::HWX25 => Some("Boards with X.25 in firmware"),
            ArpHardwareId::CAN => Some("Controller Area Network"),
            ArpHardwareId::PPP => Some("PPP"),
            ArpHardwareId::CISCO_HDLC => Some("Cisco HDLC"),
            ArpHardwareId::LAPB => Some("LAPB"),
            ArpHardwareId::DDCMP => Some("Digital's DDCMP protocol"),
            ArpHardwareId::RAWHDLC => Some("Raw HDLC"),
            ArpHardwareId::RAWIP => Some("Raw IP"),
            _ => None,
        }
    }

    /// The description of a device that Linux numbers from 768 on.
    #[inline]
    fn device_name(self) -> Option<&'static str> {
        match self {
            ArpHardwareId::TUNNEL => Some("IPIP tunnel"),
            ArpHardwareId::TUNNEL6 => Some("IP6IP6 tunnel"),
            ArpHardwareId::FRAD => Some("Frame Relay Access Device"),
            ArpHardwareId::SKIP => Some("SKIP vif"),
            ArpHardwareId::LOOPBACK => Some("Loopback device"),
            ArpHardwareId::LOCALTLK => Some("Localtalk device"),
            ArpHardwareId::FDDI => Some("Fiber Distributed Data Interface"),
            ArpHardwareId::BIF => Some("AP1000 BIF"),
            ArpHardwareId::SIT => Some("sit0 device - IPv6-in-IPv4"),
            ArpHardwareId::IPDDP => Some("IP over DDP tunneller"),
            ArpHardwareId::IPGRE => Some("GRE over IP"),
            ArpHardwareId::PIMREG => Some("PIMSM register interface"),
            ArpHardwareId::HIPPI => Some("High Performance Parallel Interface"),
            ArpHardwareId::ASH => Some("Nexus 64Mbps Ash"),
            ArpHardwareId::ECONET => Some("Acorn Econet"),
            ArpHardwareId::IRDA => Some("Linux-IrDA"),
            ArpHardwareId::FCPP => Some("Point to point fibrechannel"),
            ArpHardwareId::FCAL => Some("Fibrechannel arbitrated loop"),
            ArpHardwareId::FCPL => Some("Fibrechannel public loop"),
            ArpHardwareId::FCFABRIC => Some("Fibrechannel fabric"),
            ArpHardwareId::IEEE802_TR => Some("Magic type ident for TR"),
            ArpHardwareId::IEEE80211 => Some("IEEE 802.11"),
            ArpHardwareId::IEEE80211_PRISM => Some("IEEE 802.11 + Prism2 header"),
            ArpHardwareId::IEEE80211_RADIOTAP => Some("IEEE 802.11 + radiotap header"),
            ArpHardwareId::IEEE802154 => Some("IEEE 802.15.4"),
            ArpHardwareId::IEEE802154_MONITOR => Some("IEEE 802.15.4 network monitor"),
            ArpHardwareId::PHONET => Some("PhoNet media type"),
            ArpHardwareId::PHONET_PIPE => Some("PhoNet pipe header"),
            ArpHardwareId::CAIF => Some("CAIF media type"),
            ArpHardwareId::IP6GRE => Some("GRE over IPv6"),
            ArpHardwareId::NETLINK => Some("Netlink header"),
            ArpHardwareId::IPV6LOWPAN => Some("IPv6 over LoWPAN"),
            ArpHardwareId::VSOCKMON => Some("Vsock monitor header"),
            ArpHardwareId::VOID => Some("Void type, nothing is known"),
            ArpHardwareId::NONE => Some("zero header length"),
            _ => None,
        }
    }
}

impl From<u16> for ArpHardwareId {
    #[inline]
    fn from(number: u16) -> ArpHardwareId {
        ArpHardwareId(number)
    }
}

impl From<ArpHardwareId> for u16 {
    #[inline]
    fn from(id: ArpHardwareId) -> u16 {
        id.0
    }
}

impl fmt::Debug for ArpHardwareId {
    fn fmt(&self, f: &mut fmt::Formatter<'_>) -> fmt::Result {
        fmt::Display::fmt(&ShownArpHardwareId(*self), f)
    }
}
