//! Hardware types and operations of ARP.
use super::equal;
use etherpeel::{ArpHardwareId, ArpOperation};
use crate::kit::Fail;

/// Number and description.
static HARDWARE_TYPES: [(u16, &str); 88] = [
    (0, "from KA9Q: NET/ROM pseudo"),
    (1, "Ethernet"),
    (2, "Experimental Ethernet"),
    (3, "AX.25 Level 2"),
    (4, "PROnet token ring"),
    (5, "Chaosnet"),
    (6, "IEEE 802.2 Ethernet/TR/TB"),
    (7, "ARCnet"),
    (8, "APPLEtalk or Hyperchannel"),
    (9, "Lanstar"),
    (10, "Autonet Short Address"),
    (11, "LocalTalk"),
    (12, "LocalNet"),
    (13, "Ultra link"),
    (14, "SMDS"),
    (15, "Frame Relay DLCI"),
    (16, "Asynchronous Transmission Mode (ATM) JXB2"),
    (17, "HDLC"),
    (18, "Fibre Channel"),
    (19, "ATM"),
    (20, "Serial Line"),
    (21, "Asynchronous Transmission Mode (ATM)"),
    (22, "MIL-STD-188-220"),
    (23, "Metricom STRIP (new IANA id)"),
    (24, "IEEE 1394 IPv4 - RFC 2734"),
    (25, "MAPOS"),
    (26, "Twinaxial"),
    (27, "EUI-64"),
    (28, "HIPARP"),
    (29, "IP and ARP over ISO 7816-3"),
    (30, "ARPSec"),
    (31, "IPsec tunnel"),
    (32, "InfiniBand"),
    (33, "TIA-102 Project 25 Common Air Interface (CAI)"),
    (34, "Wiegand Interface"),
    (35, "Pure IP"),
    (36, "HW_EXP1"),
    (37, "HFI"),
    (38, "Unified Bus (UB)"),
    (256, "SLIP"),
    (257, "CSLIP"),
    (258, "SLIP6"),
    (259, "CSLIP6"),
    (260, "Notional KISS type"),
    (264, "ADAPT"),
    (270, "ROSE"),
    (271, "CCITT X.25"),
    (272, "Boards with X.25 in firmware"),
    (280, "Controller Area Network"),
    (512, "PPP"),
    (513, "Cisco HDLC"),
    (516, "LAPB"),
    (517, "Digital's DDCMP protocol"),
    (518, "Raw HDLC"),
    (519, "Raw IP"),
    (768, "IPIP tunnel"),
    (769, "IP6IP6 tunnel"),
    (770, "Frame Relay Access Device"),
    (771, "SKIP vif"),
    (772, "Loopback device"),
    (773, "Localtalk device"),
    (774, "Fiber Distributed Data Interface"),
    (775, "AP1000 BIF"),
    (776, "sit0 device - IPv6-in-IPv4"),
    (777, "IP over DDP tunneller"),
    (778, "GRE over IP"),
    (779, "PIMSM register interface"),
    (780, "High Performance Parallel Interface"),
    (781, "Nexus 64Mbps Ash"),
    (782, "Acorn Econet"),
    (783, "Linux-IrDA"),
    (784, "Point to point fibrechannel"),
    (785, "Fibrechannel arbitrated loop"),
    (786, "Fibrechannel public loop"),
    (787, "Fibrechannel fabric"),
    (800, "Magic type ident for TR"),
    (801, "IEEE 802.11"),
    (802, "IEEE 802.11 + Prism2 header"),
    (803, "IEEE 802.11 + radiotap header"),
    (804, "IEEE 802.15.4"),
    (805, "IEEE 802.15.4 network monitor"),
    (820, "PhoNet media type"),
    (821, "PhoNet pipe header"),
    (822, "CAIF media type"),
    (823, "GRE over IPv6"),
    (824, "Netlink header"),
    (825, "IPv6 over LoWPAN"),
    (826, "Vsock monitor header"),
];

#[test]
fn each_assigned_hardware_type_has_its_name() -> Result<(), Fail> {
    let rt = crate::kit::HostRuntime;
    for &(number, description) in &HARDWARE_TYPES {
        let hardware = ArpHardwareId::from(number);
        let shown = format!("{hardware:?}");
        let wanted = format!("{number} ({description})");
        equal!(rt, description;
            u16::from(hardware) => number,
            hardware.name() => Some(description),
            shown.as_str() => wanted.as_str(),
        );
    }
    Ok(())
}

#[test]
fn second_names_of_hardware_types_have_the_same_numbers() -> Result<(), Fail> {
    let rt = crate::kit::HostRuntime;
    equal!(rt, "second names";
        [ArpHardwareId::ETHER, ArpHardwareId::APPLETLK, ArpHardwareId::FRAME_RELAY]
            => [ArpHardwareId(1), ArpHardwareId(8), ArpHardwareId(15)],
    );
    let shown_by_hex = [39, 0xFFFD, 0xFFFE, 0xFFFF].map(ArpHardwareId);
    let shown = format!("{shown_by_hex:?}");
    equal!(rt, "without a name, and those that Linux does not assign to hardware";
        shown_by_hex.map(|id| id.name())
            => [None, None, Some("zero header length"), Some("Void type, nothing is known")],
        shown.as_str()
            => "[0x0027, 0xFFFD, 0xFFFE (zero header length), 0xFFFF (Void type, nothing is known)]",
    );
    equal!(rt, "operations";
        [ArpOperation(1), ArpOperation(2)] => [ArpOperation::REQUEST, ArpOperation::REPLY],
    );
    Ok(())
}
