//! Ether types, and the numbers below 0x0600 that Linux gives to protocols without an ether type.
use super::equal;
use etherpeel::{EtherType, LinuxNonstandardEtherType};
use crate::kit::Fail;

/// Number and description.
static ETHER_TYPES: [(u16, &str); 8] = [
    (0x0800, "Internet Protocol version 4 (IPv4)"),
    (0x86DD, "Internet Protocol Version 6 (IPV6)"),
    (0x0806, "Address Resolution Protocol (ARP)"),
    (0x0842, "Wake on LAN"),
    (
        0x8100,
        "Customer VLAN Tag (C-TAG) as defined in IEEE Std 802.1Q",
    ),
    (
        0x88A8,
        "IEEE Std 802.1Q - Service VLAN tag identifier (S-Tag)",
    ),
    (0x88E5, "IEEE Std 802.1AE - Media Access Control Security"),
    (0x9100, "VLAN Double Tagged Frame"),
];

#[test]
fn each_assigned_ether_type_has_its_name() -> Result<(), Fail> {
    let rt = crate::kit::HostRuntime;
    for &(number, description) in &ETHER_TYPES {
        let ether_type = EtherType::from(number);
        let shown = format!("{ether_type:?}");
        let wanted = format!("0x{number:04X} ({description})");
        equal!(rt, description;
            u16::from(ether_type) => number,
            ether_type.name() => Some(description),
            shown.as_str() => wanted.as_str(),
        );
    }
    let unknown = format!("{:?}", EtherType(0x01AB));
    equal!(rt, "without a name";
        EtherType(0x1234).name() => None,
        EtherType(1500).name() => None,
        unknown.as_str() => "0x01AB",
    );
    Ok(())
}

/// Number and description.
static NONSTANDARD: [(u16, &str); 28] = [
    (0x01, "Dummy type for 802.3 frames"),
    (0x02, "Dummy protocol id for AX.25"),
    (0x03, "Every packet"),
    (0x04, "802.2 frames"),
    (0x05, "SNAP: Internal only"),
    (0x06, "DEC DDCMP: Internal only"),
    (0x07, "Dummy type for WAN PPP frames"),
    (0x08, "Dummy type for PPP MP frames"),
    (0x09, "Localtalk pseudo type"),
    (0x0C, "CAN: Controller Area Network"),
    (0x0D, "CANFD: CAN flexible data rate"),
    (0x0E, "CANXL: eXtended frame Length"),
    (0x10, "Dummy type for Atalk over PPP"),
    (0x11, "802.2 frames"),
    (0x15, "Mobitex"),
    (0x16, "Card specific control frames"),
    (0x17, "Linux-IrDA"),
    (0x18, "Acorn Econet"),
    (0x19, "HDLC frames"),
    (0x1A, "1A for ArcNet"),
    (0x1B, "Distributed Switch Arch"),
    (0x1C, "Trailer switch tagging"),
    (0xF5, "Nokia Phonet frame"),
    (0xF6, "IEEE802.15.4 frame"),
    (0xF7, "ST-Ericsson CAIF protocol"),
    (0xF8, "Multiplexed DSA protocol"),
    (0xF9, "Qualcomm multiplexing and aggregation protocol"),
    (0xFA, "Management component transport protocol packets"),
];

#[test]
fn each_nonstandard_ether_type_has_its_name() -> Result<(), Fail> {
    let rt = crate::kit::HostRuntime;
    for &(number, description) in &NONSTANDARD {
        let found = LinuxNonstandardEtherType::try_from(number);
        let shown = format!("{found:?}");
        let wanted = format!("Ok(0x{number:04X} ({description}))");
        equal!(rt, description;
            found.map(u16::from) => Ok(number),
            shown.as_str() => wanted.as_str(),
        );
    }
    Ok(())
}

/// Numbers next to the nonstandard ether types, and the ether type of IPv4.
static UNKNOWN: [u16; 8] = [0, 0x0A, 0x0F, 0x14, 0x1D, 0xF4, 0xFB, 0x0800];

#[test]
fn other_numbers_are_not_nonstandard_ether_types() {
    let rt = crate::kit::HostRuntime;
    for &number in &UNKNOWN {
        equal!(rt, number; LinuxNonstandardEtherType::try_from(number) => Err(()));
    }
}
