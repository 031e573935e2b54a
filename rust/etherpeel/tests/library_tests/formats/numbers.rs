//! Numbers with a range, numbers of several bytes, and the two types of cooked captures.
use super::{Protocol, equal, protocol_type};
use etherpeel::ether_base::big_endian;
use etherpeel::err::{ValueTooBigError, ValueType, linux_sll};
use etherpeel::{
    ArpHardwareId, LinuxSllPacketType, LinuxSllProtocolType, MacsecAn, MacsecShortLen, VlanId,
    VlanPcp,
};
use crate::kit::Fail;

const fn above_u16(actual: u16, max_allowed: u16, value_type: ValueType) -> ValueTooBigError<u16> {
    ValueTooBigError {
        actual,
        max_allowed,
        value_type,
    }
}

const fn above_u8(actual: u8, max_allowed: u8, value_type: ValueType) -> ValueTooBigError<u8> {
    ValueTooBigError {
        actual,
        max_allowed,
        value_type,
    }
}

// the value of a number, the greatest number, and the refusal of the one after it
#[test]
fn a_vlan_identifier_is_at_most_4095() -> Result<(), Fail> {
    let rt = crate::kit::HostRuntime;
    let (id, greatest) = (VlanId::try_new(100)?, VlanId::try_from(4095)?);
    equal!(rt, "VLAN identifiers";
        id.value() => 100,
        u16::from(greatest) => 4095,
        VlanId::MAX_U16 => 4095,
        VlanId::default() => VlanId::ZERO,
        VlanId::try_new(4096) => Err(above_u16(4096, 4095, ValueType::VlanId)),
        VlanId::try_from(4096) => Err(above_u16(4096, 4095, ValueType::VlanId)),
    );
    Ok(())
}

#[test]
fn a_priority_code_point_is_at_most_7() -> Result<(), Fail> {
    let rt = crate::kit::HostRuntime;
    let (pcp, greatest) = (VlanPcp::try_new(5)?, VlanPcp::try_from(7)?);
    equal!(rt, "priority code points";
        pcp.value() => 5,
        u8::from(greatest) => 7,
        VlanPcp::MAX_U8 => 7,
        VlanPcp::default() => VlanPcp::ZERO,
        VlanPcp::try_new(8) => Err(above_u8(8, 7, ValueType::VlanPcp)),
        VlanPcp::try_from(8) => Err(above_u8(8, 7, ValueType::VlanPcp)),
    );
    Ok(())
}

#[test]
fn an_association_number_is_at_most_3() -> Result<(), Fail> {
    let rt = crate::kit::HostRuntime;
    let (an, greatest) = (MacsecAn::try_new(2)?, MacsecAn::try_from(3)?);
    equal!(rt, "association numbers";
        an.value() => 2,
        u8::from(greatest) => 3,
        MacsecAn::MAX_U8 => 3,
        MacsecAn::default() => MacsecAn::ZERO,
        MacsecAn::try_new(4) => Err(above_u8(4, 3, ValueType::MacsecAn)),
        MacsecAn::try_from(4) => Err(above_u8(4, 3, ValueType::MacsecAn)),
    );
    Ok(())
}

#[test]
fn a_short_length_is_at_most_63() -> Result<(), Fail> {
    let rt = crate::kit::HostRuntime;
    let (len, greatest) = (
        MacsecShortLen::try_from_u8(46)?,
        MacsecShortLen::try_from(63)?,
    );
    equal!(rt, "short lengths";
        len.value() => 46,
        u8::from(greatest) => 63,
        MacsecShortLen::MAX_U8 => 63,
        MacsecShortLen::default() => MacsecShortLen::ZERO,
        MacsecShortLen::try_from_u8(64) => Err(above_u8(64, 63, ValueType::MacsecShortLen)),
        MacsecShortLen::try_from(64) => Err(above_u8(64, 63, ValueType::MacsecShortLen)),
    );
    Ok(())
}

/// Lengths and short lengths: those above 63 have none.
static SHORT_LENS: [(&str, usize, u8); 4] = [
    ("34", 34, 34),
    ("the greatest", 63, 63),
    ("one more", 64, 0),
    ("two more", 65, 0),
];

#[test]
fn a_length_above_63_has_the_short_length_0() {
    let rt = crate::kit::HostRuntime;
    for &(name, len, value) in &SHORT_LENS {
        let found = MacsecShortLen::from_len(len).value();
        equal!(rt, name;
            found => value,
            MacsecShortLen::MAX_USIZE => 63,
        );
    }
}

/// The most significant byte is first, when numbers are read and when they are written.
#[test]
fn the_first_byte_is_the_most_significant() {
    let rt = crate::kit::HostRuntime;
    equal!(rt, "from and to bytes";
        big_endian::u16_of([0x88, 0xA8]) => 0x88A8,
        big_endian::u32_of([192, 0, 2, 1]) => 3_221_225_985,
        big_endian::u64_of([0, 0, 0, 0, 0, 0, 1, 2]) => 258,
        big_endian::u64_of([0xFF; 8]) => 18_446_744_073_709_551_615,
        big_endian::bytes_of_u16(0x88A8) => [0x88, 0xA8],
        big_endian::bytes_of_u32(258) => [0, 0, 1, 2],
        big_endian::bytes_of_u64(258) => [0, 0, 0, 0, 0, 0, 1, 2],
    );
}

/// Number, constant, and what `Debug` shows.
const PACKET_TYPES: [(u16, LinuxSllPacketType, &str); 8] = [
    (0, LinuxSllPacketType::HOST, "0 (Sent to us)"),
    (1, LinuxSllPacketType::BROADCAST, "1 (Sent to all)"),
    (2, LinuxSllPacketType::MULTICAST, "2 (Sent to group)"),
    (3, LinuxSllPacketType::OTHERHOST, "3 (Sent to someone else)"),
    (4, LinuxSllPacketType::OUTGOING, "4 (Sent by us)"),
    (
        5,
        LinuxSllPacketType::LOOPBACK,
        "5 (MC/BRD frame looped back)",
    ),
    (6, LinuxSllPacketType::USER, "6 (Sent to user space)"),
    (
        LinuxSllPacketType::MAX_VAL,
        LinuxSllPacketType::KERNEL,
        "7 (Sent to kernel space)",
    ),
];

#[test]
fn a_packet_type_is_at_most_7() -> Result<(), Fail> {
    let rt = crate::kit::HostRuntime;
    for (number, constant, text) in PACKET_TYPES {
        let shown = format!("{constant:?}");
        equal!(rt, text;
            LinuxSllPacketType::try_from(number) => Ok(constant),
            u16::from(constant) => number,
            shown.as_str() => text,
        );
    }
    let refused = linux_sll::HeaderError::UnsupportedPacketTypeField { packet_type: 8 };
    equal!(rt, "above 7"; LinuxSllPacketType::try_from(8) => Err(refused));
    Ok(())
}

/// A hardware type, a number, and the variant that both give, if the hardware type is supported.
static BY_HARDWARE_TYPE: [(&str, ArpHardwareId, u16, Option<Protocol>); 8] = [
    (
        "netlink",
        ArpHardwareId::NETLINK,
        123,
        Some(Protocol::Netlink),
    ),
    ("GRE", ArpHardwareId::IPGRE, 123, Some(Protocol::Gre)),
    (
        "radiotap",
        ArpHardwareId::IEEE80211_RADIOTAP,
        123,
        Some(Protocol::Ignored),
    ),
    (
        "frame relay",
        ArpHardwareId::FRAD,
        123,
        Some(Protocol::Ignored),
    ),
    (
        "a nonstandard number",
        ArpHardwareId::ETHERNET,
        1,
        Some(Protocol::Dummy),
    ),
    (
        "an ether type",
        ArpHardwareId::ETHERNET,
        0x0800,
        Some(Protocol::EtherType),
    ),
    ("SLIP", ArpHardwareId::SLIP, 0x0800, None),
    ("CSLIP", ArpHardwareId(257), 0x0800, None),
];

#[test]
fn the_hardware_type_decides_the_protocol_type() {
    let rt = crate::kit::HostRuntime;
    for &(name, hardware, number, protocol) in &BY_HARDWARE_TYPE {
        let wanted = match protocol {
            Some(protocol) => Ok(protocol_type(protocol, number)),
            None => Err(linux_sll::HeaderError::UnsupportedArpHardwareId {
                arp_hardware_type: hardware,
            }),
        };
        let is_supported = LinuxSllProtocolType::SUPPORTED_ARPHWD.contains(&hardware);
        equal!(rt, name; is_supported => protocol.is_some());
        equal!(rt, name; LinuxSllProtocolType::try_from((hardware, number)) => wanted);
        if let Some(protocol) = protocol {
            let written = u16::from(protocol_type(protocol, number));
            equal!(rt, name; written => number);
        }
    }
}

/// A protocol with its number, another number, and the protocol with that.
static CHANGES: [(&str, Protocol, u16, u16, Protocol); 3] = [
    (
        "to a nonstandard number",
        Protocol::EtherType,
        0x0800,
        1,
        Protocol::Dummy,
    ),
    (
        "to an ether type",
        Protocol::Dummy,
        1,
        0,
        Protocol::EtherType,
    ),
    (
        "of an ignored number",
        Protocol::Ignored,
        5,
        1,
        Protocol::Ignored,
    ),
];

#[test]
fn a_changed_number_decides_the_protocol_type_anew() {
    let rt = crate::kit::HostRuntime;
    for &(name, before, number, other, after) in &CHANGES {
        let mut changed = protocol_type(before, number);
        changed.change_value(other);
        equal!(rt, name; changed => protocol_type(after, other));
    }
}
