//! The value of each field, by its index: of a header, of the name and the place of one, and of a packet itself.

use crate::ether_format::Moment;
use crate::ether_format::calendar::moment_of;
use crate::ether_format::interval::Interval;
use crate::ether_format::origin::Origin;
use crate::ether_format::place::Place;
use crate::ether_format::spelling::first_of;
use crate::ether_format::value::{Shown, Value};
use crate::ether_content::CookedHeader;
use crate::ether_fields::Section;
use crate::ether_pcap::{CapturedPacket, Direction, Timestamp};
use crate::ether_peel::PeelUnit;
use crate::ether_sll2::LinuxSll2Slice;
use crate::{
    ArpPacketSlice, EtherType, Ethernet2Slice, LinuxSllSlice, MacsecHeaderSlice, MacsecPType,
    SingleVlanSlice,
};

/// What a packet itself has in a field.
#[inline(always)]
pub(in crate::ether_format) fn packet_value<'a>(
    origin: &Origin<'a>,
    packet: &CapturedPacket<'a>,
    index: usize,
) -> Option<Shown<'a>> {
    match index {
        0 => Some(Shown::Value(Value::Number(origin.number as u64))),
        1 => Some(Shown::Time),
        2 => Some(Shown::Value(Value::Number(u64::from(packet.link_type.0)))),
        3 => Some(Shown::Value(Value::Number(packet.packet.len() as u64))),
        4 => Some(Shown::Value(Value::Number(u64::from(packet.original_len)))),
        5 => Some(Shown::Value(interface_value(packet.interface))),
        6 => Some(Shown::Value(direction_value(packet.direction))),
        7 => Some(Shown::Value(text_value(packet.comment))),
        8 => Some(Shown::Value(text_value(origin.file))),
        9 => Some(Shown::Within(Interval::Minute)),
        10 => Some(Shown::Within(Interval::Hour)),
        11 => Some(Shown::Within(Interval::Day)),
        _ => None,
    }
}

/// The value of the number of an interface.
#[inline(always)]
fn interface_value<'a>(interface: Option<u32>) -> Value<'a> {
    match interface {
        Some(interface) => Value::Number(u64::from(interface)),
        None => Value::Nothing,
    }
}

/// The value of a direction.
#[inline(always)]
fn direction_value<'a>(direction: Option<Direction>) -> Value<'a> {
    match direction {
        Some(Direction::Inbound) => Value::Word("inbound"),
        Some(Direction::Outbound) => Value::Word("outbound"),
        None => Value::Nothing,
    }
}

/// The value of a text.
#[inline(always)]
fn text_value<'a>(text: Option<&'a [u8]>) -> Value<'a> {
    match text {
        Some(text) => Value::Text(text),
        None => Value::Nothing,
    }
}

/// The moment of a time, if there is one.
#[inline]
pub(in crate::ether_format) fn moment_if(time: Option<Timestamp>) -> Option<Moment> {
    match time {
        Some(time) => Some(moment_of(time)),
        None => None,
    }
}

/// The value of a field of the name and the place of a header.
#[inline(always)]
pub(in crate::ether_format) fn place_value<'a>(section: Section, place: Place, index: usize) -> Option<Value<'a>> {
    match index {
        0 => Some(Value::Word(section.name())),
        1 => Some(Value::Number(place.start as u64)),
        2 => Some(Value::Number(place.header_end as u64)),
        3 => Some(Value::Number(place.payload_end as u64)),
        4 => Some(Value::Flag(place.closed)),
        _ => None,
    }
}

/// The value of a field of a unit.
#[inline(always)]
pub(in crate::ether_format) fn unit_value<'a>(unit: &'a PeelUnit<'_>, index: usize) -> Option<Value<'a>> {
    match unit {
        PeelUnit::Ethernet2(slice) => ethernet2_value(slice, index),
        PeelUnit::LinuxSll(slice) => linux_sll_column(slice, index),
        PeelUnit::Vlan(slice) => vlan_value(slice, index),
        PeelUnit::Macsec(slice) => macsec_column(&slice.header, index),
        PeelUnit::Arp(slice) => arp_value(slice, index),
    }
}

/// [`linux_sll_value`] as a call.
#[inline(never)]
fn linux_sll_column<'a>(slice: &'a LinuxSllSlice<'_>, index: usize) -> Option<Value<'a>> {
    linux_sll_value(slice, index)
}

/// [`macsec_value`] as a call.
#[inline(never)]
fn macsec_column<'a>(tag: &MacsecHeaderSlice<'_>, index: usize) -> Option<Value<'a>> {
    macsec_value(tag, index)
}

/// A number as a value.
#[inline(always)]
fn number<'a>(number: u64) -> Option<Value<'a>> {
    Some(Value::Number(number))
}

/// The value of a field of an Ethernet II header.
#[inline(always)]
pub(in crate::ether_format) fn ethernet2_value<'a>(slice: &Ethernet2Slice<'_>, index: usize) -> Option<Value<'a>> {
    match index {
        0 => Some(Value::Mac(slice.destination())),
        1 => Some(Value::Mac(slice.source())),
        2 => Some(Value::Protocol(slice.ether_type().0)),
        3 => Some(fcs_value(slice.fcs())),
        _ => None,
    }
}

/// The value of a frame check sequence.
#[inline(always)]
fn fcs_value<'a>(fcs: Option<[u8; 4]>) -> Value<'a> {
    match fcs {
        Some(fcs) => Value::Four(fcs),
        None => Value::Nothing,
    }
}

/// The value of a field of a VLAN tag.
#[inline(always)]
pub(in crate::ether_format) fn vlan_value<'a>(slice: &SingleVlanSlice<'_>, index: usize) -> Option<Value<'a>> {
    match index {
        0 => number(u64::from(slice.priority_code_point().value())),
        1 => number(u64::from(slice.drop_eligible_indicator())),
        2 => number(u64::from(slice.vlan_identifier().value())),
        3 => Some(Value::Protocol(slice.ether_type().0)),
        _ => None,
    }
}

/// The value of a field of a SecTag.
#[inline(always)]
pub(in crate::ether_format) fn macsec_value<'a>(tag: &MacsecHeaderSlice<'_>, index: usize) -> Option<Value<'a>> {
    match index {
        0 => Some(Value::Word(payload_word(tag.ptype()))),
        2 => number(u64::from(tag.endstation_id())),
        4 => number(u64::from(tag.tci_scb())),
        5 => number(encrypted_bit(tag.ptype())),
        6 => number(changed_bit(tag.ptype())),
        7 => number(u64::from(tag.an().value())),
        9 => number(u64::from(tag.short_len().value())),
        10 => number(u64::from(tag.packet_nr())),
        11 => Some(sci_value(tag.sci())),
        12 => Some(payload_type_value(tag.ptype())),
        _ => None,
    }
}

/// 1 if the payload of a SecTag is encrypted.
#[inline]
pub(in crate::ether_format) fn encrypted_bit(payload_type: MacsecPType) -> u64 {
    match payload_type {
        MacsecPType::EncryptedUnmodified | MacsecPType::Encrypted => 1,
        _ => 0,
    }
}

/// 1 if the payload of a SecTag is changed.
#[inline]
pub(in crate::ether_format) fn changed_bit(payload_type: MacsecPType) -> u64 {
    match payload_type {
        MacsecPType::Modified | MacsecPType::Encrypted => 1,
        _ => 0,
    }
}

/// The word for the payload of a SecTag.
#[inline]
fn payload_word(payload_type: MacsecPType) -> &'static str {
    match payload_type {
        MacsecPType::Unmodified(_) => "unmodified",
        MacsecPType::Modified => "modified",
        MacsecPType::EncryptedUnmodified => "encrypted_unmodified",
        MacsecPType::Encrypted => "encrypted",
    }
}

/// The ether type of the payload of a SecTag, if it can be read.
#[inline]
fn payload_type_value<'a>(payload_type: MacsecPType) -> Value<'a> {
    match payload_type {
        MacsecPType::Unmodified(ether_type) => Value::Protocol(ether_type.0),
        _ => Value::Nothing,
    }
}

/// The value of a secure channel identifier.
#[inline]
fn sci_value<'a>(sci: Option<u64>) -> Value<'a> {
    match sci {
        Some(sci) => Value::Eight(sci.to_be_bytes()),
        None => Value::Nothing,
    }
}

/// The value of a field of an ARP packet.
#[inline(always)]
pub(in crate::ether_format) fn arp_value<'a>(packet: &'a ArpPacketSlice<'_>, index: usize) -> Option<Value<'a>> {
    match index {
        0 => number(u64::from(packet.hw_addr_type().0)),
        1 => Some(Value::Protocol(packet.proto_addr_type().0)),
        2 => number(u64::from(packet.hw_addr_size())),
        3 => number(u64::from(packet.proto_addr_size())),
        4 => number(u64::from(packet.operation().0)),
        5 => Some(Value::Bytes(packet.sender_hw_addr())),
        6 => Some(protocol_address(packet.proto_addr_type(), packet.sender_protocol_addr())),
        7 => Some(Value::Bytes(packet.target_hw_addr())),
        8 => Some(protocol_address(packet.proto_addr_type(), packet.target_protocol_addr())),
        _ => None,
    }
}

/// The value of an address of a protocol.
#[inline]
fn protocol_address(protocol: EtherType, bytes: &[u8]) -> Value<'_> {
    if protocol == EtherType::IPV4 && bytes.len() == 4 {
        Value::Dotted(bytes)
    } else {
        Value::Bytes(bytes)
    }
}

/// The value of a field of a header of Linux cooked capture v1.
#[inline(always)]
pub(in crate::ether_format) fn linux_sll_value<'a>(slice: &'a LinuxSllSlice<'_>, index: usize) -> Option<Value<'a>> {
    let len = slice.sender_address_valid_length();
    match index {
        0 => number(u64::from(slice.packet_type_number())),
        1 => number(u64::from(slice.arp_hardware_type().0)),
        2 => number(u64::from(len)),
        3 => Some(Value::Short(slice.sender_address_full(), usize::from(len))),
        4 => Some(Value::Protocol(slice.protocol_number())),
        _ => None,
    }
}

/// The value of a field of a header of Linux cooked capture v1 that is not walked.
#[inline(always)]
pub(in crate::ether_format) fn cooked_value<'a>(header: &'a CookedHeader, index: usize) -> Option<Value<'a>> {
    let len = usize::from(header.address_len);
    match index {
        0 => number(u64::from(header.packet_type)),
        1 => number(u64::from(header.hardware_type.0)),
        2 => number(u64::from(header.address_len)),
        3 => Some(Value::Bytes(used(&header.address, len))),
        4 => Some(Value::Protocol(header.protocol.0)),
        _ => None,
    }
}

/// The first `len` of the 8 bytes of an address, or all if `len` is greater.
#[inline]
pub(in crate::ether_format) fn used(address: &[u8], len: usize) -> &[u8] {
    first_of(address, len)
}

/// The value of a field of a header of Linux cooked capture v2.
#[inline(always)]
pub(in crate::ether_format) fn linux_sll2_value<'a>(
    packet: &'a LinuxSll2Slice<'_>,
    index: usize,
) -> Option<Value<'a>> {
    let len = packet.sender_address_valid_length();
    match index {
        0 => Some(Value::Protocol(packet.protocol_number())),
        2 => number(u64::from(packet.interface_index())),
        3 => number(u64::from(packet.arp_hardware_type().0)),
        4 => number(u64::from(packet.packet_type_number())),
        5 => number(u64::from(len)),
        6 => Some(Value::Short(packet.sender_address_full(), usize::from(len))),
        _ => None,
    }
}
