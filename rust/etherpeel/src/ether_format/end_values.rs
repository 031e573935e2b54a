//! The values of what is left of a packet, and of a fault.

use crate::ether_format::cause::Cause;
use crate::ether_format::end::End;
use crate::ether_format::value::Value;
use crate::ether_output::source_of;
use crate::ether_peel::RestKind;
use crate::LinuxSllProtocolType;

/// The value of a field of how a walk ends.
#[inline(always)]
pub(in crate::ether_format) fn end_value<'a>(end: &End, index: usize) -> Option<Value<'a>> {
    match end {
        End::Rest(start, end, kind) => rest_value(*start, *end, kind, index),
        End::Skipped(len) => skipped_value(*len, index),
        End::Fault(start, closed, cause) => fault_value(*start, *closed, cause, index),
    }
}

/// The value of a field of what is left.
#[inline(always)]
pub(in crate::ether_format) fn rest_value<'a>(
    start: usize,
    end: usize,
    kind: &RestKind,
    index: usize,
) -> Option<Value<'a>> {
    match index {
        0 => Some(Value::Number(start as u64)),
        1 => Some(Value::Number(end as u64)),
        2 => Some(Value::Word(kind_word(kind))),
        3 => Some(kind_value(kind)),
        _ => None,
    }
}

/// The value of a field of a packet that is skipped.
#[inline(never)]
pub(in crate::ether_format) fn skipped_value<'a>(len: usize, index: usize) -> Option<Value<'a>> {
    match index {
        0 => Some(Value::Number(0)),
        1 => Some(Value::Number(len as u64)),
        2 => Some(Value::Word("skipped")),
        3 => Some(Value::Nothing),
        _ => None,
    }
}

/// The word for what a rest is announced as.
#[inline]
pub(in crate::ether_format) fn kind_word(kind: &RestKind) -> &'static str {
    match kind {
        RestKind::Start => "start",
        RestKind::EtherType(_) => "ether_type",
        RestKind::Sll(protocol) => protocol_word(protocol),
        RestKind::Sealed => "sealed",
        RestKind::AfterArp => "after_arp",
    }
}

/// The word for a protocol of cooked capture.
#[inline]
fn protocol_word(protocol: &LinuxSllProtocolType) -> &'static str {
    match protocol {
        LinuxSllProtocolType::Ignored(_) => "sll_ignored",
        LinuxSllProtocolType::NetlinkProtocolType(_) => "sll_netlink",
        LinuxSllProtocolType::GenericRoutingEncapsulationProtocolType(_) => "sll_gre",
        LinuxSllProtocolType::EtherType(_) => "ether_type",
        LinuxSllProtocolType::LinuxNonstandardEtherType(_) => "sll",
    }
}

/// The protocol number that a rest is announced by.
#[inline]
fn kind_value<'a>(kind: &RestKind) -> Value<'a> {
    match kind {
        RestKind::EtherType(ether_type) => Value::Protocol(ether_type.0),
        RestKind::Sll(protocol) => protocol_value(protocol),
        _ => Value::Nothing,
    }
}

/// The number of a protocol of cooked capture.
#[inline]
fn protocol_value<'a>(protocol: &LinuxSllProtocolType) -> Value<'a> {
    match protocol {
        LinuxSllProtocolType::Ignored(number)
        | LinuxSllProtocolType::NetlinkProtocolType(number)
        | LinuxSllProtocolType::GenericRoutingEncapsulationProtocolType(number) => {
            Value::Protocol(*number)
        }
        LinuxSllProtocolType::EtherType(ether_type) => Value::Protocol(ether_type.0),
        LinuxSllProtocolType::LinuxNonstandardEtherType(_) => Value::Nothing,
    }
}

/// The value of a field of a fault.
#[inline(never)]
pub(in crate::ether_format) fn fault_value<'a>(
    start: usize,
    closed: bool,
    cause: &Cause,
    index: usize,
) -> Option<Value<'a>> {
    match index {
        0 => Some(Value::Number(start as u64)),
        1 => Some(Value::Flag(closed)),
        2 => Some(Value::Word(cause_word(cause))),
        3 => Some(required_value(cause)),
        4 => Some(available_value(cause)),
        5 => Some(source_value(cause)),
        6 => Some(number_value(cause)),
        _ => None,
    }
}

/// The word for what is wrong.
#[inline]
fn cause_word(cause: &Cause) -> &'static str {
    match cause {
        Cause::Length(_, _, _, _) => "length",
        Cause::UnknownPacketType(_) => "sll_packet_type",
        Cause::UnknownHardwareType(_) => "sll_hardware_type",
        Cause::Version => "macsec_version",
        Cause::ShortLength => "macsec_short_len",
    }
}

/// The number of bytes that are required, if they are too few.
#[inline]
fn required_value<'a>(cause: &Cause) -> Value<'a> {
    match cause {
        Cause::Length(required, _, _, _) => Value::Number(*required as u64),
        _ => Value::Nothing,
    }
}

/// The number of bytes that are available, if they are too few.
#[inline]
fn available_value<'a>(cause: &Cause) -> Value<'a> {
    match cause {
        Cause::Length(_, available, _, _) => Value::Number(*available as u64),
        _ => Value::Nothing,
    }
}

/// What names the number of bytes that are available, if they are too few.
#[inline]
fn source_value<'a>(cause: &Cause) -> Value<'a> {
    match cause {
        Cause::Length(_, _, source, _) => Value::Word(source_of(*source)),
        _ => Value::Nothing,
    }
}

/// The number that has no meaning, if that is what is wrong.
#[inline]
fn number_value<'a>(cause: &Cause) -> Value<'a> {
    match cause {
        Cause::UnknownPacketType(number) | Cause::UnknownHardwareType(number) => {
            Value::Number(u64::from(*number))
        }
        _ => Value::Nothing,
    }
}
