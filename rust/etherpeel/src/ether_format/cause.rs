//! What is wrong with the bytes that should be a header.

use crate::ether_peel::PeelError;
use crate::ether_sll2::LinuxSll2Error;
use crate::err::Layer;
use crate::{LenSource, err};

/// What is wrong with the bytes that should be a header.
#[derive(Clone, Copy, Debug)]
pub enum Cause {
    /// They are fewer than are required: how many are required and available, what names the number of those that are
    /// available, and the layer that was read. A header of cooked capture of either version is `LinuxSllHeader`.
    Length(usize, usize, LenSource, Layer),
    /// The packet type of a cooked capture has no meaning.
    UnknownPacketType(u16),
    /// The hardware type of a cooked capture is not supported.
    UnknownHardwareType(u16),
    /// A SecTag has version 1.
    Version,
    /// The short length of a SecTag is 1, though its payload is unmodified.
    ShortLength,
}

impl Cause {
    /// What is wrong with a header of the walk.
    #[inline]
    pub(in crate::ether_format) fn of(error: &PeelError) -> Cause {
        match error {
            PeelError::Len(error) => Cause::Length(
                error.required_len,
                error.len,
                error.len_source,
                error.layer,
            ),
            PeelError::LinuxSll(error) => linux_sll_cause(error),
            PeelError::Macsec(error) => macsec_cause(error),
        }
    }

    /// What is wrong with a header of cooked capture v2.
    #[inline]
    pub(in crate::ether_format) fn of_v2(error: &LinuxSll2Error) -> Cause {
        match error {
            LinuxSll2Error::Len { required_len, len } => Cause::Length(
                *required_len,
                *len,
                LenSource::Slice,
                Layer::LinuxSllHeader,
            ),
            LinuxSll2Error::PacketType(number) => Cause::UnknownPacketType(u16::from(*number)),
        }
    }
}

/// What is wrong with a header of cooked capture v1.
#[inline]
fn linux_sll_cause(error: &err::linux_sll::HeaderError) -> Cause {
    match error {
        err::linux_sll::HeaderError::UnsupportedPacketTypeField { packet_type } => {
            Cause::UnknownPacketType(*packet_type)
        }
        err::linux_sll::HeaderError::UnsupportedArpHardwareId { arp_hardware_type } => {
            Cause::UnknownHardwareType(arp_hardware_type.0)
        }
    }
}

/// What is wrong with a SecTag.
#[inline]
fn macsec_cause(error: &err::macsec::HeaderError) -> Cause {
    match error {
        err::macsec::HeaderError::UnexpectedVersion => Cause::Version,
        err::macsec::HeaderError::InvalidUnmodifiedShortLen => Cause::ShortLength,
    }
}
