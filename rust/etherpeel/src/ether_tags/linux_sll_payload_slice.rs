//! A payload that a protocol type of cooked capture names.

use crate::ether_tags::EtherPayloadSlice;
use crate::ether_base::{EtherType, LenSource, LinuxSllProtocolType};

/// The payload of a packet of Linux cooked capture v1, and the protocol type that names its protocol.
///
/// Payloads are compared and ordered field by field. Public fields are not checked against each other.
///
/// ```
/// use etherpeel::{
///     EtherPayloadSlice, EtherType, LenSource, LinuxSllPayloadSlice, LinuxSllProtocolType,
/// };
///
/// let ipv4 = LinuxSllPayloadSlice {
///     protocol_type: LinuxSllProtocolType::EtherType(EtherType::IPV4),
///     payload: &[0x45],
/// };
/// let payload = EtherPayloadSlice {
///     ether_type: EtherType::IPV4,
///     len_source: LenSource::Slice,
///     payload: &[0x45],
/// };
/// assert_eq!(EtherPayloadSlice::try_from(ipv4), Ok(payload));
/// ```
#[derive(Copy, PartialEq, Eq, PartialOrd, Ord, Hash, Debug)]
pub struct LinuxSllPayloadSlice<'a> {
    /// The protocol of the payload.
    pub protocol_type: LinuxSllProtocolType,
    /// The bytes of the payload alone, without the header.
    pub payload: &'a [u8],
}

// Written by hand, field by field: for a struct that borrows and has a field with a model, a copy of the whole is not
// proved.
impl<'a> Clone for LinuxSllPayloadSlice<'a> {
    #[inline]
    fn clone(&self) -> Self {
        LinuxSllPayloadSlice {
            protocol_type: self.protocol_type,
            payload: self.payload,
        }
    }
}

/// Keeps the payload, with its ether type as protocol type. Its `len_source` is dropped.
impl<'a> From<EtherPayloadSlice<'a>> for LinuxSllPayloadSlice<'a> {
    #[inline]
    fn from(payload: EtherPayloadSlice<'a>) -> LinuxSllPayloadSlice<'a> {
        LinuxSllPayloadSlice {
            protocol_type: LinuxSllProtocolType::EtherType(payload.ether_type),
            payload: payload.payload,
        }
    }
}

/// Keeps the payload, with the number of an `EtherType` or `LinuxNonstandardEtherType` as ether type. Its `len_source`
/// is [`LenSource::Slice`]. Netlink, GRE and ignored protocols are refused.
impl<'a> TryFrom<LinuxSllPayloadSlice<'a>> for EtherPayloadSlice<'a> {
    type Error = ();

    #[inline]
    fn try_from(payload: LinuxSllPayloadSlice<'a>) -> Result<EtherPayloadSlice<'a>, ()> {
        match payload.protocol_type {
            LinuxSllProtocolType::EtherType(_)
            | LinuxSllProtocolType::LinuxNonstandardEtherType(_) => Ok(EtherPayloadSlice {
                ether_type: EtherType(u16::from(payload.protocol_type)),
                len_source: LenSource::Slice,
                payload: payload.payload,
            }),
            _ => Err(()),
        }
    }
}
