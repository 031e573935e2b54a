//! What follows the headers of a packet that were read.

use super::LaxEtherPayloadSlice;
use crate::{EtherPayloadSlice, LinuxSllPayloadSlice};

/// What follows the headers of a packet that were read. etherparse has more variants, for IP and above.
#[derive(Clone, PartialEq, Eq, Debug)]
#[non_exhaustive]
pub enum PayloadSlice<'a> {
    /// Nothing: the packet ends in ARP.
    Empty,
    /// A payload with an ether type, IP among them.
    Ether(EtherPayloadSlice<'a>),
    /// A payload of MACsec that is encrypted or changed.
    MacsecMod(&'a [u8]),
}

/// The same of a packet that may be cut short.
#[derive(Clone, PartialEq, Eq, Debug)]
#[non_exhaustive]
pub enum LaxPayloadSlice<'a> {
    /// Nothing: the packet ends in ARP.
    Empty,
    /// A payload with an ether type, IP among them.
    Ether(LaxEtherPayloadSlice<'a>),
    /// A payload of MACsec that is encrypted or changed.
    MacsecModified {
        /// The bytes that are there.
        payload: &'a [u8],
        /// Whether the payload is cut short.
        incomplete: bool,
    },
    /// A payload of Linux cooked capture v1 that has no ether type.
    LinuxSll(LinuxSllPayloadSlice<'a>),
}

impl<'a> PayloadSlice<'a> {
    /// The bytes.
    #[must_use]
    pub fn slice(&self) -> &'a [u8] {
        match self {
            PayloadSlice::Empty => &[],
            PayloadSlice::Ether(payload) => payload.payload,
            PayloadSlice::MacsecMod(payload) => payload,
        }
    }
}

impl<'a> LaxPayloadSlice<'a> {
    /// The bytes that are there.
    #[must_use]
    pub fn slice(&self) -> &'a [u8] {
        match self {
            LaxPayloadSlice::Empty => &[],
            LaxPayloadSlice::Ether(payload) => payload.payload,
            LaxPayloadSlice::MacsecModified { payload, .. } => payload,
            LaxPayloadSlice::LinuxSll(payload) => payload.payload,
        }
    }
}
