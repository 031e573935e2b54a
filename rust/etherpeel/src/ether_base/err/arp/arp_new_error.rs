//! Addresses from which no ARP packet can be made.

use crate::ether_base::err::arp::{ArpHwAddrError, ArpProtoAddrError};
use core::error::Error;
use core::fmt;

/// Why no ARP packet can be made of the given addresses.
///
/// `Display` gives the text of the error within.
///
/// ```
/// use etherpeel::err::arp::{ArpHwAddrError, ArpNewError};
///
/// let error = ArpNewError::HwAddr(ArpHwAddrError::LenTooBig(256));
/// assert_eq!(
///     format!("{error}").as_str(),
///     "ARP Hardware Address Error: Given hardware address has a length of 256 which is greater then the maximum of 255."
/// );
/// ```
#[derive(Clone, Copy, PartialEq, Eq, Hash, Debug)]
pub enum ArpNewError {
    /// The hardware addresses do not fit.
    HwAddr(ArpHwAddrError),
    /// The protocol addresses do not fit.
    ProtoAddr(ArpProtoAddrError),
}

impl fmt::Display for ArpNewError {
    fn fmt(&self, f: &mut fmt::Formatter<'_>) -> fmt::Result {
        match self {
            ArpNewError::HwAddr(error) => error.fmt(f),
            ArpNewError::ProtoAddr(error) => error.fmt(f),
        }
    }
}

impl Error for ArpNewError {}
