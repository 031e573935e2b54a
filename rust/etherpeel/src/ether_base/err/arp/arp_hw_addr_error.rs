//! Hardware addresses that do not fit into an ARP packet.

use core::error::Error;
use core::fmt;

/// Why two hardware addresses do not fit into one ARP packet, which has one length byte for both (RFC 826).
///
/// ```
/// use etherpeel::err::arp::ArpHwAddrError;
///
/// let error = ArpHwAddrError::LenTooBig(256);
/// assert_eq!(
///     format!("{error}").as_str(),
///     "ARP Hardware Address Error: Given hardware address has a length of 256 which is greater then the maximum of 255."
/// );
/// ```
#[derive(Clone, Copy, PartialEq, Eq, Hash, Debug)]
pub enum ArpHwAddrError {
    /// The addresses are longer than 255 bytes; this is their length.
    LenTooBig(usize),
    /// The addresses differ in length: the length of the sender's, and of the target's.
    LenNonMatching(usize, usize),
}

impl fmt::Display for ArpHwAddrError {
    fn fmt(&self, f: &mut fmt::Formatter<'_>) -> fmt::Result {
        match self {
            ArpHwAddrError::LenTooBig(len) => write!(
                f,
                "ARP Hardware Address Error: Given hardware address has a length of {len} which is greater then the maximum of 255."
            ),
            ArpHwAddrError::LenNonMatching(sender, target) => write!(
                f,
                "ARP Hardware Address Error: Given sender & target hardware addresses have differing lengths of {sender} & {target} (must be matching)."
            ),
        }
    }
}

impl Error for ArpHwAddrError {}
