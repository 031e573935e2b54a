//! Why a header is not replaced.

use crate::ether_packet::Difference;
use core::error::Error;
use core::fmt;

/// Why a header is not replaced. The frame is then unchanged.
///
/// ```
/// use etherpeel::ether_packet::ReplaceError;
///
/// assert_eq!(
///     format!("{}", ReplaceError::NoLinkExt(1)).as_str(),
///     "There is no VLAN tag or SecTag at this index: the frame has 1."
/// );
/// ```
#[derive(Clone, Copy, PartialEq, Eq, Hash, Debug)]
pub enum ReplaceError {
    /// The frame does not begin with a link's header that can be read.
    NoLink,
    /// There is no VLAN tag or SecTag at the index. The error names the number of VLAN tags and SecTags.
    NoLinkExt(usize),
    /// The frame has no ARP packet.
    NoArp,
    /// The new header differs from the one in the frame in its kind, in what it says about what follows it, or in the
    /// length of its addresses.
    SaysOther(Difference),
}

impl fmt::Display for ReplaceError {
    fn fmt(&self, f: &mut fmt::Formatter<'_>) -> fmt::Result {
        match self {
            ReplaceError::NoLink => {
                f.write_str("The frame does not begin with the header of a link.")
            }
            ReplaceError::NoLinkExt(count) => write!(
                f,
                "There is no VLAN tag or SecTag at this index: the frame has {count}."
            ),
            ReplaceError::NoArp => f.write_str("The frame has no ARP packet."),
            ReplaceError::SaysOther(difference) => write!(
                f,
                "The header in the frame is another one in this: {difference}."
            ),
        }
    }
}

impl Error for ReplaceError {}
