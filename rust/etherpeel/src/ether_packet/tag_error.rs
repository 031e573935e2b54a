//! Why a VLAN tag is not taken off, put in or changed.

use crate::{ArpHardwareId, EtherType};
use core::error::Error;
use core::fmt;

/// Why a VLAN tag is not taken off, put in or changed. The frame is then unchanged.
///
/// ```
/// use etherpeel::EtherType;
/// use etherpeel::ether_packet::TagError;
///
/// assert_eq!(
///     format!("{}", TagError::Tpid(EtherType::IPV4)).as_str(),
///     "No VLAN tag is announced by the ether type 2048."
/// );
/// ```
#[derive(Clone, Copy, PartialEq, Eq, Hash, Debug)]
pub enum TagError {
    /// This ether type does not announce a VLAN tag: it is not 0x8100, 0x88A8 or 0x9100.
    Tpid(EtherType),
    /// The buffer has fewer than the four bytes of a tag.
    NoRoom,
    /// The frame does not begin with a link's header that can be read.
    NoLink,
    /// The header of cooked capture has this hardware type. It is not that of Ethernet, so the protocol type is not an
    /// ether type.
    HardwareType(ArpHardwareId),
    /// There is no VLAN tag or SecTag at the index. The error names the number of VLAN tags and SecTags.
    NoLinkExt(usize),
    /// There is no VLAN tag: the ether type of the link's header announces something else, or there is a SecTag at the
    /// index.
    NoVlan,
    /// The link's header announces a VLAN tag, but it is cut short.
    CutVlan,
    /// No header precedes the VLAN tag: the frame begins with it.
    Unannounced,
}

impl fmt::Display for TagError {
    fn fmt(&self, f: &mut fmt::Formatter<'_>) -> fmt::Result {
        match self {
            TagError::Tpid(tpid) => {
                let number = tpid.0;
                write!(f, "No VLAN tag is announced by the ether type {number}.")
            }
            TagError::NoRoom => f.write_str("The buffer has no room for a VLAN tag."),
            TagError::NoLink => f.write_str("The frame does not begin with the header of a link."),
            TagError::HardwareType(hardware) => {
                let number = hardware.0;
                write!(
                    f,
                    "No ether type can follow a header of cooked capture of hardware type {number}."
                )
            }
            TagError::NoLinkExt(count) => write!(
                f,
                "There is no VLAN tag or SecTag at this index: the frame has {count}."
            ),
            TagError::NoVlan => f.write_str("There is no VLAN tag."),
            TagError::CutVlan => f.write_str("The VLAN tag is cut short."),
            TagError::Unannounced => f.write_str("The frame begins with the VLAN tag."),
        }
    }
}

impl Error for TagError {}
