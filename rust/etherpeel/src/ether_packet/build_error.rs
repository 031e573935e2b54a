//! Why a packet is not written.

use crate::ArpHardwareId;
use crate::err::SliceWriteSpaceError;
use core::fmt;

/// Why a packet is not written. The target is then unchanged.
///
/// ```
/// use etherpeel::ether_packet::BuildError;
///
/// assert_eq!(
///     format!("{}", BuildError::Sealed(1)).as_str(),
///     "A header follows the SecTag at index 1, whose payload is encrypted or changed."
/// );
/// ```
#[derive(Clone, Copy, PartialEq, Eq, Hash, Debug)]
pub enum BuildError {
    /// The link is a cooked capture with this hardware type. It is not that of Ethernet, so the protocol type can't
    /// announce what follows.
    HardwareType(ArpHardwareId),
    /// A header follows the SecTag at this index of `link_exts`, but the payload of that SecTag is encrypted or
    /// changed.
    Sealed(usize),
    /// The target is too short for the packet.
    Space(SliceWriteSpaceError),
}

impl fmt::Display for BuildError {
    fn fmt(&self, f: &mut fmt::Formatter<'_>) -> fmt::Result {
        match self {
            BuildError::HardwareType(hardware_type) => {
                let number = hardware_type.0;
                write!(
                    f,
                    "No ether type can follow a header of cooked capture of hardware type {number}."
                )
            }
            BuildError::Sealed(index) => write!(
                f,
                "A header follows the SecTag at index {index}, whose payload is encrypted or changed."
            ),
            BuildError::Space(error) => error.fmt(f),
        }
    }
}
