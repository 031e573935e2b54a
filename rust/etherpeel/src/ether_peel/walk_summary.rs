//! The result of a whole walk.
use crate::ether_peel::{PeelFault, RestKind};

/// The result of the walk through a frame.
#[cfg_attr(feature = "serde", derive(serde::Serialize, serde::Deserialize))]
#[derive(Clone, Copy, PartialEq, Eq, Hash, Debug)]
pub struct Summary {
    /// The number of units.
    pub units: usize,
    /// Where the window that is left starts, in bytes from the start of the frame.
    pub rest_start: usize,
    /// Where that window ends, in bytes from the start of the frame.
    pub rest_end: usize,
    /// What that window is announced as. After a fault, this is what was expected there.
    pub kind: RestKind,
    /// The unit that is refused, if one is.
    pub fault: Option<PeelFault>,
}
