//! The result of feeding a walk.
use crate::ether_peel::PeelFault;

/// The result of [`feed`](crate::ether_peel::feed): how often a walk asked for more bytes, how many it took, and how it ended.
#[cfg_attr(feature = "serde", derive(serde::Serialize, serde::Deserialize))]
#[derive(Clone, Copy, PartialEq, Eq, Hash, Debug)]
pub struct Feed {
    /// How often the walk asked for more bytes and was given them.
    pub refusals: usize,
    /// How many bytes it was given in all.
    pub taken: usize,
    /// The fault of the walk of these bytes, if it has one.
    pub fault: Option<PeelFault>,
}
