//! What stands for the allocator. Written by hand, not proved.

/// The allocator of std, which has no name there.
#[derive(Clone, Copy)]
pub struct Global;

/// Memory was refused.
#[derive(Debug, thiserror::Error)]
#[error("out of memory")]
pub struct NoMemory;
