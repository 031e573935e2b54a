//! The fault of memory.

use std::error::Error;
use std::fmt;

/// Memory was refused.
#[derive(Clone, Copy, PartialEq, Eq, Debug)]
pub struct NoMemory;

impl fmt::Display for NoMemory {
    fn fmt(&self, f: &mut fmt::Formatter<'_>) -> fmt::Result {
        write!(f, "Memory was refused.")
    }
}

impl Error for NoMemory {}
