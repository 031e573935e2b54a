//! A unit that is refused, and where.

use crate::ether_peel::PeelError;
use core::fmt;

/// A unit that is refused, which ends a walk.
///
/// `Display` gives `at offset O: ` and the text of the error.
#[cfg_attr(feature = "serde", derive(serde::Serialize, serde::Deserialize))]
#[derive(Clone, Copy, PartialEq, Eq, Hash)]
pub struct PeelFault {
    /// Where the unit starts, in bytes from the start of the frame.
    pub offset: usize,
    /// Why it is refused. The lengths of a length error count from the unit's start, which is its
    /// `layer_start_offset`.
    pub error: PeelError,
    /// Whether the unit's window is closed: bytes appended to the frame would lie outside it.
    pub closed: bool, // the last field, since a flag between the others slows down what is copied
}

impl PeelFault {
    /// The minimum number of further bytes that the unit needs.
    ///
    /// `None` if more bytes after the frame would not help: the contents are refused, or the unit's window is closed.
    ///
    /// <details><summary>Contract</summary>
    ///
    /// ```text
    /// ensures { MatchOption result ((n : ℕ) → Misses self.now n → ⊥) (Misses self.now) }
    /// ```
    ///
    /// Words: [`Misses`](crate::definitions::ether_peel#def.Misses). [Notation](crate::definitions::notation)
    ///
    /// </details>
    #[must_use]
    #[inline]
    pub fn missing(&self) -> Option<usize> {
        match &self.error {
            PeelError::Len(error) if !self.closed && error.required_len > error.len => {
                Some(error.required_len - error.len)
            }
            _ => None,
        }
    }
}

impl fmt::Display for PeelFault {
    fn fmt(&self, f: &mut fmt::Formatter<'_>) -> fmt::Result {
        let offset = self.offset;
        let error = &self.error;
        write!(f, "at offset {offset}: {error}")
    }
}

impl fmt::Debug for PeelFault {
    fn fmt(&self, f: &mut fmt::Formatter<'_>) -> fmt::Result {
        f.debug_struct("PeelFault")
            .field("offset", &self.offset)
            .field("closed", &self.closed)
            .field("error", &self.error)
            .finish()
    }
}
