//! How the walk through a packet ends.

use crate::ether_format::cause::Cause;
use crate::ether_fields::Section;
use crate::ether_peel::RestKind;

/// How the walk through a packet ends.
#[derive(Clone, Copy, Debug)]
pub enum End {
    /// What is left: the offsets of its start and its end, and what it is announced as.
    Rest(usize, usize, RestKind),
    /// A packet whose link type the walk does not know, with its length in bytes.
    Skipped(usize),
    /// A fault: its offset, whether bytes appended to the packet would lie outside the window there, and what is wrong.
    Fault(usize, bool, Cause),
}

impl End {
    /// Whether no header is refused.
    #[inline]
    pub(in crate::ether_format) fn is_accepted(&self) -> bool {
        !matches!(self, End::Fault(_, _, _))
    }

    /// The offset of the first byte after the last header that is found.
    #[inline]
    pub(in crate::ether_format) fn headers_end(&self) -> usize {
        match self {
            End::Rest(start, _, _) | End::Fault(start, _, _) => *start,
            End::Skipped(_) => 0,
        }
    }

    /// Its section.
    #[inline(always)]
    pub(in crate::ether_format) fn section(&self) -> Section {
        match self {
            End::Rest(_, _, _) | End::Skipped(_) => Section::Rest,
            End::Fault(_, _, _) => Section::Fault,
        }
    }
}
