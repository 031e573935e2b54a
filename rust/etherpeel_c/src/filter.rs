//! A filter, as a struct of C.

use etherpeel::ether_filter::{Filter, Instruction};

/// A filter in memory of the caller: `etherpeel_filter` in C.
///
/// Each bit pattern is a value, so C may pass memory that it has not written to. If no text was read into it, nothing
/// is claimed of what the calls return.
#[repr(C)]
#[derive(Clone, Copy)]
pub struct EtherFilter {
    /// The instructions. Those after the first `len` have no meaning.
    instructions: [Instruction; Filter::MAX_WORDS],
    /// The number of instructions.
    len: usize,
}

// as c/etherpeel.h lays it out
const _: () = assert!(size_of::<EtherFilter>() == 4616);

impl EtherFilter {
    /// Copies the instructions of a filter.
    pub(crate) fn put(&mut self, filter: &Filter) {
        let instructions = filter.instructions();
        self.instructions[..instructions.len()].copy_from_slice(instructions);
        self.len = instructions.len();
    }

    /// The instructions of the filter.
    #[inline]
    pub(crate) fn program(&self) -> &[Instruction] {
        &self.instructions[..self.len.min(Filter::MAX_WORDS)]
    }
}
