//! Memory of the heap. Written by hand, not proved.
use crate::ether_stream::{Grow, NoMemory};
use crate::ether_capture::memory::Global;

/// Memory of the heap.
pub struct HeapMemory {
    bytes: Vec<u8>,
}

impl HeapMemory {
    /// Memory of 0 bytes.
    pub fn new(_alloc: Global) -> HeapMemory {
        HeapMemory { bytes: Vec::new() }
    }
}

impl Grow for HeapMemory {
    fn bytes(&self) -> &[u8] {
        self.bytes.as_slice()
    }

    fn bytes_mut(&mut self) -> &mut [u8] {
        self.bytes.as_mut_slice()
    }

    fn grow(&mut self, len: usize) -> Result<(), NoMemory> {
        let more = len.saturating_sub(self.bytes.len());
        if self.bytes.try_reserve(more).is_err() {
            return Err(NoMemory);
        }
        self.bytes.resize(self.bytes.len() + more, 0);
        Ok(())
    }
}
