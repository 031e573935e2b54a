//! A text on the heap. Written by hand, not proved.
use crate::ether_capture::memory::Global;
use crate::ether_stream::NoMemory;

/// A text on the heap.
pub struct HeapText {
    bytes: Vec<u8>,
}

impl HeapText {
    /// A text with nothing in it, which takes no memory.
    pub fn new(_alloc: Global) -> HeapText {
        HeapText { bytes: Vec::new() }
    }

    /// The text.
    pub fn as_slice(&self) -> &[u8] {
        self.bytes.as_slice()
    }

    /// Empties the text, and keeps its memory.
    pub fn clear(&mut self) {
        self.bytes.clear();
    }

    /// Appends bytes.
    pub fn append(&mut self, bytes: &[u8]) -> Result<(), NoMemory> {
        if self.bytes.try_reserve(bytes.len()).is_err() {
            return Err(NoMemory);
        }
        self.bytes.extend_from_slice(bytes);
        Ok(())
    }
}
