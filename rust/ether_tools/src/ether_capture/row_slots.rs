//! Slots on the heap. Written by hand, not proved.
use crate::ether_capture::memory::Global;
use crate::ether_capture::row_slot::{RowSlot, SLOTS};
use crate::ether_stream::NoMemory;

/// No slot, which takes no memory.
pub(in crate::ether_capture) fn no_slots(_alloc: Global) -> Vec<RowSlot> {
    Vec::new()
}

/// Slots in which no row waits. Never returns an error: without memory std ends the process.
pub(in crate::ether_capture) fn empty_slots(alloc: Global) -> Result<Vec<RowSlot>, NoMemory> {
    Ok((0..SLOTS).map(|_| RowSlot::new(alloc)).collect())
}
