//! Rows with the same texts, which wait to be counted by the texts of columns.

use crate::ether_capture::count::Count;
use crate::ether_capture::count_table::CountTable;
use crate::ether_capture::grouping::Grouping;
use crate::ether_capture::heap_text::HeapText;
use crate::ether_capture::row_counts::count_texts;
use crate::ether_stream::NoMemory;
use crate::ether_capture::memory::Global;

/// How many slots there are.
pub(in crate::ether_capture) const SLOTS: usize = 256;

/// Rows with the same texts, which are counted by the texts of columns once others come, or at the end.
pub(in crate::ether_capture) struct RowSlot {
    texts: HeapText,
    count: Option<Count>,
}

impl RowSlot {
    /// No row waits.
    pub(in crate::ether_capture) fn new(alloc: Global) -> RowSlot {
        RowSlot {
            texts: HeapText::new(alloc),
            count: None,
        }
    }

    /// Takes packets with these texts. Those with other texts that wait are counted first.
    fn take<G: Grouping>(
        &mut self,
        texts: &[u8],
        more: Count,
        heading: &[u8],
        key: &mut HeapText,
        counts: &mut CountTable,
    ) -> Result<(), NoMemory> {
        if let Some(count) = self.count {
            if self.texts.as_slice() == texts {
                self.count = Some(count.with(more));
                return Ok(());
            }
        }
        self.count::<G>(heading, key, counts)?;
        self.texts.clear();
        self.texts.append(texts)?;
        self.count = Some(more);
        Ok(())
    }

    /// Counts the packets that wait.
    fn count<G: Grouping>(
        &self,
        heading: &[u8],
        key: &mut HeapText,
        counts: &mut CountTable,
    ) -> Result<(), NoMemory> {
        match self.count {
            Some(count) => count_texts::<G>(heading, self.texts.as_slice(), count, key, counts),
            None => Ok(()),
        }
    }
}

/// Takes packets with these texts into the slot for them.
pub(in crate::ether_capture) fn take_row<G: Grouping>(
    slots: &mut [RowSlot],
    texts: &[u8],
    more: Count,
    heading: &[u8],
    key: &mut HeapText,
    counts: &mut CountTable,
) -> Result<(), NoMemory> {
    let at = slot_of(texts);
    if at >= slots.len() {
        return count_texts::<G>(heading, texts, more, key, counts);
    }
    slots[at].take::<G>(texts, more, heading, key, counts)
}

/// Counts all packets that wait.
pub(in crate::ether_capture) fn count_waiting<G: Grouping>(
    slots: &[RowSlot],
    heading: &[u8],
    key: &mut HeapText,
    counts: &mut CountTable,
) -> Result<(), NoMemory> {
    for slot in slots {
        slot.count::<G>(heading, key, counts)?;
    }
    Ok(())
}

/// The slot for texts: any, as long as it depends on them alone.
fn slot_of(texts: &[u8]) -> usize {
    let mut hash: usize = 0;
    for byte in texts {
        hash = hash.wrapping_mul(31).wrapping_add(usize::from(*byte));
    }
    (hash ^ hash >> 7) % SLOTS
}
