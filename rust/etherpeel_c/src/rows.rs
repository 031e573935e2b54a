//! Writes a row for each packet of a capture.

use crate::statuses::{DONE, NO_ROOM};
use crate::{EtherCaptured, EtherRow};

/// Writes the row of each packet to the front of an array, if it has room for all of them.
///
/// <details><summary>Contract</summary>
///
/// ```text
/// ensures { PutsEach HoldsRow packets.now rows.old rows.new result }
/// ```
///
/// </details>
#[unsafe(no_mangle)]
pub unsafe extern "C" fn etherpeel_rows(packets: *const EtherCaptured<'_>, packets_len: usize, rows: *mut EtherRow, rows_len: usize) -> u32 {
    let packets = unsafe { crate::by_hand::shared(packets, packets_len) };
    let rows = unsafe { crate::by_hand::mutable(rows, rows_len) };
    if rows.len() < packets.len() {
        return NO_ROOM;
    }
    for (at, packet) in packets.iter().enumerate() {
        rows[at] = EtherRow::of(packet);
    }
    DONE
}
