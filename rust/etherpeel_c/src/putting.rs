//! Writes bytes to the front of a target.

use crate::statuses::{DONE, NO_ROOM};

/// Writes bytes to the front of a target, if it has room for all of them. Returns the status of the call, and the
/// number of bytes.
pub(crate) fn put_bytes(bytes: &[u8], target: &mut [u8]) -> (u32, usize) {
    let len = bytes.len();
    if target.len() < len {
        return (NO_ROOM, len);
    }
    target[..len].copy_from_slice(bytes);
    (DONE, len)
}
