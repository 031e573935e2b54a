//! Feeds a walk with a frame piece by piece.

use crate::EtherFed;
use crate::numbers::start_of;
use crate::statuses::{DONE, UNKNOWN_START};
use etherpeel::ether_peel::{feed, feed_limited};

/// What a reader takes of a frame if it asks each time for exactly the bytes that the walk needs next.
///
/// <details><summary>Contract</summary>
///
/// ```text
/// ensures unknown { IsUnknown start ether_type → IsUnknownStart result (fed.new ≡ fed.old) }
/// ensures given { OfStart start ether_type
///     (λ s. GivesFeed (start_meant s) bytes.now result fed.new) }
/// ```
///
/// </details>
#[unsafe(no_mangle)]
pub unsafe extern "C" fn etherpeel_feed(
    start: u32,
    ether_type: u16,
    bytes: *const u8,
    bytes_len: usize,
    fed: &mut EtherFed,
) -> u32 {
    let bytes = unsafe { crate::by_hand::shared(bytes, bytes_len) };
    let Some(start) = start_of(start, ether_type) else {
        return UNKNOWN_START;
    };
    *fed = EtherFed::of(&feed(start, bytes));
    DONE
}

/// Does as [`etherpeel_feed`] for the walk that reads at most `limit` VLAN tags and MACsec SecTags.
///
/// <details><summary>Contract</summary>
///
/// ```text
/// ensures unknown { IsUnknown start ether_type → IsUnknownStart result (fed.new ≡ fed.old) }
/// ensures given { OfStart start ether_type
///     (λ s. GivesFeed (limited_start s limit) bytes.now result fed.new) }
/// ```
///
/// </details>
#[unsafe(no_mangle)]
pub unsafe extern "C" fn etherpeel_feed_limited(
    start: u32,
    ether_type: u16,
    bytes: *const u8,
    bytes_len: usize,
    limit: usize,
    fed: &mut EtherFed,
) -> u32 {
    let bytes = unsafe { crate::by_hand::shared(bytes, bytes_len) };
    let Some(start) = start_of(start, ether_type) else {
        return UNKNOWN_START;
    };
    *fed = EtherFed::of(&feed_limited(start, bytes, limit));
    DONE
}
