//! The whole walk through a frame in one call.

use crate::EtherFound;
use crate::numbers::start_of;
use crate::statuses::{DONE, UNKNOWN_START};
use etherpeel::ether_peel::{summary, summary_limited};

/// The result of the walk through a frame.
///
/// <details><summary>Contract</summary>
///
/// ```text
/// ensures unknown { IsUnknown start ether_type → IsUnknownStart result (found.new ≡ found.old) }
/// ensures given { OfStart start ether_type
///     (λ s. GivesSummary (start_meant s) bytes.now result found.new) }
/// ```
///
/// </details>
#[unsafe(no_mangle)]
pub unsafe extern "C" fn etherpeel_summary(
    start: u32,
    ether_type: u16,
    bytes: *const u8,
    bytes_len: usize,
    found: &mut EtherFound,
) -> u32 {
    let bytes = unsafe { crate::by_hand::shared(bytes, bytes_len) };
    let Some(start) = start_of(start, ether_type) else {
        return UNKNOWN_START;
    };
    found.set(&summary(start, bytes));
    DONE
}

/// Does as [`etherpeel_summary`] for the walk that reads at most `limit` VLAN tags and MACsec SecTags.
///
/// <details><summary>Contract</summary>
///
/// ```text
/// ensures unknown { IsUnknown start ether_type → IsUnknownStart result (found.new ≡ found.old) }
/// ensures given { OfStart start ether_type
///     (λ s. GivesSummary (limited_start s limit) bytes.now result found.new) }
/// ensures front { OfStart start ether_type (λ s. IsFrontOfUnlimited s bytes.now limit) }
/// ensures spare { OfStart start ether_type (λ s.
///     length bytes.now / 4 < limit
///     → GivesSummary (start_meant s) bytes.now result found.new) }
/// ```
///
/// </details>
#[unsafe(no_mangle)]
pub unsafe extern "C" fn etherpeel_summary_limited(
    start: u32,
    ether_type: u16,
    bytes: *const u8,
    bytes_len: usize,
    limit: usize,
    found: &mut EtherFound,
) -> u32 {
    let bytes = unsafe { crate::by_hand::shared(bytes, bytes_len) };
    let Some(start) = start_of(start, ether_type) else {
        return UNKNOWN_START;
    };
    found.set(&summary_limited(start, bytes, limit));
    DONE
}
