//! The number of bytes that are missing from a frame cut short.

use crate::numbers::start_of;
use crate::statuses::{DONE, UNKNOWN_START};
use etherpeel::ether_peel::{PeelFault, summary, summary_limited};

/// The minimum number of further bytes that the refused unit needs, 0 if more bytes would not help.
///
/// <details><summary>Contract</summary>
///
/// ```text
/// ensures unknown { IsUnknown start ether_type → IsUnknownStart result (missing.new ≡ missing.old) }
/// ensures given { OfStart start ether_type
///     (λ s. GivesMissing (start_meant s) bytes.now result missing.new) }
/// ```
///
/// </details>
#[unsafe(no_mangle)]
pub unsafe extern "C" fn etherpeel_missing(
    start: u32,
    ether_type: u16,
    bytes: *const u8,
    bytes_len: usize,
    missing: &mut usize,
) -> u32 {
    let bytes = unsafe { crate::by_hand::shared(bytes, bytes_len) };
    let Some(start) = start_of(start, ether_type) else {
        return UNKNOWN_START;
    };
    *missing = missing_at_end(&summary(start, bytes).fault);
    DONE
}

/// Does as [`etherpeel_missing`] for the walk that reads at most `limit` VLAN tags and MACsec SecTags.
///
/// <details><summary>Contract</summary>
///
/// ```text
/// ensures unknown { IsUnknown start ether_type → IsUnknownStart result (missing.new ≡ missing.old) }
/// ensures given { OfStart start ether_type
///     (λ s. GivesMissing (limited_start s limit) bytes.now result missing.new) }
/// ```
///
/// </details>
#[unsafe(no_mangle)]
pub unsafe extern "C" fn etherpeel_missing_limited(
    start: u32,
    ether_type: u16,
    bytes: *const u8,
    bytes_len: usize,
    limit: usize,
    missing: &mut usize,
) -> u32 {
    let bytes = unsafe { crate::by_hand::shared(bytes, bytes_len) };
    let Some(start) = start_of(start, ether_type) else {
        return UNKNOWN_START;
    };
    *missing = missing_at_end(&summary_limited(start, bytes, limit).fault);
    DONE
}

/// The number of bytes that are missing at the end of a walk with this fault; 0 if there is no fault.
fn missing_at_end(fault: &Option<PeelFault>) -> usize {
    match fault {
        Some(fault) => fault.missing().unwrap_or(0),
        None => 0,
    }
}
