//! Puts VLAN tags in, in place.

use crate::EtherVlan;
use crate::numbers::start_of;
use crate::statuses::{BAD_FIELD, DONE, UNKNOWN_START, tag_error};
use etherpeel::ether_packet::push_vlan;
use etherpeel::EtherType;

/// Puts a VLAN tag after the link's header, in place. Before the call the frame begins at the fifth byte of the
/// buffer, and after it at the first.
///
/// <details><summary>Contract</summary>
///
/// ```text
/// ensures unknown { IsUnknown start ether_type → IsUnknownStart result (buffer.new ≡ buffer.old) }
/// ensures unfit { OfStart start ether_type
///     (λ _. (FitsVlan (vlan_value tag.now) → ⊥)
///     → (result ≡ bad_field) × (buffer.new ≡ buffer.old)) }
/// ensures given { OfStart start ether_type
///     (λ s. FitsVlan (vlan_value tag.now)
///     → GivesPush (start_meant s) (vlan_value tag.now) tpid buffer.old buffer.new result) }
/// ```
///
/// </details>
#[unsafe(no_mangle)]
pub unsafe extern "C" fn etherpeel_push_vlan(
    start: u32,
    ether_type: u16,
    buffer: *mut u8,
    buffer_len: usize,
    tag: &EtherVlan,
    tpid: u16,
) -> u32 {
    let buffer = unsafe { crate::by_hand::mutable(buffer, buffer_len) };
    let Some(start) = start_of(start, ether_type) else {
        return UNKNOWN_START;
    };
    let Some(tag) = tag.to_header() else {
        return BAD_FIELD;
    };
    match push_vlan(start, buffer, tag, EtherType(tpid)) {
        Ok(()) => DONE,
        Err(error) => tag_error(&error),
    }
}
