//! Takes VLAN tags off in place.

use crate::EtherVlan;
use crate::numbers::start_of;
use crate::statuses::{DONE, UNKNOWN_START, tag_error};
use etherpeel::ether_packet::pop_vlan;

/// Takes off the VLAN tag after the link's header, in place. The frame then begins at its fifth byte.
///
/// <details><summary>Contract</summary>
///
/// ```text
/// ensures unknown { IsUnknown start ether_type
///     → IsUnknownStart result ((frame.new ≡ frame.old) × (tag.new ≡ tag.old)) }
/// ensures given { OfStart start ether_type
///     (λ s. GivesPop (start_meant s) frame.old frame.new tag.old tag.new result) }
/// ```
///
/// </details>
#[unsafe(no_mangle)]
pub unsafe extern "C" fn etherpeel_pop_vlan(
    start: u32,
    ether_type: u16,
    frame: *mut u8,
    frame_len: usize,
    tag: &mut EtherVlan,
) -> u32 {
    let frame = unsafe { crate::by_hand::mutable(frame, frame_len) };
    let Some(start) = start_of(start, ether_type) else {
        return UNKNOWN_START;
    };
    match pop_vlan(start, frame) {
        Ok(popped) => {
            *tag = EtherVlan::of_header(popped);
            DONE
        }
        Err(error) => tag_error(&error),
    }
}
