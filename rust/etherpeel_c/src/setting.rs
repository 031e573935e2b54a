//! Changes VLAN tags in place.

use crate::EtherVlan;
use crate::numbers::start_of;
use crate::statuses::{BAD_FIELD, DONE, UNKNOWN_START, tag_error};
use etherpeel::ether_packet::{set_tpid, set_vlan_id, set_vlan_tag};
use etherpeel::{EtherType, VlanId};

/// Sets the identifier of the VLAN tag at an index among the VLAN tags and SecTags, in place.
///
/// <details><summary>Contract</summary>
///
/// ```text
/// ensures unknown { IsUnknown start ether_type → IsUnknownStart result (frame.new ≡ frame.old) }
/// ensures unfit { OfStart start ether_type
///     (λ _. 4096 ≤ vid → (result ≡ bad_field) × (frame.new ≡ frame.old)) }
/// ensures given { OfStart start ether_type
///     (λ s. vid < 4096
///     → GivesSet (start_of s) index (with_vid vid) frame.old frame.new result) }
/// ```
///
/// </details>
#[unsafe(no_mangle)]
pub unsafe extern "C" fn etherpeel_set_vlan_id(
    start: u32,
    ether_type: u16,
    frame: *mut u8,
    frame_len: usize,
    index: usize,
    vid: u16,
) -> u32 {
    let frame = unsafe { crate::by_hand::mutable(frame, frame_len) };
    let Some(start) = start_of(start, ether_type) else {
        return UNKNOWN_START;
    };
    let Ok(vlan_id) = VlanId::try_new(vid) else {
        return BAD_FIELD;
    };
    match set_vlan_id(start, frame, index, vlan_id) {
        Ok(()) => DONE,
        Err(error) => tag_error(&error),
    }
}

/// Sets the priority code point, the drop eligible indicator and the identifier of the VLAN tag at an index among the
/// VLAN tags and SecTags, in place.
///
/// <details><summary>Contract</summary>
///
/// ```text
/// ensures unknown { IsUnknown start ether_type → IsUnknownStart result (frame.new ≡ frame.old) }
/// ensures unfit { OfStart start ether_type
///     (λ _. (FitsVlan (vlan_value tag.now) → ⊥)
///     → (result ≡ bad_field) × (frame.new ≡ frame.old)) }
/// ensures given { OfStart start ether_type
///     (λ s. FitsVlan (vlan_value tag.now)
///     → GivesSet (start_of s) index (with_control (vlan_value tag.now)) frame.old frame.new result) }
/// ```
///
/// </details>
#[unsafe(no_mangle)]
pub unsafe extern "C" fn etherpeel_set_vlan_tag(
    start: u32,
    ether_type: u16,
    frame: *mut u8,
    frame_len: usize,
    index: usize,
    tag: &EtherVlan,
) -> u32 {
    let frame = unsafe { crate::by_hand::mutable(frame, frame_len) };
    let Some(start) = start_of(start, ether_type) else {
        return UNKNOWN_START;
    };
    let Some(tag) = tag.to_header() else {
        return BAD_FIELD;
    };
    match set_vlan_tag(
        start,
        frame,
        index,
        tag.pcp,
        tag.drop_eligible_indicator,
        tag.vlan_id,
    ) {
        Ok(()) => DONE,
        Err(error) => tag_error(&error),
    }
}

/// Sets the ether type that announces the VLAN tag at an index among the VLAN tags and SecTags, in place.
///
/// <details><summary>Contract</summary>
///
/// ```text
/// ensures unknown { IsUnknown start ether_type → IsUnknownStart result (frame.new ≡ frame.old) }
/// ensures given { OfStart start ether_type
///     (λ s. GivesSetTpid (start_of s) index tpid frame.old frame.new result) }
/// ```
///
/// </details>
#[unsafe(no_mangle)]
pub unsafe extern "C" fn etherpeel_set_tpid(
    start: u32,
    ether_type: u16,
    frame: *mut u8,
    frame_len: usize,
    index: usize,
    tpid: u16,
) -> u32 {
    let frame = unsafe { crate::by_hand::mutable(frame, frame_len) };
    let Some(start) = start_of(start, ether_type) else {
        return UNKNOWN_START;
    };
    match set_tpid(start, frame, index, EtherType(tpid)) {
        Ok(()) => DONE,
        Err(error) => tag_error(&error),
    }
}
