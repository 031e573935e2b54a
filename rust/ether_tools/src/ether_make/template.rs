//! The frames of an object with ranges.

use crate::ether_make::bits::set_bits;
use crate::ether_make::frame::{Frame, make_frame};
use crate::ether_make::objects::given;
use crate::ether_make::refusal::Fault;
use crate::ether_make::slot::{Found, Slot, slots_of};
use crate::ether_make::random::NextWord;
use crate::ether_make::random::SplitMix64;
use crate::ether_make::json::Value;
use crate::ether_make::memory::Global;

/// The first frame of an object, and what ranges it has.
#[derive(Debug)]
pub struct Template {
    /// The frame with the first number of each range.
    pub frame: Frame,
    /// The places of the ranges.
    pub found: Found,
}

/// The frames that an object means. A refusal borrows the name of a member from the object.
///
/// <details><summary>Contract</summary>
///
/// ```text
/// ensures { Tells template_view (template_meaning (view object.now)) result }
/// ```
///
/// </details>
pub fn make_template<'v>(alloc: Global, object: &'v Value) -> Result<Template, Fault<'v>> {
    let frame = match make_frame(alloc, object) {
        Ok(frame) => frame,
        Err(fault) => return Err(fault),
    };
    match object_slots(alloc, object) {
        Ok(found) => Ok(Template { frame, found }),
        Err(fault) => Err(fault),
    }
}

/// The places of the ranges of an object.
fn object_slots<'v>(alloc: Global, object: &'v Value) -> Result<Found, Fault<'v>> {
    match given(object, "headers") {
        Some(headers) => array_slots(alloc, headers),
        None => slots_of(alloc, &[]),
    }
}

/// .. of a value that should be an array.
fn array_slots<'v>(alloc: Global, headers: &'v Value) -> Result<Found, Fault<'v>> {
    match headers.as_array() {
        Some(objects) => slots_of(alloc, objects.as_slice()),
        None => slots_of(alloc, &[]),
    }
}

/// Gives each range of a frame its number. The frame has at most 262,144 bytes.
///
/// # Panics
///
/// The call may panic, or return something else, if a `requires` of its contract is not met.
///
/// <details><summary>Contract</summary>
///
/// ```text
/// requires { length bytes.old ≤ longest }
/// ensures bytes { bytes.new ≡ numbered index generator.old slots.now bytes.old }
/// ensures len { length bytes.new ≡ length bytes.old }
/// ensures drawn { generator.new ≡ all_drawn slots.now generator.old }
/// ```
///
/// </details>
pub fn number_ranges(bytes: &mut [u8], slots: &[Slot], index: u64, generator: &mut SplitMix64) {
    fill_all(bytes, slots, index, generator);
}

/// .. in its bits.
fn fill_all(bytes: &mut [u8], slots: &[Slot], index: u64, generator: &mut SplitMix64) {
    for slot in slots {
        let number = next_number(slot, index, generator);
        fill(bytes, slot, number);
    }
}

/// The number of a range.
fn next_number(slot: &Slot, index: u64, generator: &mut SplitMix64) -> u64 {
    let range = &slot.range;
    let place = if range.is_random {
        generator.next_word()
    } else {
        index.checked_div(slot.below).unwrap_or(0)
    };
    let steps = range.step.wrapping_mul(remainder(place, range.last));
    range.from.wrapping_add(steps)
}

/// The remainder of a division by a number and one more.
fn remainder(number: u64, last: u64) -> u64 {
    match last.checked_add(1) {
        Some(count) => number % count,
        None => number,
    }
}

/// Writes the number of a range over its bits.
fn fill(bytes: &mut [u8], slot: &Slot, number: u64) {
    let bits = 8 * bytes.len();
    if slot.at <= bits && slot.len <= bits - slot.at {
        set_bits(bytes, slot.at, slot.len, number);
    }
}
