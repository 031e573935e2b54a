//! Writes the options of a unit of a capture file to an array.

use crate::statuses::{BAD_FIELD, DONE};
use crate::{EtherOption, EtherReader};
use etherpeel::ether_pcap::PcapngOptions;

/// Writes as many options of a unit as the array has room for, and the number of all of them.
///
/// <details><summary>Contract</summary>
///
/// ```text
/// ensures unfit { state_of reader.now ≡ None
///     → (result ≡ bad_field) × (options.new ≡ options.old) × (count.new ≡ count.old) }
/// ensures given { IfSome (state_of reader.now) (λ state.
///     GivesOptions unit.now state options.old options.new count.new result) }
/// ```
///
/// </details>
#[unsafe(no_mangle)]
pub unsafe extern "C" fn etherpeel_reader_options<'a>(
    reader: &EtherReader,
    unit: *const u8,
    unit_len: usize,
    options: *mut EtherOption<'a>,
    options_len: usize,
    count: &mut usize,
) -> u32 {
    let unit = unsafe { crate::by_hand::shared(unit, unit_len) };
    let options = unsafe { crate::by_hand::mutable(options, options_len) };
    let Some(state) = reader.to_state() else {
        return BAD_FIELD;
    };
    *count = match state.options(unit) {
        Some(found) => put_options(found, options),
        None => 0,
    };
    DONE
}

/// Writes as many options as the array has room for. Returns the number of all of them.
fn put_options<'a>(found: PcapngOptions<'a>, options: &mut [EtherOption<'a>]) -> usize {
    let mut count = 0;
    for option in found {
        put(options, count, EtherOption::of(&option));
        count += 1;
    }
    count
}

/// Writes an option to the index `at`, if the array has that index.
fn put<'a>(options: &mut [EtherOption<'a>], at: usize, option: EtherOption<'a>) {
    if at < options.len() {
        options[at] = option;
    }
}
