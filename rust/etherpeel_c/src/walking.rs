//! Writes the units of a frame to an array.

use crate::EtherUnit;
use crate::ether_unit::UnitPlace;
use crate::numbers::start_of;
use crate::statuses::{DONE, UNKNOWN_START};
use etherpeel::ether_peel::{Peel, PeelFault, PeelUnit, Start, Summary};

/// Writes as many units of a frame as the array has room for, and the number of all its units.
///
/// <details><summary>Contract</summary>
///
/// ```text
/// ensures unknown { IsUnknown start ether_type
///     → IsUnknownStart result ((units.new ≡ units.old) × (count.new ≡ count.old)) }
/// ensures given { OfStart start ether_type
///     (λ s. GivesWalk (start_meant s) bytes.now units.old units.new result count.new) }
/// ```
///
/// </details>
#[unsafe(no_mangle)]
pub unsafe extern "C" fn etherpeel_walk(
    start: u32,
    ether_type: u16,
    bytes: *const u8,
    bytes_len: usize,
    units: *mut EtherUnit,
    units_len: usize,
    count: &mut usize,
) -> u32 {
    let bytes = unsafe { crate::by_hand::shared(bytes, bytes_len) };
    let units = unsafe { crate::by_hand::mutable(units, units_len) };
    let Some(start) = start_of(start, ether_type) else {
        return UNKNOWN_START;
    };
    *count = walked(start, bytes, None, units).units;
    DONE
}

/// Does as [`etherpeel_walk`] for the walk that reads at most `limit` VLAN tags and MACsec SecTags.
///
/// <details><summary>Contract</summary>
///
/// ```text
/// ensures unknown { IsUnknown start ether_type
///     → IsUnknownStart result ((units.new ≡ units.old) × (count.new ≡ count.old)) }
/// ensures given { OfStart start ether_type
///     (λ s. GivesWalk (limited_start s limit) bytes.now units.old units.new result count.new) }
/// ```
///
/// </details>
#[unsafe(no_mangle)]
pub unsafe extern "C" fn etherpeel_walk_limited(
    start: u32,
    ether_type: u16,
    bytes: *const u8,
    bytes_len: usize,
    limit: usize,
    units: *mut EtherUnit,
    units_len: usize,
    count: &mut usize,
) -> u32 {
    let bytes = unsafe { crate::by_hand::shared(bytes, bytes_len) };
    let units = unsafe { crate::by_hand::mutable(units, units_len) };
    let Some(start) = start_of(start, ether_type) else {
        return UNKNOWN_START;
    };
    *count = walked(start, bytes, Some(limit), units).units;
    DONE
}

/// Writes as many units of a walk, with a limit on tags or without, as the array has room for. Returns the result of
/// the walk.
#[inline(always)]
pub(crate) fn walked(
    start: Start,
    bytes: &[u8],
    limit: Option<usize>,
    units: &mut [EtherUnit],
) -> Summary {
    let mut peel = begun_walk(start, bytes, limit);
    let mut count = 0;
    loop {
        let offset = peel.offset();
        match peel.next() {
            Some(Ok(unit)) => {
                let place = UnitPlace {
                    offset,
                    payload_start: peel.offset(),
                    payload_end: peel.offset() + peel.rest().len(),
                    closed: peel.closed(),
                };
                put(units, count, &unit, place);
                count += 1;
            }
            Some(Err(fault)) => return ended(&peel, count, Some(fault)),
            None => return ended(&peel, count, None),
        }
    }
}

/// A walk that has read nothing yet, with a limit on tags or without.
#[inline(always)]
fn begun_walk<'a>(start: Start, bytes: &'a [u8], limit: Option<usize>) -> Peel<'a> {
    match limit {
        Some(limit) => Peel::with_limit(start, bytes, limit),
        None => Peel::new(start, bytes),
    }
}

/// Writes a unit to the index `at`, if the array has that index.
#[inline(always)]
fn put(units: &mut [EtherUnit], at: usize, unit: &PeelUnit<'_>, place: UnitPlace) {
    if at < units.len() {
        units[at].set(unit, place);
    }
}

/// The result of a walk at its end.
#[inline(always)]
fn ended(peel: &Peel<'_>, units: usize, fault: Option<PeelFault>) -> Summary {
    let rest_start = peel.offset();
    Summary {
        units,
        rest_start,
        rest_end: rest_start + peel.rest().len(),
        kind: peel.kind(),
        fault,
    }
}
