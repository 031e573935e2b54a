//! The whole walk through a frame in one call.

use crate::ether_peel::{Peel, PeelFault, Start, Summary};

/// Walks through a frame to its end, and returns the result.
///
/// ```
/// use etherpeel::EtherType;
/// use etherpeel::ether_peel::{RestKind, Start, summary};
///
/// let frame = [
///     0xFF, 0xFF, 0xFF, 0xFF, 0xFF, 0xFF, 0x02, 0x00, 0x00, 0x00, 0x00, 0x01, 0x81, 0x00, // Ethernet II
///     0xB1, 0x23, 0x08, 0x00, // VLAN
///     0x45,
/// ];
/// let found = summary(Start::Ethernet2, &frame);
/// assert_eq!(found.units, 2);
/// assert_eq!((found.rest_start, found.rest_end), (18, 19));
/// assert_eq!(found.kind, RestKind::EtherType(EtherType::IPV4));
/// assert_eq!(found.fault, None);
/// ```
///
/// <details><summary>Contract</summary>
///
/// ```text
/// ensures { IsSummary (start_of start) bytes.now result }
/// ```
///
/// Words: [`IsSummary`](crate::definitions::ether_peel#def.IsSummary),
/// [`start_of`](crate::definitions::ether_peel#def.start_of). [Notation](crate::definitions::notation)
///
/// </details>
#[must_use]
#[inline(always)]
pub fn summary(start: Start, bytes: &[u8]) -> Summary {
    summarized(start, bytes, None)
}

/// Like [`summary`], but for the walk of [`Peel::with_limit`], which reads at most `limit` VLAN tags and MACsec
/// SecTags.
///
/// Its units are the first ones of the walk without a limit. Since each tag takes at least four bytes, a limit greater
/// than `bytes.len() / 4` changes nothing.
///
/// ```
/// use etherpeel::EtherType;
/// use etherpeel::ether_peel::{RestKind, Start, summary_limited};
///
/// let frame = [
///     0xFF, 0xFF, 0xFF, 0xFF, 0xFF, 0xFF, 0x02, 0x00, 0x00, 0x00, 0x00, 0x01, 0x81, 0x00, // Ethernet II
///     0xB1, 0x23, 0x08, 0x00, // VLAN
/// ];
/// let found = summary_limited(Start::Ethernet2, &frame, 0);
/// assert_eq!(found.units, 1);
/// assert_eq!((found.rest_start, found.rest_end), (14, 18));
/// assert_eq!(found.kind, RestKind::EtherType(EtherType::VLAN_TAGGED_FRAME));
/// assert_eq!(found.fault, None);
/// ```
///
/// <details><summary>Contract</summary>
///
/// ```text
/// ensures summary { IsSummary (limited_start start limit) bytes.now result }
/// ensures front { IsFrontOfUnlimited start bytes.now limit }
/// ensures spare { length bytes.now / 4 < limit → IsSummary (start_of start) bytes.now result }
/// ```
///
/// Words: [`IsSummary`](crate::definitions::ether_peel#def.IsSummary),
/// [`limited_start`](crate::definitions::ether_peel#def.limited_start),
/// [`IsFrontOfUnlimited`](crate::definitions::ether_peel#def.IsFrontOfUnlimited),
/// [`start_of`](crate::definitions::ether_peel#def.start_of). [Notation](crate::definitions::notation)
///
/// </details>
#[must_use]
#[inline(always)]
pub fn summary_limited(start: Start, bytes: &[u8], limit: usize) -> Summary {
    summarized(start, bytes, Some(limit))
}

/// The result of the walk through a frame, with a limit on extensions or without.
#[inline(always)]
pub(in crate::ether_peel) fn summarized(start: Start, bytes: &[u8], limit: Option<usize>) -> Summary {
    let mut peel = Peel::begin(start, bytes, limit);
    let mut units = 0;
    loop {
        match peel.next() {
            Some(Ok(_)) => units += 1,
            Some(Err(fault)) => return ended(&peel, units, Some(fault)),
            None => return ended(&peel, units, None),
        }
    }
}

/// Like [`summary`], but for the first `n` bytes of a frame, as if it was captured with that snap length.
///
/// `n` must be at most the length of the frame.
///
/// Unless the frame ends in a frame check sequence, the units are the first ones of the whole frame. If the whole
/// frame is accepted, the cut has exactly the units that fit into it, and if a unit is cut off, the fault says how
/// many bytes it needs at least.
///
/// ```
/// use etherpeel::ether_peel::{Start, snap};
///
/// let frame = [
///     0xFF, 0xFF, 0xFF, 0xFF, 0xFF, 0xFF, 0x02, 0x00, 0x00, 0x00, 0x00, 0x01, 0x81, 0x00, // Ethernet II
///     0xB1, 0x23, 0x08, 0x00, // VLAN
/// ];
/// let found = snap(Start::Ethernet2, &frame, 16);
/// assert_eq!(found.units, 1);
/// assert_eq!(found.fault.as_ref().and_then(|fault| fault.missing()), Some(2));
/// ```
///
/// # Panics
///
/// The call may panic, or return something else, if a `requires` of its contract is not met.
///
/// <details><summary>Contract</summary>
///
/// ```text
/// requires { n ≤ length bytes.now }
/// ensures { IsCutSummary (start_of start) bytes.now n result }
/// ```
///
/// Words: [`IsCutSummary`](crate::definitions::ether_peel#def.IsCutSummary),
/// [`start_of`](crate::definitions::ether_peel#def.start_of). [Notation](crate::definitions::notation)
///
/// </details>
#[must_use]
#[inline(always)]
pub fn snap(start: Start, bytes: &[u8], n: usize) -> Summary {
    snapped(start, bytes, n, None)
}

/// Like [`snap`], but for the walk of [`Peel::with_limit`], which reads at most `limit` VLAN tags and MACsec SecTags.
///
/// `n` must be at most the length of the frame.
///
/// ```
/// use etherpeel::ether_peel::{Start, snap_limited};
///
/// let frame = [
///     0xFF, 0xFF, 0xFF, 0xFF, 0xFF, 0xFF, 0x02, 0x00, 0x00, 0x00, 0x00, 0x01, 0x81, 0x00, // Ethernet II
///     0xB1, 0x23, 0x08, 0x00, // VLAN
/// ];
/// assert_eq!(snap_limited(Start::Ethernet2, &frame, 16, 0).fault, None);
/// let found = snap_limited(Start::Ethernet2, &frame, 16, 1);
/// assert_eq!(found.fault.as_ref().and_then(|fault| fault.missing()), Some(2));
/// ```
///
/// # Panics
///
/// The call may panic, or return something else, if a `requires` of its contract is not met.
///
/// <details><summary>Contract</summary>
///
/// ```text
/// requires { n ≤ length bytes.now }
/// ensures { IsCutSummary (limited_start start limit) bytes.now n result }
/// ```
///
/// Words: [`IsCutSummary`](crate::definitions::ether_peel#def.IsCutSummary),
/// [`limited_start`](crate::definitions::ether_peel#def.limited_start). [Notation](crate::definitions::notation)
///
/// </details>
#[must_use]
#[inline(always)]
pub fn snap_limited(start: Start, bytes: &[u8], n: usize, limit: usize) -> Summary {
    snapped(start, bytes, n, Some(limit))
}

/// The result of the walk through the first `n` bytes of a frame, with a limit on extensions or without.
#[inline(always)]
fn snapped(start: Start, bytes: &[u8], n: usize, limit: Option<usize>) -> Summary {
    summarized(start, &bytes[..n], limit)
}

/// The summary of a walk at its end.
#[inline(always)]
fn ended(peel: &Peel<'_>, units: usize, fault: Option<PeelFault>) -> Summary {
    let rest_start = peel.offset();
    Summary {
        units,
        rest_start,
        rest_end: rest_start + peel.rest().len(),
        kind: peel.kind(),
        fault,
    }
}
