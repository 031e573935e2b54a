//! The bytes that complete a unit if a frame has only its first bytes.

use crate::ether_peel::summarizing::summarized;
use crate::ether_peel::{PeelError, Start};
use arrayvec::ArrayVec;
use crate::MacsecHeaderSlice;
use crate::err::Layer;

/// The bytes of a fill after its first one: at most 1,027, all 0.
const ZEROS: [u8; 1027] = [0; 1027];

/// Returns the fewest bytes that make a frame which was cut short accepted if they follow it. They complete the unit
/// in which the frame ends.
///
/// The unit is an Ethernet II header, a VLAN tag, an ARP packet, or a MACsec SecTag with the payload whose length it
/// names. Each byte is 0, and a size of an ARP packet that is missing too is therefore 0. The one exception: if the
/// frame ends between the two bytes of the unit's ether type, and the first of these is 0x81 or 0x91, then the second
/// one is 1, since 0x8100 and 0x9100 would announce a VLAN tag. So exactly one unit is added, and no other header is
/// announced after it.
///
/// `None` if the frame
///
/// - is accepted,
/// - is refused for its contents,
/// - is refused in a closed window, as every refused frame with a frame check sequence is, so that more bytes would
///   not help,
/// - ends before the end of its header of Linux cooked capture,
/// - has fewer than six bytes of a SecTag that is announced,
/// - has a whole SecTag, but not the whole payload whose length the tag names.
///
/// The bytes are returned by value, in a list with room for 1,028 bytes, the length of the longest ARP packet. So the
/// result takes 1,028 bytes of stack and its length, in the callee and in the caller.
///
/// ```
/// use etherpeel::ether_peel::{Start, completion};
///
/// let frame = [
///     0xFF, 0xFF, 0xFF, 0xFF, 0xFF, 0xFF, 0x02, 0x00, 0x00, 0x00, 0x00, 0x01, 0x08, 0x06, // Ethernet II
///     0x00, 0x01, 0x08, 0x00, 0x01, 0x02, // ARP: addresses of one and of two bytes
/// ];
/// let fill = completion(Start::Ethernet2, &frame);
/// assert_eq!(fill.as_ref().map(|fill| fill.as_slice()), Some(&[0; 8][..]));
/// ```
///
/// <details><summary>Contract</summary>
///
/// ```text
/// ensures { MatchOption result (NothingToComplete (start_of start) bytes.now)
///     (λ fill. Completes (start_of start) bytes.now fill.items) }
/// ```
///
/// Words: [`NothingToComplete`](crate::definitions::ether_peel#def.NothingToComplete),
/// [`start_of`](crate::definitions::ether_peel#def.start_of),
/// [`Completes`](crate::definitions::ether_peel#def.Completes). [Notation](crate::definitions::notation)
///
/// </details>
#[must_use]
#[inline]
pub fn completion(start: Start, bytes: &[u8]) -> Option<ArrayVec<u8, 1028>> {
    completed(start, bytes, None)
}

/// Like [`completion`], but for the walk of [`Peel::with_limit`](crate::ether_peel::Peel::with_limit), which reads at most `limit`
/// VLAN tags and MACsec SecTags.
///
/// It is also `None` if a tag that was cut short is beyond the limit, since that walk accepts the frame.
///
/// ```
/// use etherpeel::ether_peel::{Start, completion_limited};
///
/// let frame = [
///     0xFF, 0xFF, 0xFF, 0xFF, 0xFF, 0xFF, 0x02, 0x00, 0x00, 0x00, 0x00, 0x01, 0x81, 0x00, // Ethernet II
///     0xB1, 0x23, // VLAN
/// ];
/// let fill = completion_limited(Start::Ethernet2, &frame, 1);
/// assert_eq!(fill.as_ref().map(|fill| fill.as_slice()), Some(&[0; 2][..]));
/// assert!(completion_limited(Start::Ethernet2, &frame, 0).is_none());
/// ```
///
/// <details><summary>Contract</summary>
///
/// ```text
/// ensures { MatchOption result (NothingToComplete (limited_start start limit) bytes.now)
///     (λ fill. Completes (limited_start start limit) bytes.now fill.items) }
/// ```
///
/// Words: [`NothingToComplete`](crate::definitions::ether_peel#def.NothingToComplete),
/// [`limited_start`](crate::definitions::ether_peel#def.limited_start),
/// [`Completes`](crate::definitions::ether_peel#def.Completes). [Notation](crate::definitions::notation)
///
/// </details>
#[must_use]
#[inline]
pub fn completion_limited(start: Start, bytes: &[u8], limit: usize) -> Option<ArrayVec<u8, 1028>> {
    completed(start, bytes, Some(limit))
}

/// The completion by a walk with a limit on extensions or without.
#[inline(always)]
fn completed(start: Start, bytes: &[u8], limit: Option<usize>) -> Option<ArrayVec<u8, 1028>> {
    let fault = summarized(start, bytes, limit).fault?;
    if fault.closed {
        return None;
    }
    let PeelError::Len(error) = &fault.error else {
        return None;
    };
    let begun = &bytes[fault.offset..];
    let plan = planned(error.layer, begun)?;
    Some(fill(begun, &plan))
}

/// A unit whose first bytes a frame has.
struct Plan {
    /// The length of the whole unit in bytes.
    total: usize,
    /// The offset of its ether type in the unit, if it has one.
    ether_type_at: Option<usize>,
}

/// The unit of a layer that begins with these bytes. `None` if it cannot be completed.
#[inline]
fn planned(layer: Layer, begun: &[u8]) -> Option<Plan> {
    let (total, ether_type_at) = match layer {
        Layer::Ethernet2Header => (14, Some(12)),
        Layer::VlanHeader => (4, Some(2)),
        Layer::MacsecHeader => return planned_tag(begun),
        Layer::Arp => (8 + 2 * byte_at(begun, 4) + 2 * byte_at(begun, 5), None),
        _ => return None,
    };
    Some(Plan {
        total,
        ether_type_at,
    })
}

/// The SecTag that begins with these bytes, with the payload whose length it names. `None` for fewer than six bytes.
#[inline]
fn planned_tag(begun: &[u8]) -> Option<Plan> {
    let [first, second, _, _, _, _, ..] = *begun else {
        return None;
    };
    // the lengths depend on the first two bytes
    let front = [first, second, 0, 0, 0, 0, 0, 0, 0, 0, 0, 0, 0, 0, 0, 0];
    let Ok(tag) = MacsecHeaderSlice::from_slice(&front) else {
        return None; // not reached: it would be refused in the frame, too, and not for its length
    };
    let header_len = tag.header_len();
    Some(Plan {
        total: header_len + tag.expected_payload_len().unwrap_or(0),
        ether_type_at: if tag.is_unmodified() {
            Some(header_len - 2)
        } else {
            None
        },
    })
}

/// The byte at a place as a number, 0 if there is none.
#[inline]
fn byte_at(bytes: &[u8], place: usize) -> usize {
    match bytes.get(place) {
        Some(byte) => usize::from(*byte),
        None => 0,
    }
}

/// The bytes that make a unit whole.
#[inline]
fn fill(begun: &[u8], plan: &Plan) -> ArrayVec<u8, 1028> {
    let mut fill = ArrayVec::new();
    fill.push(first_byte(begun, plan.ether_type_at));
    let zeros = &ZEROS[..plan.total - begun.len() - 1];
    fill.try_extend_from_slice(zeros).unwrap();
    fill
}

/// The first byte of a fill: 0, or 1 if a 0 would end an ether type that announces a VLAN tag.
#[inline]
fn first_byte(begun: &[u8], ether_type_at: Option<usize>) -> u8 {
    let Some(place) = ether_type_at else {
        return 0;
    };
    match begun.get(place..) {
        Some([0x81 | 0x91]) => 1,
        _ => 0,
    }
}
