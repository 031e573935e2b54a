//! A walk that receives a frame piece by piece, and no byte that it did not ask for.

use crate::ether_peel::{Feed, Peel, PeelError, PeelFault, Start};

/// Walks through a frame like a reader of a stream, which asks for exactly the bytes that the walk needs next.
///
/// The walk begins with no bytes. Whenever it stops at a unit that needs more bytes, in an open window, it is given
/// the fewest bytes that the unit needs, if the frame has them, and goes on from that unit. So the time is linear in
/// the number of units.
///
/// If the frame is accepted and has no frame check sequence, the walk takes exactly the bytes of its units: not the
/// payload of the last header, unless a SecTag names its length. In a frame with a check sequence every window is
/// closed, so nothing is asked for.
///
/// ```
/// use etherpeel::ether_peel::{Start, feed};
///
/// let frame = [
///     0xFF, 0xFF, 0xFF, 0xFF, 0xFF, 0xFF, 0x02, 0x00, 0x00, 0x00, 0x00, 0x01, 0x81, 0x00, // Ethernet II
///     0xB1, 0x23, 0x08, 0x00, // VLAN
///     0x45,
/// ];
/// let fed = feed(Start::Ethernet2, &frame);
/// assert_eq!(fed.refusals, 2); // 14 bytes were asked for, then 18
/// assert_eq!(fed.taken, 18);
/// assert_eq!(fed.fault, None);
/// ```
///
/// <details><summary>Contract</summary>
///
/// ```text
/// ensures { IsFeed (start_of start) bytes.now result }
/// ```
///
/// Words: [`IsFeed`](crate::definitions::ether_peel#def.IsFeed),
/// [`start_of`](crate::definitions::ether_peel#def.start_of). [Notation](crate::definitions::notation)
///
/// </details>
#[must_use]
#[inline]
pub fn feed(start: Start, bytes: &[u8]) -> Feed {
    fed(start, bytes, None)
}

/// Like [`feed`], but for the walk of [`Peel::with_limit`], which reads at most `limit` VLAN tags and MACsec SecTags.
///
/// It asks for no byte of the tags that it does not read.
///
/// ```
/// use etherpeel::ether_peel::{Start, feed_limited};
///
/// let frame = [
///     0xFF, 0xFF, 0xFF, 0xFF, 0xFF, 0xFF, 0x02, 0x00, 0x00, 0x00, 0x00, 0x01, 0x81, 0x00, // Ethernet II
///     0xB1, 0x23, 0x08, 0x00, // VLAN
///     0x45,
/// ];
/// let fed = feed_limited(Start::Ethernet2, &frame, 0);
/// assert_eq!(fed.refusals, 1);
/// assert_eq!(fed.taken, 14);
/// assert_eq!(fed.fault, None);
/// ```
///
/// <details><summary>Contract</summary>
///
/// ```text
/// ensures { IsFeed (limited_start start limit) bytes.now result }
/// ```
///
/// Words: [`IsFeed`](crate::definitions::ether_peel#def.IsFeed),
/// [`limited_start`](crate::definitions::ether_peel#def.limited_start). [Notation](crate::definitions::notation)
///
/// </details>
#[must_use]
#[inline]
pub fn feed_limited(start: Start, bytes: &[u8], limit: usize) -> Feed {
    fed(start, bytes, Some(limit))
}

/// Feeds a walk with a limit on extensions or without.
#[inline(always)]
fn fed(start: Start, bytes: &[u8], limit: Option<usize>) -> Feed {
    let mut peel = Peel::begin(start, &bytes[..0], limit);
    let mut refusals = 0;
    let mut taken = 0;
    loop {
        match peel.next() {
            Some(Ok(_)) => (),
            Some(Err(fault)) => match asked_of(&fault, bytes.len()) {
                Some(length) => {
                    peel.go_on(&bytes[..length]);
                    refusals += 1;
                    taken = length;
                }
                None => {
                    return Feed {
                        refusals,
                        taken,
                        fault: Some(fault),
                    };
                }
            },
            None => {
                return Feed {
                    refusals,
                    taken,
                    fault: None,
                };
            }
        }
    }
}

/// The length that a fault names, if it asks for more bytes and a frame of `len` bytes has them.
#[inline(always)]
fn asked_of(fault: &PeelFault, len: usize) -> Option<usize> {
    match &fault.error {
        PeelError::Len(error) if !fault.closed && error.required_len <= len - fault.offset => {
            Some(fault.offset + error.required_len)
        }
        _ => None,
    }
}
