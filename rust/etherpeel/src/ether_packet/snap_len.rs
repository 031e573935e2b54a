//! The number of bytes that the headers of a frame take.

use crate::ether_peel::{Peel, PeelUnit, Start};

/// The number of bytes that the headers of a frame take, with the payloads whose lengths they give: the least snap
/// length that keeps all of them. There may be any number of headers;
/// [`PacketSlice::min_snap_len`](crate::ether_packet::PacketSlice::min_snap_len) counts only those that a packet holds.
///
/// A frame check sequence is not counted, nor is a header that is refused.
///
/// ```
/// use etherpeel::ether_peel::Start;
/// use etherpeel::ether_packet::min_snap_len;
///
/// let frame = [
///     0xFF, 0xFF, 0xFF, 0xFF, 0xFF, 0xFF, 0x02, 0x00, 0x00, 0x00, 0x00, 0x01, 0x81, 0x00, // Ethernet II
///     0xB1, 0x23, 0x08, 0x00, // VLAN
///     0x45, 0x00,
/// ];
/// assert_eq!(min_snap_len(Start::Ethernet2, &frame), 18);
/// ```
///
/// <details><summary>Contract</summary>
///
/// ```text
/// ensures value { (hs : List Header) (e : Ending) → Walk (start_of start) frame.now hs e
///     → result ≡ reach 0 hs }
/// ensures least { has_fcs (start_of start) ≡ false → (hs : List Header) (e : Ending)
///     → Walk (start_of start) frame.now hs e → IsLeastSnap (start_of start) frame.now hs result }
/// ensures within { result ≤ length frame.now }
/// ```
///
/// Words: [`Header`](crate::definitions::ether_base#def.Header),
/// [`Ending`](crate::definitions::ether_peel#def.Ending), [`Walk`](crate::definitions::ether_peel#def.Walk),
/// [`start_of`](crate::definitions::ether_peel#def.start_of),
/// [`reach`](crate::definitions::ether_peel#def.reach), [`has_fcs`](crate::definitions::ether_peel#def.has_fcs),
/// [`IsLeastSnap`](crate::definitions::ether_packet#def.IsLeastSnap). [Notation](crate::definitions::notation)
///
/// </details>
#[must_use]
#[inline]
pub fn min_snap_len(start: Start, frame: &[u8]) -> usize {
    reached(start, frame)
}

/// The offset at which the headers of a frame end, with the payloads whose lengths they give.
#[inline(always)]
fn reached(start: Start, frame: &[u8]) -> usize {
    let mut peel = Peel::new(start, frame);
    let mut len = 0;
    loop {
        match peel.next() {
            Some(Ok(unit)) => len = unit_end(&unit, &peel).max(len),
            Some(Err(_)) => return len,
            None => return len,
        }
    }
}

/// The offset at which the unit ends that a walk has just returned, with its payload if the unit gives the payload's
/// length.
#[inline(always)]
fn unit_end(unit: &PeelUnit<'_>, peel: &Peel<'_>) -> usize {
    match unit {
        PeelUnit::Macsec(packet) if packet.header.expected_payload_len().is_some() => {
            peel.offset() + peel.rest().len()
        }
        _ => peel.offset(),
    }
}
