//! The first headers of a frame: that of the link, and the VLAN tag directly after it.

use crate::ether_packet::popping::require_tag;
use crate::ether_packet::typed_link::chunk_at;
use crate::ether_peel::Start;
use crate::{Ethernet2Header, Ethernet2Slice, LinuxSllHeader, SingleVlanHeader};

/// The first headers of an Ethernet II frame.
#[cfg_attr(feature = "serde", derive(serde::Serialize, serde::Deserialize))]
#[derive(Clone, Copy, PartialEq, Eq, Hash, Debug)]
pub struct EthernetFront {
    /// The header of Ethernet II.
    pub link: Ethernet2Header,
    /// The VLAN tag directly after it, if there is one.
    pub vlan: Option<SingleVlanHeader>,
}

/// Reads the header of an Ethernet II frame without a frame check sequence, and the VLAN tag directly after it.
///
/// This is what a switch or a load balancer needs; the bytes after these headers are not read. `None` if the frame has
/// fewer than 14 bytes. A VLAN tag that is cut short is not returned.
///
/// # Examples
///
/// ```
/// use etherpeel::SingleVlanHeader;
/// use etherpeel::ether_packet::ethernet_front;
///
/// let frame = [
///     0xFF, 0xFF, 0xFF, 0xFF, 0xFF, 0xFF, 0x02, 0x00, 0x00, 0x00, 0x00, 0x01, 0x81, 0x00, // Ethernet II
///     0xB1, 0x23, 0x08, 0x00, // VLAN
///     0x45,
/// ];
/// match ethernet_front(&frame) {
///     Some(front) => {
///         assert_eq!(front.link.source, [2, 0, 0, 0, 0, 1]);
///         assert_eq!(front.vlan, Some(SingleVlanHeader::from_bytes([0xB1, 0x23, 0x08, 0x00])));
///     }
///     None => panic!("no header"),
/// }
/// ```
///
/// <details><summary>Contract</summary>
///
/// ```text
/// ensures link { (hs : List Header) (e : Ending) → Walk (start_of Start.Ethernet2) frame.now hs e
///     → first_ethernet2 hs ≡ option_map (λ f. ethernet2_view f.link) result }
/// ensures ether_type { (hs : List Header) (e : Ending) → Walk (start_of Start.Ethernet2) frame.now hs e
///     → link_type hs ≡ option_map (λ f. f.link.ether_type.0) result }
/// ensures vlan { (hs : List Header) (e : Ending) → Walk (start_of Start.Ethernet2) frame.now hs e
///     → outer_tag hs ≡ option_and_then (λ f. option_map vlan_view f.vlan) result }
/// ```
///
/// Words: [`Header`](crate::definitions::ether_base#def.Header),
/// [`Ending`](crate::definitions::ether_peel#def.Ending), [`Walk`](crate::definitions::ether_peel#def.Walk),
/// [`start_of`](crate::definitions::ether_peel#def.start_of),
/// [`first_ethernet2`](crate::definitions::ether_packet#def.first_ethernet2),
/// [`ethernet2_view`](crate::definitions::ether_tags#def.ethernet2_view),
/// [`link_type`](crate::definitions::ether_packet#def.link_type),
/// [`outer_tag`](crate::definitions::ether_packet#def.outer_tag),
/// [`vlan_view`](crate::definitions::ether_tags#def.vlan_view). [Notation](crate::definitions::notation)
///
/// </details>
#[must_use]
#[inline]
pub fn ethernet_front(frame: &[u8]) -> Option<EthernetFront> {
    match Ethernet2Slice::from_slice_without_fcs(frame) {
        Ok(slice) => Some(EthernetFront {
            link: slice.to_header(),
            vlan: outer_vlan(Start::Ethernet2, frame),
        }),
        Err(_) => None,
    }
}

/// The VLAN tag directly after the header of the link, which is the tag that [`pop_vlan`](crate::ether_packet::pop_vlan) would take
/// off.
///
/// `None` where `pop_vlan` refuses the frame.
///
/// # Examples
///
/// ```
/// use etherpeel::SingleVlanHeader;
/// use etherpeel::ether_peel::Start;
/// use etherpeel::ether_packet::outer_vlan;
///
/// let frame = [
///     0xFF, 0xFF, 0xFF, 0xFF, 0xFF, 0xFF, 0x02, 0x00, 0x00, 0x00, 0x00, 0x01, 0x81, 0x00, // Ethernet II
///     0xB1, 0x23, 0x08, 0x00, // VLAN
/// ];
/// let tag = outer_vlan(Start::Ethernet2, &frame);
/// assert_eq!(tag, Some(SingleVlanHeader::from_bytes([0xB1, 0x23, 0x08, 0x00])));
/// assert_eq!(outer_vlan(Start::Ethernet2, &frame[..17]), None);
/// ```
///
/// <details><summary>Contract</summary>
///
/// ```text
/// ensures { (hs : List Header) (e : Ending) → Walk (start_of start) frame.now hs e
///     → outer_tag hs ≡ option_map vlan_view result }
/// ```
///
/// Words: [`Header`](crate::definitions::ether_base#def.Header),
/// [`Ending`](crate::definitions::ether_peel#def.Ending), [`Walk`](crate::definitions::ether_peel#def.Walk),
/// [`start_of`](crate::definitions::ether_peel#def.start_of),
/// [`outer_tag`](crate::definitions::ether_packet#def.outer_tag),
/// [`vlan_view`](crate::definitions::ether_tags#def.vlan_view). [Notation](crate::definitions::notation)
///
/// </details>
#[must_use]
#[inline]
pub fn outer_vlan(start: Start, frame: &[u8]) -> Option<SingleVlanHeader> {
    match require_tag(start, frame) {
        Ok(()) => Some(SingleVlanHeader::from_bytes(chunk_at::<4>(frame, link_len(start)))),
        Err(_) => None,
    }
}

/// The length in bytes of the link's header, for a start that has one.
#[inline]
fn link_len(start: Start) -> usize {
    match start {
        Start::LinuxSll => LinuxSllHeader::LEN,
        _ => Ethernet2Header::LEN,
    }
}
