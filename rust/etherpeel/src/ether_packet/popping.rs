//! Takes VLAN tags off in place.

use crate::ether_packet::TagError;
use crate::ether_packet::packet_builder::put_at;
use crate::ether_packet::typed_link::{chunk_at, typed_link};
use crate::ether_peel::Start;
use crate::SingleVlanHeader;

/// Takes off the VLAN tag after the link's header, in place, and returns it. The frame is then `frame[4..]`.
///
/// The ether type of the tag becomes that of the link's header. Only the bytes of the link before that ether type are
/// moved: 12 bytes of addresses, or 14 bytes of a cooked capture header. So the time does not depend on the length of
/// the frame. All later headers and the payload are unchanged, even if a later header is refused. A frame check
/// sequence and an integrity check value are also unchanged, and don't fit the new frame.
///
/// # Errors
///
/// The frame is then unchanged:
///
/// - [`TagError::NoLink`]: the frame begins after a link's header ([`Start::EtherType`]), or its link's header is
///   refused.
/// - [`TagError::HardwareType`]: the header of cooked capture has this hardware type, which is not that of Ethernet.
/// - [`TagError::NoVlan`]: the ether type of the link's header does not announce a VLAN tag.
/// - [`TagError::CutVlan`]: it does, but fewer than 4 bytes follow, not counting a frame check sequence.
///
/// # Examples
///
/// ```
/// use etherpeel::SingleVlanHeader;
/// use etherpeel::ether_peel::Start;
/// use etherpeel::ether_packet::pop_vlan;
///
/// # fn main() -> Result<(), Box<dyn std::error::Error>> {
/// let mut frame = [
///     0xFF, 0xFF, 0xFF, 0xFF, 0xFF, 0xFF, 0x02, 0x00, 0x00, 0x00, 0x00, 0x01, 0x81, 0x00, // Ethernet II
///     0xB1, 0x23, 0x08, 0x00, // VLAN
///     0x45,
/// ];
/// let tag = pop_vlan(Start::Ethernet2, &mut frame)?;
/// assert_eq!(tag, SingleVlanHeader::from_bytes([0xB1, 0x23, 0x08, 0x00]));
/// assert_eq!(frame[4..], [
///     0xFF, 0xFF, 0xFF, 0xFF, 0xFF, 0xFF, 0x02, 0x00, 0x00, 0x00, 0x00, 0x01, 0x08, 0x00, // Ethernet II
///     0x45,
/// ]);
/// # Ok(())
/// # }
/// ```
///
/// <details><summary>Contract</summary>
///
/// ```text
/// ensures ok { IfOk result (λ tag. (hs : List Header) (e : Ending)
///     → Walk (start_of start) frame.old hs e
///     → IsPopped (start_of start) frame.old hs e (vlan_view tag) frame.new) }
/// ensures tag { IfOk result (λ tag. (hs : List Header) (e : Ending)
///     → Walk (start_of start) frame.old hs e → outer_tag hs ≡ Some (vlan_view tag)) }
/// ensures none { OnErr result ((hs : List Header) (e : Ending)
///     → Walk (start_of start) frame.old hs e → outer_tag hs ≡ None) }
/// ensures refused { IfErr result (λ error. (hs : List Header) (e : Ending)
///     → Walk (start_of start) frame.old hs e → RefusesPop hs error) }
/// ensures kept { OnErr result (frame.new ≡ frame.old) }
/// ```
///
/// Words: [`Header`](crate::definitions::ether_base#def.Header),
/// [`Ending`](crate::definitions::ether_peel#def.Ending), [`Walk`](crate::definitions::ether_peel#def.Walk),
/// [`start_of`](crate::definitions::ether_peel#def.start_of),
/// [`IsPopped`](crate::definitions::ether_packet#def.IsPopped),
/// [`vlan_view`](crate::definitions::ether_tags#def.vlan_view),
/// [`outer_tag`](crate::definitions::ether_packet#def.outer_tag),
/// [`RefusesPop`](crate::definitions::ether_packet#def.RefusesPop). [Notation](crate::definitions::notation)
///
/// </details>
#[inline]
pub fn pop_vlan(start: Start, frame: &mut [u8]) -> Result<SingleVlanHeader, TagError> {
    match start {
        Start::LinuxSll => {
            require_tag(start, frame)?;
            Ok(take_off::<14>(frame))
        }
        _ => {
            require_tag(start, frame)?;
            Ok(take_off::<12>(frame))
        }
    }
}

/// Requires that a VLAN tag follows the link's header.
#[inline(always)]
pub(in crate::ether_packet) fn require_tag(start: Start, frame: &[u8]) -> Result<(), TagError> {
    let link = typed_link(start, frame)?;
    if !link.ether_type.announces_vlan() {
        return Err(TagError::NoVlan);
    }
    if link.payload_len < SingleVlanHeader::LEN {
        return Err(TagError::CutVlan);
    }
    Ok(())
}

/// Returns the tag after a link's header whose type is at the offset `N`, and moves the bytes before the type over it.
#[inline(always)]
fn take_off<const N: usize>(frame: &mut [u8]) -> SingleVlanHeader {
    let tag = SingleVlanHeader::from_bytes(chunk_at::<4>(frame, N + 2));
    let front = chunk_at::<N>(frame, 0);
    put_at(frame, 4, front);
    tag
}
