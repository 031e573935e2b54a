//! Puts VLAN tags in, in place.

use crate::ether_packet::TagError;
use crate::ether_packet::packet_builder::put_at;
use crate::ether_packet::typed_link::{chunk_at, typed_link};
use crate::ether_peel::Start;
use crate::{EtherType, SingleVlanHeader};

/// Puts a VLAN tag after the link's header, in place. The frame is `buffer[4..]` before the call, and the whole buffer
/// after it.
///
/// The TPID is the ether type that announces the tag: 0x8100 ([`EtherType::VLAN_TAGGED_FRAME`]), 0x88A8
/// ([`EtherType::PROVIDER_BRIDGING`]) or 0x9100 ([`EtherType::VLAN_DOUBLE_TAGGED_FRAME`]). It becomes the ether type
/// of the link's header, and the former ether type of that header becomes the tag's: `tag.ether_type` is ignored. So
/// [`pop_vlan`](crate::ether_packet::pop_vlan) takes off the tag that was put in, and this call can put in what `pop_vlan` returned.
///
/// Only the bytes of the link before its ether type are moved: 12 bytes of addresses, or 14 bytes of a cooked capture
/// header. So the time does not depend on the length of the frame. All later headers and the payload are unchanged,
/// even if a later header is refused. A frame check sequence and an integrity check value are also unchanged, and
/// don't fit the new frame.
///
/// # Errors
///
/// The first of these that applies. The buffer is then unchanged:
///
/// - [`TagError::Tpid`]: the TPID, which the error names, is not one of the three.
/// - [`TagError::NoRoom`]: the buffer has fewer than 4 bytes.
/// - [`TagError::NoLink`]: the frame begins after a link's header ([`Start::EtherType`]), or its link's header is
///   refused.
/// - [`TagError::HardwareType`]: the header of cooked capture has this hardware type, which is not that of Ethernet.
///
/// # Examples
///
/// ```
/// use etherpeel::{EtherType, SingleVlanHeader, VlanId};
/// use etherpeel::ether_peel::Start;
/// use etherpeel::ether_packet::push_vlan;
///
/// # fn main() -> Result<(), Box<dyn std::error::Error>> {
/// let mut buffer = [
///     0x00, 0x00, 0x00, 0x00, // free
///     0xFF, 0xFF, 0xFF, 0xFF, 0xFF, 0xFF, 0x02, 0x00, 0x00, 0x00, 0x00, 0x01, 0x08, 0x00, // Ethernet II
///     0x45,
/// ];
/// let tag = SingleVlanHeader {
///     vlan_id: VlanId::try_new(0x123)?,
///     ..SingleVlanHeader::default()
/// };
/// push_vlan(Start::Ethernet2, &mut buffer, tag, EtherType::VLAN_TAGGED_FRAME)?;
/// assert_eq!(buffer, [
///     0xFF, 0xFF, 0xFF, 0xFF, 0xFF, 0xFF, 0x02, 0x00, 0x00, 0x00, 0x00, 0x01, 0x81, 0x00, // Ethernet II
///     0x01, 0x23, 0x08, 0x00, // VLAN
///     0x45,
/// ]);
/// # Ok(())
/// # }
/// ```
///
/// <details><summary>Contract</summary>
///
/// ```text
/// ensures ok { IfOk result (λ _. (hs : List Header) (e : Ending)
///     → Walk (start_of start) (drop 4 buffer.old) hs e
///     → IsPushed (start_of start) buffer.old hs e (vlan_view tag) tpid.0 buffer.new) }
/// ensures untyped { is_vlan_ether_type tpid.0 ≡ true → 4 ≤ length buffer.old
///     → OnErr result ((hs : List Header) (e : Ending)
///     → Walk (start_of start) (drop 4 buffer.old) hs e → link_type hs ≡ None) }
/// ensures refused { IfErr result (λ error. (hs : List Header) (e : Ending)
///     → Walk (start_of start) (drop 4 buffer.old) hs e
///     → RefusesPush buffer.old hs tpid.0 error) }
/// ensures kept { OnErr result (buffer.new ≡ buffer.old) }
/// ```
///
/// Words: [`Header`](crate::definitions::ether_base#def.Header),
/// [`Ending`](crate::definitions::ether_peel#def.Ending), [`Walk`](crate::definitions::ether_peel#def.Walk),
/// [`start_of`](crate::definitions::ether_peel#def.start_of),
/// [`IsPushed`](crate::definitions::ether_packet#def.IsPushed),
/// [`vlan_view`](crate::definitions::ether_tags#def.vlan_view),
/// [`is_vlan_ether_type`](crate::definitions::ether_base#def.is_vlan_ether_type),
/// [`link_type`](crate::definitions::ether_packet#def.link_type),
/// [`RefusesPush`](crate::definitions::ether_packet#def.RefusesPush). [Notation](crate::definitions::notation)
///
/// </details>
#[inline]
pub fn push_vlan(
    start: Start,
    buffer: &mut [u8],
    tag: SingleVlanHeader,
    tpid: EtherType,
) -> Result<(), TagError> {
    match start {
        Start::LinuxSll => {
            require_link(start, buffer, tpid)?;
            put_in::<14>(buffer, tag, tpid);
        }
        _ => {
            require_link(start, buffer, tpid)?;
            put_in::<12>(buffer, tag, tpid);
        }
    }
    Ok(())
}

/// Requires four free bytes before the link's header, and an ether type that announces a VLAN tag.
#[inline(always)]
fn require_link(start: Start, buffer: &[u8], tpid: EtherType) -> Result<(), TagError> {
    if !tpid.announces_vlan() {
        return Err(TagError::Tpid(tpid));
    }
    if buffer.len() < SingleVlanHeader::LEN {
        return Err(TagError::NoRoom);
    }
    typed_link(start, &buffer[SingleVlanHeader::LEN..])?;
    Ok(())
}

/// Moves the `N` bytes of a link before its type to the front, and writes the four bytes of the tag after them.
#[inline(always)]
fn put_in<const N: usize>(buffer: &mut [u8], tag: SingleVlanHeader, tpid: EtherType) {
    let front = chunk_at::<N>(buffer, 4);
    let tpid = tpid.0.to_be_bytes();
    let control = tag.to_bytes();
    put_at(buffer, 0, front);
    put_at(buffer, N, [tpid[0], tpid[1], control[0], control[1]]);
}
