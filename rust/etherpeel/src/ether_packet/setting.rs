//! Changes VLAN tags in place.

use crate::ether_packet::TagError;
use crate::ether_packet::finding::{PlacedExt, ext_at};
use crate::ether_packet::packet_builder::put_at;
use crate::ether_peel::{Peel, PeelUnit, Start};
use crate::{EtherType, LinkExtHeader, SingleVlanHeader, VlanId, VlanPcp};

/// A VLAN tag of a frame, and its offset.
#[derive(Clone, Copy)]
struct PlacedVlan {
    at: usize,
    tag: SingleVlanHeader,
}

/// A VLAN tag of a frame, and its index among VLAN tags and SecTags.
#[derive(Clone, Copy)]
struct IndexedVlan {
    index: usize,
    placed: PlacedVlan,
}

/// The index of the outermost VLAN tag with an identifier; `None` if no VLAN tag of the frame has that identifier.
///
/// The index counts VLAN tags and SecTags, outermost first. There may be any number of them;
/// [`PacketSlice::link_exts`](crate::ether_packet::PacketSlice::link_exts) returns the first three.
///
/// # Examples
///
/// ```
/// use etherpeel::VlanId;
/// use etherpeel::ether_peel::Start;
/// use etherpeel::ether_packet::find_vlan;
///
/// # fn main() -> Result<(), Box<dyn std::error::Error>> {
/// let frame = [
///     0xFF, 0xFF, 0xFF, 0xFF, 0xFF, 0xFF, 0x02, 0x00, 0x00, 0x00, 0x00, 0x01, 0x88, 0xA8, // Ethernet II
///     0x00, 0x64, 0x81, 0x00, // VLAN 100
///     0xB0, 0x05, 0x08, 0x00, // VLAN 5
///     0x45,
/// ];
/// assert_eq!(find_vlan(Start::Ethernet2, &frame, VlanId::try_new(5)?), Some(1));
/// assert_eq!(find_vlan(Start::Ethernet2, &frame, VlanId::try_new(2)?), None);
/// # Ok(())
/// # }
/// ```
///
/// <details><summary>Contract</summary>
///
/// ```text
/// ensures some { IfSome result (λ index. (hs : List Header) (e : Ending)
///     → Walk (start_of start) frame.now hs e → FindsVlan hs vlan_id index) }
/// ensures none { IfNone result ((hs : List Header) (e : Ending)
///     → Walk (start_of start) frame.now hs e → LacksVlan hs vlan_id) }
/// ```
///
/// Words: [`Header`](crate::definitions::ether_base#def.Header),
/// [`Ending`](crate::definitions::ether_peel#def.Ending), [`Walk`](crate::definitions::ether_peel#def.Walk),
/// [`start_of`](crate::definitions::ether_peel#def.start_of),
/// [`FindsVlan`](crate::definitions::ether_packet#def.FindsVlan),
/// [`LacksVlan`](crate::definitions::ether_packet#def.LacksVlan). [Notation](crate::definitions::notation)
///
/// </details>
#[must_use]
#[inline]
pub fn find_vlan(start: Start, frame: &[u8], vlan_id: VlanId) -> Option<usize> {
    let found = outermost_with(start, frame, vlan_id)?;
    Some(found.index)
}

/// Changes the identifier of the outermost VLAN tag that has the identifier `from`, in place, to `to`. Returns the
/// index of that tag, or `None` if no VLAN tag of the frame has the identifier; the frame is then unchanged.
///
/// The index is that of [`find_vlan`]. The tag's priority code point and drop eligible indicator, all other headers
/// and the payload are unchanged. A frame check sequence and an integrity check value are also unchanged, and don't
/// fit the new bytes.
///
/// # Examples
///
/// ```
/// use etherpeel::VlanId;
/// use etherpeel::ether_peel::Start;
/// use etherpeel::ether_packet::replace_vlan_id;
///
/// # fn main() -> Result<(), Box<dyn std::error::Error>> {
/// let mut frame = [
///     0xFF, 0xFF, 0xFF, 0xFF, 0xFF, 0xFF, 0x02, 0x00, 0x00, 0x00, 0x00, 0x01, 0x88, 0xA8, // Ethernet II
///     0x00, 0x64, 0x81, 0x00, // VLAN 100
///     0xB0, 0x05, 0x08, 0x00, // VLAN 5
///     0x45,
/// ];
/// let index = replace_vlan_id(Start::Ethernet2, &mut frame, VlanId::try_new(5)?, VlanId::try_new(0xABC)?);
/// assert_eq!(index, Some(1));
/// assert_eq!(frame[14..], [0x00, 0x64, 0x81, 0x00, 0xBA, 0xBC, 0x08, 0x00, 0x45]);
/// # Ok(())
/// # }
/// ```
///
/// <details><summary>Contract</summary>
///
/// ```text
/// ensures some { IfSome result (λ index. (hs : List Header) (e : Ending)
///     → Walk (start_of start) frame.old hs e
///     → FindsVlan hs from index
///     × SetsTag (start_of start) frame.old hs e index (λ tag. record tag { vid = to }) frame.new) }
/// ensures none { IfNone result ((hs : List Header) (e : Ending)
///     → Walk (start_of start) frame.old hs e → LacksVlan hs from) }
/// ensures kept { IfNone result (frame.new ≡ frame.old) }
/// ```
///
/// Words: [`Header`](crate::definitions::ether_base#def.Header),
/// [`Ending`](crate::definitions::ether_peel#def.Ending), [`Walk`](crate::definitions::ether_peel#def.Walk),
/// [`start_of`](crate::definitions::ether_peel#def.start_of),
/// [`FindsVlan`](crate::definitions::ether_packet#def.FindsVlan),
/// [`SetsTag`](crate::definitions::ether_packet#def.SetsTag),
/// [`LacksVlan`](crate::definitions::ether_packet#def.LacksVlan). [Notation](crate::definitions::notation)
///
/// </details>
#[inline]
pub fn replace_vlan_id(start: Start, frame: &mut [u8], from: VlanId, to: VlanId) -> Option<usize> {
    let IndexedVlan { index, placed } = outermost_with(start, frame, from)?;
    let tag = SingleVlanHeader {
        vlan_id: to,
        ..placed.tag
    };
    put_at(frame, placed.at, tag.to_bytes());
    Some(index)
}

/// Sets the identifier of a VLAN tag of a frame in place.
///
/// The index counts VLAN tags and SecTags, outermost first, as that of [`find_vlan`]. The tag's other fields, all
/// other headers and the payload are unchanged. A frame check sequence and an integrity check value are also
/// unchanged, and don't fit the new bytes.
///
/// # Errors
///
/// The frame is then unchanged:
///
/// - [`TagError::NoLinkExt`]: there is no tag at the index. The error names the number of tags.
/// - [`TagError::NoVlan`]: there is a SecTag at the index.
///
/// # Examples
///
/// ```
/// use etherpeel::VlanId;
/// use etherpeel::ether_peel::Start;
/// use etherpeel::ether_packet::set_vlan_id;
///
/// # fn main() -> Result<(), Box<dyn std::error::Error>> {
/// let mut frame = [
///     0xFF, 0xFF, 0xFF, 0xFF, 0xFF, 0xFF, 0x02, 0x00, 0x00, 0x00, 0x00, 0x01, 0x81, 0x00, // Ethernet II
///     0xB1, 0x23, 0x08, 0x00, // VLAN
///     0x45,
/// ];
/// set_vlan_id(Start::Ethernet2, &mut frame, 0, VlanId::try_new(0x456)?)?;
/// assert_eq!(frame[14..], [0xB4, 0x56, 0x08, 0x00, 0x45]);
/// # Ok(())
/// # }
/// ```
///
/// <details><summary>Contract</summary>
///
/// ```text
/// ensures ok { IfOk result (λ _. (hs : List Header) (e : Ending)
///     → Walk (start_of start) frame.old hs e
///     → SetsTag (start_of start) frame.old hs e index
///     (λ tag. record tag { vid = vlan_id }) frame.new) }
/// ensures refused { IfErr result (λ error. (hs : List Header) (e : Ending)
///     → Walk (start_of start) frame.old hs e → RefusesTag hs index error) }
/// ensures kept { OnErr result (frame.new ≡ frame.old) }
/// ```
///
/// Words: [`Header`](crate::definitions::ether_base#def.Header),
/// [`Ending`](crate::definitions::ether_peel#def.Ending), [`Walk`](crate::definitions::ether_peel#def.Walk),
/// [`start_of`](crate::definitions::ether_peel#def.start_of),
/// [`SetsTag`](crate::definitions::ether_packet#def.SetsTag),
/// [`RefusesTag`](crate::definitions::ether_packet#def.RefusesTag). [Notation](crate::definitions::notation)
///
/// </details>
#[inline]
pub fn set_vlan_id(
    start: Start,
    frame: &mut [u8],
    index: usize,
    vlan_id: VlanId,
) -> Result<(), TagError> {
    let found = vlan_at(start, frame, index)?;
    let tag = SingleVlanHeader {
        vlan_id,
        ..found.tag
    };
    put_at(frame, found.at, tag.to_bytes());
    Ok(())
}

/// Sets the tag control information of a VLAN tag of a frame in place: priority code point, drop eligible indicator
/// and identifier.
///
/// Otherwise as [`set_vlan_id`]. The ether type of what follows the tag is unchanged.
///
/// # Errors
///
/// Those of [`set_vlan_id`].
///
/// # Examples
///
/// ```
/// use etherpeel::{VlanId, VlanPcp};
/// use etherpeel::ether_peel::Start;
/// use etherpeel::ether_packet::set_vlan_tag;
///
/// # fn main() -> Result<(), Box<dyn std::error::Error>> {
/// let mut frame = [
///     0xFF, 0xFF, 0xFF, 0xFF, 0xFF, 0xFF, 0x02, 0x00, 0x00, 0x00, 0x00, 0x01, 0x81, 0x00, // Ethernet II
///     0xB1, 0x23, 0x08, 0x00, // VLAN
///     0x45,
/// ];
/// let pcp = VlanPcp::try_new(3)?;
/// set_vlan_tag(Start::Ethernet2, &mut frame, 0, pcp, false, VlanId::try_new(0x456)?)?;
/// assert_eq!(frame[14..], [0x64, 0x56, 0x08, 0x00, 0x45]);
/// # Ok(())
/// # }
/// ```
///
/// <details><summary>Contract</summary>
///
/// ```text
/// ensures ok { IfOk result (λ _. (hs : List Header) (e : Ending)
///     → Walk (start_of start) frame.old hs e
///     → SetsTag (start_of start) frame.old hs e index
///     (λ tag. record tag { pcp = pcp; dei = bit drop_eligible_indicator; vid = vlan_id })
///     frame.new) }
/// ensures refused { IfErr result (λ error. (hs : List Header) (e : Ending)
///     → Walk (start_of start) frame.old hs e → RefusesTag hs index error) }
/// ensures kept { OnErr result (frame.new ≡ frame.old) }
/// ```
///
/// Words: [`Header`](crate::definitions::ether_base#def.Header),
/// [`Ending`](crate::definitions::ether_peel#def.Ending), [`Walk`](crate::definitions::ether_peel#def.Walk),
/// [`start_of`](crate::definitions::ether_peel#def.start_of),
/// [`SetsTag`](crate::definitions::ether_packet#def.SetsTag), [`bit`](crate::definitions::ether_base#def.bit),
/// [`RefusesTag`](crate::definitions::ether_packet#def.RefusesTag). [Notation](crate::definitions::notation)
///
/// </details>
#[inline]
pub fn set_vlan_tag(
    start: Start,
    frame: &mut [u8],
    index: usize,
    pcp: VlanPcp,
    drop_eligible_indicator: bool,
    vlan_id: VlanId,
) -> Result<(), TagError> {
    let found = vlan_at(start, frame, index)?;
    let tag = SingleVlanHeader {
        pcp,
        drop_eligible_indicator,
        vlan_id,
        ether_type: found.tag.ether_type,
    };
    put_at(frame, found.at, tag.to_bytes());
    Ok(())
}

/// Sets the ether type that announces a VLAN tag of a frame (TPID), in place, to 0x8100, 0x88A8 or 0x9100.
///
/// It is the ether type of the header before the tag: of the link, or of another VLAN tag or SecTag. The index counts
/// VLAN tags and SecTags, outermost first, as that of [`find_vlan`]. All other headers and the payload are unchanged.
/// A frame check sequence and an integrity check value are also unchanged, and don't fit the new bytes.
///
/// # Errors
///
/// The first of these that applies. The frame is then unchanged:
///
/// - [`TagError::Tpid`]: the TPID, which the error names, is not one of the three.
/// - [`TagError::NoLinkExt`]: there is no tag at the index. The error names the number of tags.
/// - [`TagError::NoVlan`]: there is a SecTag at the index.
/// - [`TagError::Unannounced`]: the frame begins with the tag, as from [`Start::EtherType`].
///
/// # Examples
///
/// ```
/// use etherpeel::EtherType;
/// use etherpeel::ether_peel::Start;
/// use etherpeel::ether_packet::set_tpid;
///
/// # fn main() -> Result<(), Box<dyn std::error::Error>> {
/// let mut frame = [
///     0xFF, 0xFF, 0xFF, 0xFF, 0xFF, 0xFF, 0x02, 0x00, 0x00, 0x00, 0x00, 0x01, 0x81, 0x00, // Ethernet II
///     0xB1, 0x23, 0x08, 0x00, // VLAN
///     0x45,
/// ];
/// set_tpid(Start::Ethernet2, &mut frame, 0, EtherType::PROVIDER_BRIDGING)?;
/// assert_eq!(frame[12..], [0x88, 0xA8, 0xB1, 0x23, 0x08, 0x00, 0x45]);
/// # Ok(())
/// # }
/// ```
///
/// <details><summary>Contract</summary>
///
/// ```text
/// ensures ok { IfOk result (λ _. (hs : List Header) (e : Ending)
///     → Walk (start_of start) frame.old hs e
///     → SetsTpid (start_of start) frame.old hs e index tpid.0 frame.new) }
/// ensures refused { IfErr result (λ error. (hs : List Header) (e : Ending)
///     → Walk (start_of start) frame.old hs e → RefusesTpid hs index tpid.0 error) }
/// ensures kept { OnErr result (frame.new ≡ frame.old) }
/// ```
///
/// Words: [`Header`](crate::definitions::ether_base#def.Header),
/// [`Ending`](crate::definitions::ether_peel#def.Ending), [`Walk`](crate::definitions::ether_peel#def.Walk),
/// [`start_of`](crate::definitions::ether_peel#def.start_of),
/// [`SetsTpid`](crate::definitions::ether_packet#def.SetsTpid),
/// [`RefusesTpid`](crate::definitions::ether_packet#def.RefusesTpid). [Notation](crate::definitions::notation)
///
/// </details>
#[inline]
pub fn set_tpid(
    start: Start,
    frame: &mut [u8],
    index: usize,
    tpid: EtherType,
) -> Result<(), TagError> {
    if !tpid.announces_vlan() {
        return Err(TagError::Tpid(tpid));
    }
    let found = vlan_at(start, frame, index)?;
    if found.at < 2 {
        return Err(TagError::Unannounced);
    }
    put_at(frame, found.at - 2, tpid.0.to_be_bytes());
    Ok(())
}

/// The VLAN tag at an index among VLAN tags and SecTags.
#[inline]
fn vlan_at(start: Start, frame: &[u8], index: usize) -> Result<PlacedVlan, TagError> {
    match ext_at(start, frame, index) {
        Ok(PlacedExt { at, header }) => match header {
            LinkExtHeader::Vlan(tag) => Ok(PlacedVlan { at, tag }),
            LinkExtHeader::Macsec(_) => Err(TagError::NoVlan),
        },
        Err(count) => Err(TagError::NoLinkExt(count)),
    }
}

/// The outermost VLAN tag with an identifier.
#[inline]
fn outermost_with(start: Start, frame: &[u8], vlan_id: VlanId) -> Option<IndexedVlan> {
    let mut peel = Peel::new(start, frame);
    let mut index = 0;
    loop {
        let at = peel.offset();
        match peel.next() {
            Some(Ok(unit)) => match tag_with(&unit, vlan_id) {
                Some(tag) => {
                    let placed = PlacedVlan { at, tag };
                    return Some(IndexedVlan { index, placed });
                }
                None => index += ext_count(&unit),
            },
            Some(Err(_)) => return None,
            None => return None,
        }
    }
}

/// The VLAN tag in a unit, if it has this identifier.
#[inline(always)]
fn tag_with(unit: &PeelUnit<'_>, vlan_id: VlanId) -> Option<SingleVlanHeader> {
    match unit {
        PeelUnit::Vlan(tag) if tag.vlan_identifier() == vlan_id => Some(tag.to_header()),
        _ => None,
    }
}

/// The number of VLAN tags and SecTags in a unit: 0 or 1.
#[inline(always)]
fn ext_count(unit: &PeelUnit<'_>) -> usize {
    match unit {
        PeelUnit::Vlan(_) | PeelUnit::Macsec(_) => 1,
        _ => 0,
    }
}
