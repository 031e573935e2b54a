//! Replaces headers of a frame in place.

use crate::ether_packet::finding::ext_at;
use crate::ether_packet::packet_builder::{write_ext, write_link_header};
use crate::ether_packet::{Difference, ReplaceError};
use crate::ether_peel::Start;
use crate::{Ethernet2Slice, LinkExtHeader, LinkHeader, LinuxSllSlice};

/// Replaces a VLAN tag or SecTag of a frame, in place, by one that has the same length and says the same about what
/// follows it.
///
/// The index counts VLAN tags and SecTags, outermost first. There may be any number of them. No other byte changes:
/// the walk has the new tag at this index, and all other headers are unchanged, even if a later header is refused. A
/// frame check sequence and an integrity check value are also unchanged, and don't fit the new bytes.
///
/// # Errors
///
/// The frame is then unchanged:
///
/// - [`ReplaceError::NoLinkExt`]: there is no tag at the index. The error names the number of tags.
/// - [`ReplaceError::SaysOther`]: one tag is a VLAN tag and the other a SecTag; two VLAN tags differ in their ether
///   types; or two SecTags differ in their payload types, in their short lengths, or in whether they have an SCI. The
///   error names the difference.
///
/// # Examples
///
/// ```
/// use etherpeel::{LinkExtHeader, SingleVlanHeader};
/// use etherpeel::ether_peel::Start;
/// use etherpeel::ether_packet::replace_link_ext;
///
/// let mut frame = [
///     0xFF, 0xFF, 0xFF, 0xFF, 0xFF, 0xFF, 0x02, 0x00, 0x00, 0x00, 0x00, 0x01, 0x88, 0xA8, // Ethernet II
///     0x00, 0x0A, 0x81, 0x00, // VLAN
///     0x00, 0x64, 0x08, 0x00, // VLAN
///     0x45,
/// ];
/// let tag = SingleVlanHeader::from_bytes([0xB1, 0x23, 0x08, 0x00]);
/// let inner = LinkExtHeader::Vlan(tag);
/// assert_eq!(replace_link_ext(Start::Ethernet2, &mut frame, 1, &inner), Ok(()));
/// assert_eq!(frame[14..], [0x00, 0x0A, 0x81, 0x00, 0xB1, 0x23, 0x08, 0x00, 0x45]);
/// ```
///
/// <details><summary>Contract</summary>
///
/// ```text
/// ensures ok { IfOk result (λ _. (hs : List Header) (e : Ending)
///     → Walk (start_of start) frame.old hs e
///     → ReplacesExt (start_of start) frame.old hs e index
///     (ext_header_view header.now) frame.new) }
/// ensures refused { IfErr result (λ error. (hs : List Header) (e : Ending)
///     → Walk (start_of start) frame.old hs e
///     → RefusesExt hs index (ext_header_view header.now) error) }
/// ensures kept { OnErr result (frame.new ≡ frame.old) }
/// ```
///
/// Words: [`Header`](crate::definitions::ether_base#def.Header),
/// [`Ending`](crate::definitions::ether_peel#def.Ending), [`Walk`](crate::definitions::ether_peel#def.Walk),
/// [`start_of`](crate::definitions::ether_peel#def.start_of),
/// [`ReplacesExt`](crate::definitions::ether_packet#def.ReplacesExt),
/// [`ext_header_view`](crate::definitions::ether_tags#def.ext_header_view),
/// [`RefusesExt`](crate::definitions::ether_packet#def.RefusesExt). [Notation](crate::definitions::notation)
///
/// </details>
#[inline]
pub fn replace_link_ext(
    start: Start,
    frame: &mut [u8],
    index: usize,
    header: &LinkExtHeader,
) -> Result<(), ReplaceError> {
    let at = find_ext(start, frame, index, header)?;
    write_ext(frame, at, header);
    Ok(())
}

/// The offset of the tag at an index, if the other tag can replace it.
#[inline]
fn find_ext(
    start: Start,
    frame: &[u8],
    index: usize,
    header: &LinkExtHeader,
) -> Result<usize, ReplaceError> {
    match ext_at(start, frame, index) {
        Ok(found) => match ext_difference(header, &found.header) {
            None => Ok(found.at),
            Some(difference) => Err(ReplaceError::SaysOther(difference)),
        },
        Err(count) => Err(ReplaceError::NoLinkExt(count)),
    }
}

/// The first difference between two tags, in kind, in length, or in what they say about what follows them.
#[inline]
fn ext_difference(new: &LinkExtHeader, old: &LinkExtHeader) -> Option<Difference> {
    match (new, old) {
        (LinkExtHeader::Vlan(new), LinkExtHeader::Vlan(old)) => {
            (new.ether_type != old.ether_type).then_some(Difference::EtherType)
        }
        (LinkExtHeader::Macsec(new), LinkExtHeader::Macsec(old)) => {
            if new.ptype != old.ptype {
                Some(Difference::PayloadType)
            } else if new.short_len != old.short_len {
                Some(Difference::ShortLen)
            } else if new.sci.is_some() != old.sci.is_some() {
                Some(Difference::Sci)
            } else {
                None
            }
        }
        _ => Some(Difference::Kind),
    }
}

/// Replaces the link's header at the front of a frame, in place, by one of the same kind that says the same about what
/// follows it.
///
/// No other byte changes: the walk has the new header first, and all other headers are unchanged, even if a later
/// header is refused. A frame check sequence is also unchanged, and doesn't fit the new bytes.
///
/// # Errors
///
/// The frame is then unchanged:
///
/// - [`ReplaceError::NoLink`]: the frame begins after a link's header ([`Start::EtherType`]), or its first header is
///   refused.
/// - [`ReplaceError::SaysOther`]: one header is of Ethernet II and the other of cooked capture; two Ethernet II
///   headers differ in their ether types; or two cooked capture headers differ in their hardware types or protocol
///   types. The error names the difference.
///
/// # Examples
///
/// ```
/// use etherpeel::{EtherType, Ethernet2Header, LinkHeader};
/// use etherpeel::ether_peel::Start;
/// use etherpeel::ether_packet::replace_link;
///
/// let mut frame = [
///     0xFF, 0xFF, 0xFF, 0xFF, 0xFF, 0xFF, 0x02, 0x00, 0x00, 0x00, 0x00, 0x01, 0x81, 0x00, // Ethernet II
///     0xB1, 0x23, 0x08, 0x00, // VLAN
///     0x45,
/// ];
/// let header = LinkHeader::Ethernet2(Ethernet2Header {
///     destination: [0x02, 0x00, 0x00, 0x00, 0x00, 0x02],
///     source: [0x02, 0x00, 0x00, 0x00, 0x00, 0x03],
///     ether_type: EtherType::VLAN_TAGGED_FRAME,
/// });
/// assert_eq!(replace_link(Start::Ethernet2, &mut frame, &header), Ok(()));
/// assert_eq!(frame[..6], [0x02, 0x00, 0x00, 0x00, 0x00, 0x02]);
/// assert_eq!(frame[6..12], [0x02, 0x00, 0x00, 0x00, 0x00, 0x03]);
/// assert_eq!(frame[12..], [0x81, 0x00, 0xB1, 0x23, 0x08, 0x00, 0x45]);
/// ```
///
/// <details><summary>Contract</summary>
///
/// ```text
/// ensures ok { IfOk result (λ _. (limit : Option ℕ) (hs : List Header) (e : Ending)
///     → Walk (start_with start limit) frame.old hs e
///     → ReplacesLink (start_with start limit) frame.old hs e header.now frame.new) }
/// ensures refused { IfErr result (λ error. (limit : Option ℕ) (hs : List Header) (e : Ending)
///     → Walk (start_with start limit) frame.old hs e → RefusesLink hs header.now error) }
/// ensures kept { OnErr result (frame.new ≡ frame.old) }
/// ```
///
/// Words: [`Header`](crate::definitions::ether_base#def.Header),
/// [`Ending`](crate::definitions::ether_peel#def.Ending), [`Walk`](crate::definitions::ether_peel#def.Walk),
/// [`start_with`](crate::definitions::ether_peel#def.start_with),
/// [`ReplacesLink`](crate::definitions::ether_packet#def.ReplacesLink),
/// [`RefusesLink`](crate::definitions::ether_packet#def.RefusesLink). [Notation](crate::definitions::notation)
///
/// </details>
#[inline]
pub fn replace_link(start: Start, frame: &mut [u8], header: &LinkHeader) -> Result<(), ReplaceError> {
    require_link(start, frame, header)?;
    write_link_header(frame, header);
    Ok(())
}

/// Requires that a frame begins with a link's header that the other header can replace.
#[inline]
fn require_link(start: Start, frame: &[u8], header: &LinkHeader) -> Result<(), ReplaceError> {
    let Some(old) = link_of(start, frame) else {
        return Err(ReplaceError::NoLink);
    };
    match link_difference(header, &old) {
        None => Ok(()),
        Some(difference) => Err(ReplaceError::SaysOther(difference)),
    }
}

/// The link's header at the front of a frame.
#[inline]
fn link_of(start: Start, frame: &[u8]) -> Option<LinkHeader> {
    match start {
        Start::Ethernet2 => match Ethernet2Slice::from_slice_without_fcs(frame) {
            Ok(slice) => Some(LinkHeader::Ethernet2(slice.to_header())),
            Err(_) => None,
        },
        Start::Ethernet2Fcs => match Ethernet2Slice::from_slice_with_crc32_fcs(frame) {
            Ok(slice) => Some(LinkHeader::Ethernet2(slice.to_header())),
            Err(_) => None,
        },
        Start::LinuxSll => match LinuxSllSlice::from_slice(frame) {
            Ok(slice) => Some(LinkHeader::LinuxSll(slice.to_header())),
            Err(_) => None,
        },
        Start::EtherType(_) => None,
    }
}

/// The first difference between two links' headers, in kind, or in what they say about what follows them.
#[inline]
fn link_difference(new: &LinkHeader, old: &LinkHeader) -> Option<Difference> {
    match (new, old) {
        (LinkHeader::Ethernet2(new), LinkHeader::Ethernet2(old)) => {
            (new.ether_type != old.ether_type).then_some(Difference::EtherType)
        }
        (LinkHeader::LinuxSll(new), LinkHeader::LinuxSll(old)) => {
            if new.arp_hrd_type != old.arp_hrd_type {
                Some(Difference::HardwareType)
            } else if new.protocol_type != old.protocol_type {
                Some(Difference::ProtocolType)
            } else {
                None
            }
        }
        _ => Some(Difference::Kind),
    }
}
