//! The part of a captured packet that is walked.

use crate::ether_content::cooked::{CookedHeader, cooked_header};
use crate::ether_pcap::{CapturedPacket, LinkType};
use crate::ether_peel::Start;
use crate::ether_sll2::LinuxSll2Slice;

/// The length in bytes of the frame check sequence of Ethernet.
pub(in crate::ether_content) const FCS_LEN: usize = 4;

/// The part of a packet that is walked, by its link type.
///
/// ```
/// use etherpeel::ether_peel::Start;
/// use etherpeel::ether_pcap::{CapturedPacket, LinkType};
/// use etherpeel::ether_content::{Content, is_cut};
///
/// let packet = CapturedPacket {
///     time: None,
///     interface: None,
///     direction: None,
///     comment: None,
///     original_len: 60,
///     link_type: LinkType::ETHERNET,
///     snap_len: 262_144,
///     fcs_len: None,
///     packet: &[0xFF; 14],
/// };
/// assert_eq!(Content::of(&packet).frame(), Some((Start::Ethernet2, [0xFF; 14].as_slice())));
/// assert!(is_cut(&packet));
/// ```
#[derive(Clone, Copy, PartialEq, Eq, Debug)]
pub enum Content<'a> {
    /// A frame, and how its walk starts. The frame has a frame check sequence only if the start says so.
    Frame(Start, &'a [u8]),
    /// A packet of Linux cooked capture v1 whose hardware type is not that of Ethernet, and gives protocol numbers no
    /// meaning of its own: the header, and the payload, which is walked with the protocol as its ether type.
    LinuxSll(CookedHeader, &'a [u8]),
    /// A packet of Linux cooked capture v2.
    LinuxSll2(&'a [u8]),
    /// Nothing: the walk does not know the link type.
    Unknown,
}

impl<'a> Content<'a> {
    /// The part of a packet that is walked, by its link type.
    ///
    /// A frame check sequence whose length the capture gives is left out, with one exception: one of four bytes
    /// remains part of an Ethernet frame that was not cut.
    ///
    /// <details><summary>Contract</summary>
    ///
    /// ```text
    /// ensures { content_view result ≡ content_of (captured_packet_view packet.now) }
    /// ```
    ///
    /// Words: [`content_view`](crate::definitions::ether_content#def.content_view),
    /// [`content_of`](crate::definitions::ether_content#def.content_of),
    /// [`captured_packet_view`](crate::definitions::ether_pcap#def.captured_packet_view).
    /// [Notation](crate::definitions::notation)
    ///
    /// </details>
    #[must_use]
    #[inline(always)]
    pub fn of(packet: &CapturedPacket<'a>) -> Content<'a> {
        if packet.link_type == LinkType::ETHERNET {
            if has_fcs(packet) {
                return Content::Frame(Start::Ethernet2Fcs, packet.packet);
            }
            return Content::Frame(Start::Ethernet2, without_fcs(packet));
        }
        if packet.link_type == LinkType::LINUX_SLL {
            return cooked_content(without_fcs(packet));
        }
        if packet.link_type == LinkType::LINUX_SLL2 {
            return Content::LinuxSll2(without_fcs(packet));
        }
        Content::Unknown
    }

    /// Returns `true` if nothing is walked.
    ///
    /// <details><summary>Contract</summary>
    ///
    /// ```text
    /// ensures { result ≡ is_unknown (content_view self.entry) }
    /// ```
    ///
    /// Words: [`is_unknown`](crate::definitions::ether_content#def.is_unknown),
    /// [`content_view`](crate::definitions::ether_content#def.content_view). [Notation](crate::definitions::notation)
    ///
    /// </details>
    #[must_use]
    #[inline(always)]
    pub fn is_unknown(self) -> bool {
        matches!(self, Content::Unknown)
    }

    /// The frame, and how its walk starts. For a packet of cooked capture v1 that is not read as a frame, it is the
    /// payload. For one of v2 it is the payload, too, if the header can be read and an ether type announces the
    /// payload; else `None`.
    ///
    /// <details><summary>Contract</summary>
    ///
    /// ```text
    /// ensures some { IfSome result (λ frame. IsWalked (content_view self.entry) (next_of frame.0) frame.1.now) }
    /// ensures none { result ≡ None → (next : Next) (bytes : List ℕ) → IsWalked (content_view self.entry) next bytes
    ///     → ⊥ }
    /// ```
    ///
    /// Words: [`IsWalked`](crate::definitions::ether_content#def.IsWalked),
    /// [`content_view`](crate::definitions::ether_content#def.content_view),
    /// [`next_of`](crate::definitions::ether_peel#def.next_of), [`Next`](crate::definitions::ether_peel#def.Next).
    /// [Notation](crate::definitions::notation)
    ///
    /// </details>
    #[must_use]
    #[inline]
    pub fn frame(self) -> Option<(Start, &'a [u8])> {
        match self {
            Content::Frame(start, bytes) => Some((start, bytes)),
            Content::LinuxSll(header, payload) => {
                Some((Start::EtherType(header.protocol), payload))
            }
            Content::LinuxSll2(bytes) => payload_of(bytes),
            Content::Unknown => None,
        }
    }
}

/// The part of a packet of cooked capture v1 that is walked.
#[inline]
fn cooked_content(bytes: &[u8]) -> Content<'_> {
    match cooked_header(bytes) {
        Some(header) => Content::LinuxSll(header, &bytes[CookedHeader::LEN..]),
        None => Content::Frame(Start::LinuxSll, bytes),
    }
}

/// The payload of a packet of cooked capture v2, and how its walk starts.
#[inline]
pub(in crate::ether_content) fn payload_of(bytes: &[u8]) -> Option<(Start, &[u8])> {
    let Ok(packet) = LinuxSll2Slice::from_slice(bytes) else {
        return None;
    };
    match packet.start() {
        Some(start) => Some((start, packet.payload_slice())),
        None => None,
    }
}

/// Returns `true` if some bytes of the packet were not captured.
///
/// <details><summary>Contract</summary>
///
/// ```text
/// ensures { result ≡ is_cut (captured_packet_view packet.now) }
/// ```
///
/// Words: [`is_cut`](crate::definitions::ether_content#def.is_cut),
/// [`captured_packet_view`](crate::definitions::ether_pcap#def.captured_packet_view).
/// [Notation](crate::definitions::notation)
///
/// </details>
#[must_use]
#[inline(always)]
pub fn is_cut(packet: &CapturedPacket<'_>) -> bool {
    packet.packet.len() < packet.original_len as usize
}

/// The length of the frame check sequence at the end of the packet before it was cut; 0 if the capture does not give
/// it.
#[inline]
pub(in crate::ether_content) fn fcs_len(packet: &CapturedPacket<'_>) -> usize {
    usize::from(packet.fcs_len.unwrap_or(0))
}

/// Whether an Ethernet frame was captured with its whole frame check sequence.
#[inline]
fn has_fcs(packet: &CapturedPacket<'_>) -> bool {
    !is_cut(packet) && fcs_len(packet) == FCS_LEN
}

/// The captured bytes without those of the frame check sequence, if the capture gives its length.
///
/// ```
/// use etherpeel::ether_pcap::{CapturedPacket, LinkType};
/// use etherpeel::ether_content::without_fcs;
///
/// let packet = CapturedPacket {
///     time: None,
///     interface: None,
///     direction: None,
///     comment: None,
///     original_len: 18,
///     link_type: LinkType::ETHERNET,
///     snap_len: 262_144,
///     fcs_len: Some(4),
///     packet: &[0xFF; 16],
/// };
/// assert_eq!(without_fcs(&packet), [0xFF; 14].as_slice());
/// ```
///
/// <details><summary>Contract</summary>
///
/// ```text
/// ensures { result.now ≡ without_fcs (captured_packet_view packet.now) }
/// ```
///
/// Words: [`without_fcs`](crate::definitions::ether_content#def.without_fcs),
/// [`captured_packet_view`](crate::definitions::ether_pcap#def.captured_packet_view).
/// [Notation](crate::definitions::notation)
///
/// </details>
#[must_use]
#[inline]
pub fn without_fcs<'a>(packet: &CapturedPacket<'a>) -> &'a [u8] {
    &packet.packet[..whole_len(packet).min(packet.packet.len())]
}

/// The length of the packet before it was cut, without its frame check sequence.
#[inline]
pub(in crate::ether_content) fn whole_len(packet: &CapturedPacket<'_>) -> usize {
    let captured_len = packet.packet.len();
    captured_len
        .max(packet.original_len as usize)
        .saturating_sub(fcs_len(packet))
}
