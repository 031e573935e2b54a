//! The number of bytes that the headers of a captured packet take.

use crate::ether_content::content::{Content, payload_of};
use crate::ether_content::cooked::CookedHeader;
use crate::ether_packet::min_snap_len;
use crate::ether_pcap::CapturedPacket;
use crate::ether_peel::Start;
use crate::ether_sll2::{LinuxSll2Header, LinuxSll2Slice};

/// The number of bytes that the link-layer headers of a packet take, with the payloads whose lengths they give. A
/// packet that is cut to that many bytes keeps all headers.
///
/// A header that is refused is not counted, and a packet whose link type the walk does not know has no headers.
///
/// ```
/// use etherpeel::ether_pcap::{CapturedPacket, LinkType};
/// use etherpeel::ether_content::headers_len;
///
/// let packet = CapturedPacket {
///     time: None,
///     interface: None,
///     direction: None,
///     comment: None,
///     original_len: 60,
///     link_type: LinkType::ETHERNET,
///     snap_len: 262_144,
///     fcs_len: None,
///     packet: &[
///         0xFF, 0xFF, 0xFF, 0xFF, 0xFF, 0xFF, 0x02, 0x00, 0x00, 0x00, 0x00, 0x01, 0x81, 0x00, // Ethernet II
///         0xB1, 0x23, 0x08, 0x00, // VLAN 291
///         0x45, 0x00,
///     ],
/// };
/// assert_eq!(headers_len(&packet), 18);
/// ```
///
/// <details><summary>Contract</summary>
///
/// ```text
/// ensures { HeadersTake (content_of (captured_packet_view packet.now)) result }
/// ```
///
/// Words: [`HeadersTake`](crate::definitions::ether_content#def.HeadersTake),
/// [`content_of`](crate::definitions::ether_content#def.content_of),
/// [`captured_packet_view`](crate::definitions::ether_pcap#def.captured_packet_view).
/// [Notation](crate::definitions::notation)
///
/// </details>
#[must_use]
#[inline]
pub fn headers_len(packet: &CapturedPacket<'_>) -> usize {
    match Content::of(packet) {
        Content::Frame(start, frame) => frame_len(start, frame),
        Content::LinuxSll(header, payload) => {
            CookedHeader::LEN + frame_len(Start::EtherType(header.protocol), payload)
        }
        Content::LinuxSll2(bytes) => linux_sll2_len(bytes),
        Content::Unknown => 0,
    }
}

/// The number of bytes that the headers of a frame take.
#[inline]
fn frame_len(start: Start, frame: &[u8]) -> usize {
    min_snap_len(start, frame)
}

/// The number of bytes that the headers of a packet of cooked capture v2 take.
#[inline]
fn linux_sll2_len(bytes: &[u8]) -> usize {
    match LinuxSll2Slice::from_slice(bytes) {
        Ok(_) => match payload_of(bytes) {
            Some((start, payload)) => LinuxSll2Header::LEN + frame_len(start, payload),
            None => LinuxSll2Header::LEN,
        },
        Err(_) => 0,
    }
}
