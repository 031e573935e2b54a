//! A test of snap lengths, as an example of a function over `ether_packet`.

use etherpeel::ether_packet::PacketSlice;
use etherpeel::ether_peel::Start;

/// Returns `true` if a capture with this snap length keeps all headers of a frame that has at most three tags.
///
/// The headers are those of [`PacketSlice::from_slice`], which reads no fourth tag. The capture has the first
/// `snap_len` bytes of the frame, or the whole frame if it is shorter. If a SecTag gives the length of its payload,
/// that payload must be kept, too, because the tag is refused without it.
///
/// A captured frame has lost its frame check sequence. All headers are kept if they are read from it as from a frame
/// without one.
///
/// # Examples
///
/// ```
/// use etherpeel::ether_peel::Start;
/// use etherpeel::example_frames::snap_checker::keeps_all_headers;
///
/// let frame = [
///     0xFF, 0xFF, 0xFF, 0xFF, 0xFF, 0xFF, 0x02, 0x00, 0x00, 0x00, 0x00, 0x01, 0x81, 0x00, // Ethernet II
///     0xB1, 0x23, 0x08, 0x00, // VLAN
///     0x45,
/// ];
/// assert!(keeps_all_headers(Start::Ethernet2, &frame, 18));
/// assert!(!keeps_all_headers(Start::Ethernet2, &frame, 17));
/// ```
///
/// <details><summary>Contract</summary>
///
/// ```text
/// ensures same { has_fcs (packet_start start) ≡ false → (hs ks : List Header) (e f : Ending)
///     → Walk (packet_start start) frame.now hs e
///     → Walk (packet_start start) (take snap_len frame.now) ks f → IsTrue result ↔ (ks ≡ hs) }
/// ensures reach { (hs : List Header) (e : Ending)
///     → Walk (packet_start start) frame.now hs e → IsTrue result ↔ (reach 0 hs ≤ snap_len) }
/// ```
///
/// </details>
pub fn keeps_all_headers(start: Start, frame: &[u8], snap_len: usize) -> bool {
    PacketSlice::from_slice(start, frame).min_snap_len() <= snap_len
}
