//! A packet whose frame ends in a frame check sequence, without it.

use crate::ether_filter::cut_walk::first_bytes;
use crate::ether_filter::deciding::lost;
use crate::ether_filter::packet::Packet;
use crate::ether_peel::Start;

/// The number of bytes of the frame on the wire.
#[inline]
pub(in crate::ether_filter) fn frame_total(packet: &Packet<'_>) -> usize {
    packet.frame.len() + lost(packet)
}

/// A packet that has a frame check sequence, without it. `None` if there is no room for one after an Ethernet II
/// header: then the packet is refused, whatever the missing bytes are.
#[inline]
pub(in crate::ether_filter) fn without_fcs<'a>(packet: &Packet<'a>) -> Option<Packet<'a>> {
    let total = frame_total(packet);
    if total < 18 {
        return None;
    }
    let frame = first_bytes(packet.frame, total - 4);
    let lost = total - 4 - frame.len();
    Some(Packet {
        start: Start::Ethernet2,
        frame,
        captured_len: packet.original_len as usize - lost,
        original_len: packet.original_len,
        time: packet.time,
    })
}
