//! Replaces the ARP packet of a frame in place.

use crate::ether_packet::packet_builder::write_arp;
use crate::ether_packet::{Difference, PacketSlice, ReplaceError};
use crate::ether_peel::Start;
use crate::{ArpPacket, ArpPacketSlice};

/// Replaces the ARP packet of a frame, in place, by another one whose hardware addresses and protocol addresses have
/// the same lengths.
///
/// The ARP packet is the one that [`PacketSlice::arp`] returns. No other byte changes: the walk has the new ARP
/// packet, and all other headers are unchanged. A frame check sequence and an integrity check value are also
/// unchanged, and don't fit the new bytes.
///
/// # Errors
///
/// The frame is then unchanged:
///
/// - [`ReplaceError::NoArp`]: the frame has no ARP packet, or its ARP packet is cut short.
/// - [`ReplaceError::SaysOther`]: the two packets differ in the length of their hardware addresses, or in that of
///   their protocol addresses. The error names the difference.
///
/// # Examples
///
/// The request for the hardware address of 10.0.0.2 becomes the reply to it. The addresses of the Ethernet II header
/// are left to [`replace_link`](crate::ether_packet::replace_link).
///
/// ```
/// use etherpeel::{ArpEthIpv4Packet, ArpOperation};
/// use etherpeel::ether_peel::Start;
/// use etherpeel::ether_packet::replace_arp;
///
/// let mut frame = [
///     0xFF, 0xFF, 0xFF, 0xFF, 0xFF, 0xFF, 0x02, 0x00, 0x00, 0x00, 0x00, 0x01, 0x08, 0x06, // Ethernet II
///     0x00, 0x01, 0x08, 0x00, 0x06, 0x04, 0x00, 0x01, // ARP
///     0x02, 0x00, 0x00, 0x00, 0x00, 0x01, 0x0A, 0x00, 0x00, 0x01, // sender
///     0x00, 0x00, 0x00, 0x00, 0x00, 0x00, 0x0A, 0x00, 0x00, 0x02, // target
/// ];
/// let reply = ArpEthIpv4Packet {
///     operation: ArpOperation::REPLY,
///     sender_mac: [0x02, 0x00, 0x00, 0x00, 0x00, 0x02],
///     sender_ipv4: [10, 0, 0, 2],
///     target_mac: [0x02, 0x00, 0x00, 0x00, 0x00, 0x01],
///     target_ipv4: [10, 0, 0, 1],
/// };
/// let packet = reply.to_arp_packet();
/// assert_eq!(replace_arp(Start::Ethernet2, &mut frame, &packet), Ok(()));
/// assert_eq!(frame[20..22], [0x00, 0x02]);
/// assert_eq!(frame[22..32], [0x02, 0x00, 0x00, 0x00, 0x00, 0x02, 0x0A, 0x00, 0x00, 0x02]);
/// assert_eq!(frame[32..], [0x02, 0x00, 0x00, 0x00, 0x00, 0x01, 0x0A, 0x00, 0x00, 0x01]);
/// ```
///
/// <details><summary>Contract</summary>
///
/// ```text
/// ensures ok { IfOk result (λ _. (hs : List Header) (e : Ending)
///     → Walk (packet_start start) frame.old hs e
///     → ReplacesArp (packet_start start) frame.old hs e packet.now frame.new) }
/// ensures refused { IfErr result (λ error. (hs : List Header) (e : Ending)
///     → Walk (packet_start start) frame.old hs e → RefusesArp hs packet.now error) }
/// ensures kept { OnErr result (frame.new ≡ frame.old) }
/// ```
///
/// Words: [`Header`](crate::definitions::ether_base#def.Header),
/// [`Ending`](crate::definitions::ether_peel#def.Ending), [`Walk`](crate::definitions::ether_peel#def.Walk),
/// [`packet_start`](crate::definitions::ether_packet#def.packet_start),
/// [`ReplacesArp`](crate::definitions::ether_packet#def.ReplacesArp),
/// [`RefusesArp`](crate::definitions::ether_packet#def.RefusesArp). [Notation](crate::definitions::notation)
///
/// </details>
#[inline]
pub fn replace_arp(start: Start, frame: &mut [u8], packet: &ArpPacket) -> Result<(), ReplaceError> {
    let end = find_arp(start, frame, packet)?;
    write_arp(frame, end, packet);
    Ok(())
}

/// The offset at which the ARP packet of a frame ends, if the other packet can replace it.
#[inline]
fn find_arp(start: Start, frame: &[u8], packet: &ArpPacket) -> Result<usize, ReplaceError> {
    let read = PacketSlice::from_slice(start, frame);
    let Some(old) = read.arp() else {
        return Err(ReplaceError::NoArp);
    };
    match arp_difference(packet, &old) {
        // Nothing is read after an ARP packet, so the rest starts where it ends.
        None => Ok(read.rest_offset),
        Some(difference) => Err(ReplaceError::SaysOther(difference)),
    }
}

/// The first of the two address lengths in which ARP packets differ.
#[inline]
fn arp_difference(new: &ArpPacket, old: &ArpPacketSlice<'_>) -> Option<Difference> {
    if new.hw_addr_size() != old.hw_addr_size() {
        Some(Difference::HwAddrLen)
    } else if new.protocol_addr_size() != old.proto_addr_size() {
        Some(Difference::ProtocolAddrLen)
    } else {
        None
    }
}
