//! A filter of frames by VLAN and protocol, as an example of a function over `ether_packet`.

use etherpeel::ether_packet::PacketSlice;
use etherpeel::ether_peel::{RestKind, Start};
use etherpeel::{EtherType, VlanId};

/// Returns `true` if a frame is in one of some VLANs and has IPv4 or ARP.
///
/// The frame begins with an Ethernet II header and has no frame check sequence. It is in the VLAN of its outermost
/// VLAN tag; a frame without a VLAN tag is in none. SecTags and further VLAN tags are skipped: the ether type after
/// the last one counts. An ARP packet counts even if it is cut short.
///
/// At most three VLAN tags and SecTags are read, as by [`PacketSlice::from_slice`].
///
/// # Examples
///
/// ```
/// use etherpeel::VlanId;
/// use etherpeel::example_frames::vlan_filter::is_ipv4_or_arp_in_vlans;
///
/// # fn main() -> Result<(), Box<dyn std::error::Error>> {
/// let frame = [
///     0xFF, 0xFF, 0xFF, 0xFF, 0xFF, 0xFF, 0x02, 0x00, 0x00, 0x00, 0x00, 0x01, 0x81, 0x00, // Ethernet II
///     0xB1, 0x23, 0x08, 0x00, // VLAN
///     0x45,
/// ];
/// let id = VlanId::try_new(0x123)?;
/// assert!(is_ipv4_or_arp_in_vlans(&frame, &[VlanId::ZERO, id]));
/// assert!(!is_ipv4_or_arp_in_vlans(&frame, &[VlanId::ZERO]));
/// # Ok(())
/// # }
/// ```
///
/// <details><summary>Contract</summary>
///
/// ```text
/// ensures { (hs : List Header) (e : Ending) → Walk (packet_start Start.Ethernet2) frame.now hs e
///     → IsTrue result ↔ (IsInVlan vlan_ids.now hs × IsIpv4OrArp (kind_shown (last_expected e))) }
/// ```
///
/// </details>
pub fn is_ipv4_or_arp_in_vlans(frame: &[u8], vlan_ids: &[VlanId]) -> bool {
    let packet = PacketSlice::from_slice(Start::Ethernet2, frame);
    is_in_vlans(&packet, vlan_ids) && is_ipv4_or_arp(&packet.rest_kind)
}

/// Whether the outermost VLAN tag has one of these identifiers.
fn is_in_vlans(packet: &PacketSlice<'_>, vlan_ids: &[VlanId]) -> bool {
    let ids = packet.vlan_ids();
    match ids.as_slice().first() {
        Some(outermost) => vlan_ids.contains(outermost),
        None => false,
    }
}

/// Whether the rest is IPv4, an ARP packet that is cut short, or what follows an ARP packet.
fn is_ipv4_or_arp(kind: &RestKind) -> bool {
    matches!(
        *kind,
        RestKind::EtherType(EtherType::IPV4 | EtherType::ARP) | RestKind::AfterArp
    )
}
