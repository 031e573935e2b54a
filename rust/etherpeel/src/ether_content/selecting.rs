//! Which packets of a capture a filter selects.

use crate::ether_content::program;
use crate::ether_filter::Filter;
use crate::ether_pcap::CapturedPacket;

/// Returns `true` if a filter selects a packet: if its expression holds for the part of the packet that is walked.
///
/// A packet is never selected if the walk does not know its link type, or if it is of cooked capture v2 and its
/// payload has no ether type.
///
/// ```
/// use etherpeel::ether_filter::Filter;
/// use etherpeel::ether_pcap::{CapturedPacket, LinkType};
/// use etherpeel::ether_content::selects;
///
/// # fn main() -> Result<(), Box<dyn std::error::Error>> {
/// let packet = CapturedPacket {
///     time: None,
///     interface: None,
///     direction: None,
///     comment: None,
///     original_len: 60,
///     link_type: LinkType::ETHERNET,
///     snap_len: 262_144,
///     fcs_len: None,
///     packet: &[
///         0xFF, 0xFF, 0xFF, 0xFF, 0xFF, 0xFF, 0x02, 0x00, 0x00, 0x00, 0x00, 0x01, 0x81, 0x00, // Ethernet II
///         0xB1, 0x23, 0x08, 0x00, // VLAN 291
///     ],
/// };
/// assert!(selects(&Filter::parse(b"vlan 291 and cut")?, &packet));
/// assert!(!selects(&Filter::parse(b"arp")?, &packet));
/// # Ok(())
/// # }
/// ```
///
/// <details><summary>Contract</summary>
///
/// ```text
/// ensures { IsTrue result ↔ Selects filter.now (captured_packet_view packet.now) }
/// ```
///
/// Words: [`Selects`](crate::definitions::ether_content#def.Selects),
/// [`captured_packet_view`](crate::definitions::ether_pcap#def.captured_packet_view).
/// [Notation](crate::definitions::notation)
///
/// </details>
#[must_use]
#[inline]
pub fn selects(filter: &Filter, packet: &CapturedPacket<'_>) -> bool {
    program::selects(filter.instructions(), packet)
}

/// Returns `true` if the captured bytes of a packet do not decide whether a filter selects it: if [`decide`] returns
/// `None`.
///
/// <details><summary>Contract</summary>
///
/// ```text
/// ensures { IsTrue result ↔ IsUndecided filter.now (captured_packet_view packet.now) }
/// ```
///
/// Words: [`IsUndecided`](crate::definitions::ether_content#def.IsUndecided),
/// [`captured_packet_view`](crate::definitions::ether_pcap#def.captured_packet_view).
/// [Notation](crate::definitions::notation)
///
/// </details>
#[must_use]
#[inline(always)]
pub fn is_undecided(filter: &Filter, packet: &CapturedPacket<'_>) -> bool {
    program::is_undecided(filter.instructions(), packet)
}

/// Decides whether a filter selects a packet whose bytes may not all be there: `Some` if it does, or does not, whatever
/// the missing bytes are, as [`Filter::decide`] says; `None` if they can change it.
///
/// Missing bytes of a frame check sequence change nothing, if the capture gives its length. A packet whose header of
/// cooked capture was cut is undecided: the header says what is walked.
///
/// [`selects`] goes by the captured bytes alone.
///
/// ```
/// use etherpeel::ether_filter::Filter;
/// use etherpeel::ether_pcap::{CapturedPacket, LinkType};
/// use etherpeel::ether_content::{decide, selects};
///
/// # fn main() -> Result<(), Box<dyn std::error::Error>> {
/// let packet = CapturedPacket {
///     time: None,
///     interface: None,
///     direction: None,
///     comment: None,
///     original_len: 60,
///     link_type: LinkType::ETHERNET,
///     snap_len: 16,
///     fcs_len: None,
///     packet: &[
///         0xFF, 0xFF, 0xFF, 0xFF, 0xFF, 0xFF, 0x02, 0x00, 0x00, 0x00, 0x00, 0x01, 0x81, 0x00, // Ethernet II
///         0xB1, 0x23, // the first bytes of a VLAN tag
///     ],
/// };
/// assert_eq!(decide(&Filter::parse(b"vlan 291")?, &packet), Some(true));
/// assert_eq!(decide(&Filter::parse(b"vlan 292")?, &packet), None);
/// assert_eq!(decide(&Filter::parse(b"not vlan")?, &packet), Some(false));
/// assert!(!selects(&Filter::parse(b"vlan 291")?, &packet));
/// # Ok(())
/// # }
/// ```
///
/// <details><summary>Contract</summary>
///
/// ```text
/// ensures { (outcome : Option Bool) → (result ≡ outcome)
///     ↔ IsOutcome filter.now (captured_packet_view packet.now) outcome }
/// ```
///
/// Words: [`IsOutcome`](crate::definitions::ether_content#def.IsOutcome),
/// [`captured_packet_view`](crate::definitions::ether_pcap#def.captured_packet_view).
/// [Notation](crate::definitions::notation)
///
/// </details>
#[must_use]
#[inline(always)]
pub fn decide(filter: &Filter, packet: &CapturedPacket<'_>) -> Option<bool> {
    program::decide(filter.instructions(), packet)
}
