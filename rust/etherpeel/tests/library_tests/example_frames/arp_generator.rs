//! A generator of ARP requests, as an example of a function over `ether_packet`.

use etherpeel::ether_packet::{BuildError, PacketBuilder, PacketContent};
use etherpeel::err::SliceWriteSpaceError;
use etherpeel::{
    ArpEthIpv4Packet, ArpOperation, EtherType, Ethernet2Header, LinkExtHeader, LinkHeader,
    SingleVlanHeader, VlanId, VlanPcp,
};

/// The length of an ARP request in a VLAN: an Ethernet II header, a VLAN tag, and an ARP packet of Ethernet and IPv4.
pub const REQUEST_LEN: usize = 46;

/// Writes an ARP request in a VLAN to the front of a target, and returns its length, [`REQUEST_LEN`].
///
/// The request asks all stations of the VLAN which one has the address `target_ipv4`. The VLAN tag has priority 0. The
/// bytes after the request are unchanged.
///
/// # Errors
///
/// The target is shorter than [`REQUEST_LEN`]. It is then unchanged.
///
/// # Examples
///
/// ```
/// use etherpeel::VlanId;
/// use etherpeel::example_frames::arp_generator::{REQUEST_LEN, write_arp_request};
///
/// # fn main() -> Result<(), Box<dyn std::error::Error>> {
/// let mut frame = [0; REQUEST_LEN];
/// let sender_mac = [0x02, 0x00, 0x00, 0x00, 0x00, 0x01];
/// let len = write_arp_request(&mut frame, VlanId::try_new(100)?, sender_mac, [10, 0, 0, 1], [10, 0, 0, 2])?;
/// assert_eq!(len, 46);
/// assert_eq!(frame[12..18], [0x81, 0x00, 0x00, 0x64, 0x08, 0x06]);
/// # Ok(())
/// # }
/// ```
///
/// <details><summary>Contract</summary>
///
/// ```text
/// ensures len { IfOk result (λ len. (len ≡ 46) × (len ≤ length target.old)) }
/// ensures request { IfOk result (λ len.
///     IsRequest vlan_id sender_mac sender_ipv4 target_ipv4 (take len target.new)) }
/// ensures after { IfOk result (λ len. drop len target.new ≡ drop len target.old) }
/// ensures refused { IfErr result (IsTooShort target.old) }
/// ensures kept { OnErr result (target.new ≡ target.old) }
/// ```
///
/// </details>
pub fn write_arp_request(
    target: &mut [u8],
    vlan_id: VlanId,
    sender_mac: [u8; 6],
    sender_ipv4: [u8; 4],
    target_ipv4: [u8; 4],
) -> Result<usize, SliceWriteSpaceError> {
    let link = Ethernet2Header {
        destination: [0xFF; 6],
        source: sender_mac,
        ether_type: EtherType::VLAN_TAGGED_FRAME,
    };
    let tag = SingleVlanHeader {
        pcp: VlanPcp::ZERO,
        drop_eligible_indicator: false,
        vlan_id,
        ether_type: EtherType::ARP,
    };
    let request = ArpEthIpv4Packet {
        operation: ArpOperation::REQUEST,
        sender_mac,
        sender_ipv4,
        target_mac: [0; 6],
        target_ipv4,
    };
    let arp_packet = request.to_arp_packet();
    let packet = PacketBuilder {
        link: LinkHeader::Ethernet2(link),
        link_exts: &[LinkExtHeader::Vlan(tag)],
        content: PacketContent::Arp(&arp_packet),
    };
    match packet.write(target) {
        Ok(len) => Ok(len),
        Err(BuildError::Space(error)) => Err(error),
        Err(BuildError::HardwareType(_)) => unreachable!(),
        Err(BuildError::Sealed(_)) => unreachable!(),
    }
}
