//! ARP packets of Ethernet and IPv4 as values.

use crate::ether_arp::{ArpPacket, arp_front};
use crate::ether_base::err::arp::ArpEthIpv4FromError;
use crate::ether_base::{ArpHardwareId, ArpOperation, EtherType};
use core::net::Ipv4Addr;

/// An ARP packet of Ethernet and IPv4 (RFC 826), which asks for the MAC address of an IPv4 address, or answers:
/// hardware type 1, protocol type 0x0800, hardware addresses of 6 bytes and protocol addresses of 4.
///
/// The request "who has 10.0.0.2?":
///
/// ```
/// use etherpeel::{ArpEthIpv4Packet, ArpOperation, ArpPacket};
///
/// # fn main() -> Result<(), Box<dyn std::error::Error>> {
/// let request = ArpEthIpv4Packet {
///     operation: ArpOperation::REQUEST,
///     sender_mac: [0x02, 0x00, 0x00, 0x00, 0x00, 0x01],
///     sender_ipv4: [10, 0, 0, 1],
///     target_mac: [0; 6],
///     target_ipv4: [10, 0, 0, 2],
/// };
/// let read = ArpPacket::from_slice(&request.to_bytes())?;
/// assert_eq!(read.try_eth_ipv4(), Ok(request));
/// # Ok(())
/// # }
/// ```
#[cfg_attr(feature = "serde", derive(serde::Serialize, serde::Deserialize))]
#[derive(Clone, Copy, PartialEq, Eq, Hash, Debug)]
pub struct ArpEthIpv4Packet {
    /// The operation: a request, a reply or another.
    pub operation: ArpOperation,
    /// The MAC address of the sender.
    pub sender_mac: [u8; 6],
    /// The IPv4 address of the sender.
    pub sender_ipv4: [u8; 4],
    /// The MAC address of the target. In a request it is not known yet.
    pub target_mac: [u8; 6],
    /// The IPv4 address of the target.
    pub target_ipv4: [u8; 4],
}

impl ArpEthIpv4Packet {
    /// The length of the packet in bytes.
    pub const LEN: usize = 28;

    /// The IPv4 address of the sender.
    ///
    /// <details><summary>Contract</summary>
    ///
    /// ```text
    /// ensures { ipv4_octets result ≡ self.now.sender_ipv4 }
    /// ```
    ///
    /// [Notation](crate::definitions::notation)
    ///
    /// </details>
    #[must_use]
    #[inline]
    pub const fn sender_ipv4_addr(&self) -> Ipv4Addr {
        let [a, b, c, d] = self.sender_ipv4;
        Ipv4Addr::new(a, b, c, d)
    }

    /// The IPv4 address of the target.
    ///
    /// <details><summary>Contract</summary>
    ///
    /// ```text
    /// ensures { ipv4_octets result ≡ self.now.target_ipv4 }
    /// ```
    ///
    /// [Notation](crate::definitions::notation)
    ///
    /// </details>
    #[must_use]
    #[inline]
    pub const fn target_ipv4_addr(&self) -> Ipv4Addr {
        let [a, b, c, d] = self.target_ipv4;
        Ipv4Addr::new(a, b, c, d)
    }

    /// The 28 bytes of the packet on the wire.
    ///
    /// <details><summary>Contract</summary>
    ///
    /// ```text
    /// ensures value { result ≡ eth_ipv4_bytes self.now }
    /// ensures packet { result ≡ arp_bytes (eth_ipv4_view self.now) }
    /// ensures len { length result ≡ 28 }
    /// ensures fits { FitsArp (eth_ipv4_view self.now) }
    /// ```
    ///
    /// Words: [`eth_ipv4_bytes`](crate::definitions::ether_arp#def.eth_ipv4_bytes),
    /// [`arp_bytes`](crate::definitions::ether_base#def.arp_bytes),
    /// [`eth_ipv4_view`](crate::definitions::ether_arp#def.eth_ipv4_view),
    /// [`FitsArp`](crate::definitions::ether_base#def.FitsArp). [Notation](crate::definitions::notation)
    ///
    /// </details>
    #[must_use]
    #[inline]
    pub const fn to_bytes(&self) -> [u8; 28] {
        let front = arp_front::front_bytes(
            ArpHardwareId::ETHERNET.0,
            EtherType::IPV4.0,
            6,
            4,
            self.operation.0,
        );
        joined(
            front,
            self.sender_mac,
            self.sender_ipv4,
            self.target_mac,
            self.target_ipv4,
        )
    }

    /// The packet as an [`ArpPacket`]. [`ArpPacket::try_eth_ipv4`] turns that into this packet again.
    ///
    /// <details><summary>Contract</summary>
    ///
    /// ```text
    /// ensures value { result ≡ eth_ipv4_view self.now }
    /// ensures bytes { arp_bytes result ≡ eth_ipv4_bytes self.now }
    /// ensures reads_back { (r : Result ArpEthIpv4Packet from_error)
    ///     → AnswersEthIpv4 result r → r ≡ Ok self.now }
    /// ```
    ///
    /// Words: [`eth_ipv4_view`](crate::definitions::ether_arp#def.eth_ipv4_view),
    /// [`arp_bytes`](crate::definitions::ether_base#def.arp_bytes),
    /// [`eth_ipv4_bytes`](crate::definitions::ether_arp#def.eth_ipv4_bytes), `from_error` (`ArpEthIpv4FromError`),
    /// [`AnswersEthIpv4`](crate::definitions::ether_arp#def.AnswersEthIpv4). [Notation](crate::definitions::notation)
    ///
    /// </details>
    #[must_use]
    #[inline]
    pub fn to_arp_packet(&self) -> ArpPacket {
        ArpPacket::holding(
            ArpHardwareId::ETHERNET,
            EtherType::IPV4,
            self.operation,
            &self.sender_mac,
            &self.sender_ipv4,
            &self.target_mac,
            &self.target_ipv4,
        )
    }
}

/// The 28 bytes of a packet: the eight bytes before the addresses, and the four addresses in order.
#[inline]
const fn joined(
    front: [u8; 8],
    sender_mac: [u8; 6],
    sender_ipv4: [u8; 4],
    target_mac: [u8; 6],
    target_ipv4: [u8; 4],
) -> [u8; 28] {
    let (f, s, i, t, j) = (front, sender_mac, sender_ipv4, target_mac, target_ipv4);
    [
        f[0], f[1], f[2], f[3], f[4], f[5], f[6], f[7], s[0], s[1], s[2], s[3], s[4], s[5], i[0],
        i[1], i[2], i[3], t[0], t[1], t[2], t[3], t[4], t[5], j[0], j[1], j[2], j[3],
    ]
}

/// Errors are those of [`ArpPacket::try_eth_ipv4`]. A refused packet is dropped.
impl TryFrom<ArpPacket> for ArpEthIpv4Packet {
    type Error = ArpEthIpv4FromError;

    #[inline]
    fn try_from(packet: ArpPacket) -> Result<ArpEthIpv4Packet, ArpEthIpv4FromError> {
        packet.try_eth_ipv4()
    }
}
