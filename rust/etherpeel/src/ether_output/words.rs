//! Words for what a walk says.

use crate::LenSource;

/// The word for the source of a length.
///
/// <details><summary>Contract</summary>
///
/// ```text
/// ensures { result.now ≡ source_text source }
/// ```
///
/// Words: [`source_text`](crate::definitions::ether_output#def.source_text).
/// [Notation](crate::definitions::notation)
///
/// </details>
#[must_use]
#[inline]
pub fn source_of(source: LenSource) -> &'static str {
    match source {
        LenSource::Slice => "slice",
        LenSource::MacsecShortLength => "macsec_short_length",
        LenSource::Ipv4HeaderTotalLen => "ipv4_total_len",
        LenSource::Ipv6HeaderPayloadLen => "ipv6_payload_len",
        LenSource::UdpHeaderLen => "udp_len",
        LenSource::TcpHeaderLen => "tcp_len",
        LenSource::ArpAddrLengths => "arp_addr_lengths",
    }
}
