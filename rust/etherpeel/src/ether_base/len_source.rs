//! Where a length comes from.

/// Where a length was taken from: the slice that was passed in, or a length field of a header.
///
/// Sources are ordered as they are listed.
///
/// ```
/// use etherpeel::LenSource;
///
/// assert!(LenSource::Slice < LenSource::MacsecShortLength);
/// ```
#[cfg_attr(feature = "serde", derive(serde::Serialize, serde::Deserialize))]
#[derive(Clone, Copy, PartialEq, Eq, PartialOrd, Ord, Hash, Debug)]
pub enum LenSource {
    /// The length of the slice.
    Slice,
    /// The short length of a MACsec SecTag (IEEE 802.1AE, 9.7).
    MacsecShortLength,
    /// The total length of an IPv4 header.
    Ipv4HeaderTotalLen,
    /// The payload length of an IPv6 header.
    Ipv6HeaderPayloadLen,
    /// The length of a UDP header.
    UdpHeaderLen,
    /// A length from a TCP header.
    TcpHeaderLen,
    /// The two address lengths of an ARP packet (RFC 826).
    ArpAddrLengths,
}

impl LenSource {
    /// The name of the source within the text of an error.
    #[inline]
    pub(in crate::ether_base) fn name(&self) -> &'static str {
        match self {
            LenSource::Slice => "slice length",
            LenSource::MacsecShortLength =>
                "length calculated from the MACsec header 'short length' field",
            LenSource::Ipv4HeaderTotalLen =>
                "length calculated from the IPv4 header 'total length' field",
            LenSource::Ipv6HeaderPayloadLen =>
                "length calculated from the IPv6 header 'payload length' field",
            LenSource::UdpHeaderLen => "length calculated from the UDP header 'length' field",
            LenSource::TcpHeaderLen => "length calculated from the TCP header 'length' field",
            LenSource::ArpAddrLengths =>
                "length calculated from the ARP 'hw_addr_size' & 'proto_addr_size' fields",
        }
    }
}
