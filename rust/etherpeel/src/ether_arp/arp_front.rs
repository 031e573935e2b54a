//! The part of an ARP packet before its addresses, as it is written (RFC 826, "Packet format").

/// The eight bytes before the addresses. The sizes are in bytes.
///
/// <details><summary>Contract</summary>
///
/// ```text
/// ensures { let front : ArpFront = record {
///   hardware_type = hw_addr_type;
///   protocol_type = proto_addr_type;
///   hardware_size = hw_addr_size;
///   protocol_size = proto_addr_size;
///   operation = operation;
/// } in
///     (result ≡ spelled 8 (arp_front_number front)) × FitsArpFront front }
/// ```
///
/// Words: [`ArpFront`](crate::definitions::ether_base#def.ArpFront),
/// [`spelled`](crate::definitions::ether_base#def.spelled),
/// [`arp_front_number`](crate::definitions::ether_base#def.arp_front_number),
/// [`FitsArpFront`](crate::definitions::ether_base#def.FitsArpFront). [Notation](crate::definitions::notation)
///
/// </details>
#[must_use]
#[inline]
pub const fn front_bytes(
    hw_addr_type: u16,
    proto_addr_type: u16,
    hw_addr_size: u8,
    proto_addr_size: u8,
    operation: u16,
) -> [u8; 8] {
    let h = hw_addr_type.to_be_bytes();
    let p = proto_addr_type.to_be_bytes();
    let o = operation.to_be_bytes();
    [
        h[0],
        h[1],
        p[0],
        p[1],
        hw_addr_size,
        proto_addr_size,
        o[0],
        o[1],
    ]
}
