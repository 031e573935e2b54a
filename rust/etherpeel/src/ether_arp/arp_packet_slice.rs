//! A view of an ARP packet.

use crate::ether_arp::{ArpPacket, arp_fields};
use crate::ether_base::err::LenError;
use crate::ether_base::{ArpHardwareId, ArpOperation, EtherType};

/// A view of an ARP packet (RFC 826), which borrows its 8 to 1028 bytes from a frame. What follows the packet, such as
/// the padding of a short frame, is not part of the view.
///
/// Two views are equal if their bytes are equal. A request, followed by padding:
///
/// ```
/// use etherpeel::{ArpOperation, ArpPacketSlice};
///
/// # fn main() -> Result<(), Box<dyn std::error::Error>> {
/// let payload = [
///     0, 1, 8, 0, 6, 4, // Ethernet and IPv4, whose addresses have 6 and 4 bytes
///     0, 1, // a request
///     2, 0, 0, 0, 0, 1, 10, 0, 0, 1, // the sender's addresses
///     0, 0, 0, 0, 0, 0, 10, 0, 0, 2, // the target's
///     0, 0, 0, 0, 0, 0, 0, 0, 0, 0, 0, 0, 0, 0, 0, 0, 0, 0, // padding
/// ];
/// let packet = ArpPacketSlice::from_slice(&payload)?;
/// assert_eq!(packet.operation(), ArpOperation::REQUEST);
/// assert_eq!(packet.target_protocol_addr(), [10, 0, 0, 2].as_slice());
/// assert_eq!(packet.slice().len(), 28);
/// # Ok(())
/// # }
/// ```
#[derive(Debug)]
pub struct ArpPacketSlice<'a> {
    slice: &'a [u8],
}

impl<'a> ArpPacketSlice<'a> {
    /// Borrows the packet that a slice begins with. What follows the packet is not part of the view.
    ///
    /// # Errors
    ///
    /// The slice has fewer than 8 bytes: `required_len` is 8 and `len_source` is `LenSource::Slice`. Or it has fewer
    /// than the sizes of the addresses say: `required_len` is the length of the packet and `len_source` is
    /// `LenSource::ArpAddrLengths`. In both, `len` is the slice's length, `layer` is `Layer::Arp` and
    /// `layer_start_offset` is 0.
    ///
    /// <details><summary>Contract</summary>
    ///
    /// ```text
    /// ensures bytes { IfOk result
    ///     (λ p. p ≡ slice_range slice.now 0 (arp_len (arp_front_in slice.now))) }
    /// ensures accepted { IfOk result (λ p. Accepts sources.Slice slice.now kinds.Arp) }
    /// ensures value { IfOk result (λ p. Means slice.now (headers.Arp (arp_of p))) }
    /// ensures refused { IfErr result (IsRefusedLen slice.now kinds.Arp) }
    /// ensures short { IfErr result (λ e. length slice.now < e.required_len) }
    /// ```
    ///
    /// Words: [`arp_len`](crate::definitions::ether_base#def.arp_len),
    /// [`arp_front_in`](crate::definitions::ether_base#def.arp_front_in),
    /// [`Accepts`](crate::definitions::ether_base#def.Accepts), `sources` (`LenSource`),
    /// [`kinds.Arp`](crate::definitions::ether_base#def.Kind), [`Means`](crate::definitions::ether_base#def.Means),
    /// [`headers.Arp`](crate::definitions::ether_base#def.Header),
    /// [`arp_of`](crate::definitions::ether_base#def.arp_of),
    /// [`IsRefusedLen`](crate::definitions::ether_base#def.IsRefusedLen). [Notation](crate::definitions::notation)
    ///
    /// </details>
    #[inline]
    pub fn from_slice(slice: &'a [u8]) -> Result<ArpPacketSlice<'a>, LenError> {
        Ok(ArpPacketSlice {
            slice: arp_fields::packet(slice)?,
        })
    }

    /// The bytes of the packet.
    ///
    /// <details><summary>Contract</summary>
    ///
    /// ```text
    /// ensures bytes { result.now ≡ self.now }
    /// ensures len { length result.now ≡ arp_len (arp_front_in self.now) }
    /// ```
    ///
    /// Words: [`arp_len`](crate::definitions::ether_base#def.arp_len),
    /// [`arp_front_in`](crate::definitions::ether_base#def.arp_front_in). [Notation](crate::definitions::notation)
    ///
    /// </details>
    #[must_use]
    #[inline]
    pub fn slice(&self) -> &'a [u8] {
        self.slice
    }

    /// The hardware type: what kind of link the hardware addresses belong to.
    ///
    /// <details><summary>Contract</summary>
    ///
    /// ```text
    /// ensures { result.0 ≡ (arp_of self.now).hardware_type }
    /// ```
    ///
    /// Words: [`arp_of`](crate::definitions::ether_base#def.arp_of). [Notation](crate::definitions::notation)
    ///
    /// </details>
    #[must_use]
    #[inline]
    pub fn hw_addr_type(&self) -> ArpHardwareId {
        arp_fields::hw_addr_type(self.slice)
    }

    /// The protocol type: the protocol that the protocol addresses belong to, as an ether type.
    ///
    /// <details><summary>Contract</summary>
    ///
    /// ```text
    /// ensures { result.0 ≡ (arp_of self.now).protocol_type }
    /// ```
    ///
    /// Words: [`arp_of`](crate::definitions::ether_base#def.arp_of). [Notation](crate::definitions::notation)
    ///
    /// </details>
    #[must_use]
    #[inline]
    pub fn proto_addr_type(&self) -> EtherType {
        arp_fields::proto_addr_type(self.slice)
    }

    /// The size of a hardware address in bytes.
    ///
    /// <details><summary>Contract</summary>
    ///
    /// ```text
    /// ensures front { result ≡ (arp_front_in self.now).hardware_size }
    /// ensures sender { result ≡ length (arp_of self.now).sender_hardware }
    /// ensures target { result ≡ length (arp_of self.now).target_hardware }
    /// ```
    ///
    /// Words: [`arp_front_in`](crate::definitions::ether_base#def.arp_front_in),
    /// [`arp_of`](crate::definitions::ether_base#def.arp_of). [Notation](crate::definitions::notation)
    ///
    /// </details>
    #[must_use]
    #[inline]
    pub fn hw_addr_size(&self) -> u8 {
        arp_fields::hw_addr_size(self.slice)
    }

    /// The size of a protocol address in bytes.
    ///
    /// <details><summary>Contract</summary>
    ///
    /// ```text
    /// ensures front { result ≡ (arp_front_in self.now).protocol_size }
    /// ensures sender { result ≡ length (arp_of self.now).sender_protocol }
    /// ensures target { result ≡ length (arp_of self.now).target_protocol }
    /// ```
    ///
    /// Words: [`arp_front_in`](crate::definitions::ether_base#def.arp_front_in),
    /// [`arp_of`](crate::definitions::ether_base#def.arp_of). [Notation](crate::definitions::notation)
    ///
    /// </details>
    #[must_use]
    #[inline]
    pub fn proto_addr_size(&self) -> u8 {
        arp_fields::proto_addr_size(self.slice)
    }

    /// The operation: a request, a reply or another.
    ///
    /// <details><summary>Contract</summary>
    ///
    /// ```text
    /// ensures { result.0 ≡ (arp_of self.now).operation }
    /// ```
    ///
    /// Words: [`arp_of`](crate::definitions::ether_base#def.arp_of). [Notation](crate::definitions::notation)
    ///
    /// </details>
    #[must_use]
    #[inline]
    pub fn operation(&self) -> ArpOperation {
        arp_fields::operation(self.slice)
    }

    /// The hardware address of the sender.
    ///
    /// <details><summary>Contract</summary>
    ///
    /// ```text
    /// ensures { result.now ≡ (arp_of self.now).sender_hardware }
    /// ```
    ///
    /// Words: [`arp_of`](crate::definitions::ether_base#def.arp_of). [Notation](crate::definitions::notation)
    ///
    /// </details>
    #[must_use]
    #[inline]
    pub fn sender_hw_addr(&self) -> &[u8] {
        arp_fields::sender_hw_addr(self.slice)
    }

    /// The protocol address of the sender.
    ///
    /// <details><summary>Contract</summary>
    ///
    /// ```text
    /// ensures { result.now ≡ (arp_of self.now).sender_protocol }
    /// ```
    ///
    /// Words: [`arp_of`](crate::definitions::ether_base#def.arp_of). [Notation](crate::definitions::notation)
    ///
    /// </details>
    #[must_use]
    #[inline]
    pub fn sender_protocol_addr(&self) -> &[u8] {
        arp_fields::sender_protocol_addr(self.slice)
    }

    /// The hardware address of the target. In a request it is not known yet.
    ///
    /// <details><summary>Contract</summary>
    ///
    /// ```text
    /// ensures { result.now ≡ (arp_of self.now).target_hardware }
    /// ```
    ///
    /// Words: [`arp_of`](crate::definitions::ether_base#def.arp_of). [Notation](crate::definitions::notation)
    ///
    /// </details>
    #[must_use]
    #[inline]
    pub fn target_hw_addr(&self) -> &[u8] {
        arp_fields::target_hw_addr(self.slice)
    }

    /// The protocol address of the target.
    ///
    /// <details><summary>Contract</summary>
    ///
    /// ```text
    /// ensures { result.now ≡ (arp_of self.now).target_protocol }
    /// ```
    ///
    /// Words: [`arp_of`](crate::definitions::ether_base#def.arp_of). [Notation](crate::definitions::notation)
    ///
    /// </details>
    #[must_use]
    #[inline]
    pub fn target_protocol_addr(&self) -> &[u8] {
        arp_fields::target_protocol_addr(self.slice)
    }

    /// The packet as a value, which does not borrow the frame.
    ///
    /// <details><summary>Contract</summary>
    ///
    /// ```text
    /// ensures { result ≡ arp_of self.now }
    /// ```
    ///
    /// Words: [`arp_of`](crate::definitions::ether_base#def.arp_of). [Notation](crate::definitions::notation)
    ///
    /// </details>
    #[must_use]
    #[inline]
    pub fn to_packet(&self) -> ArpPacket {
        let bytes = self.slice;
        ArpPacket::holding(
            arp_fields::hw_addr_type(bytes),
            arp_fields::proto_addr_type(bytes),
            arp_fields::operation(bytes),
            arp_fields::sender_hw_addr(bytes),
            arp_fields::sender_protocol_addr(bytes),
            arp_fields::target_hw_addr(bytes),
            arp_fields::target_protocol_addr(bytes),
        )
    }
}

impl<'a> Clone for ArpPacketSlice<'a> {
    #[inline]
    fn clone(&self) -> Self {
        ArpPacketSlice { slice: self.slice }
    }
}

impl<'a> PartialEq for ArpPacketSlice<'a> {
    #[inline]
    fn eq(&self, other: &ArpPacketSlice<'a>) -> bool {
        self.slice == other.slice
    }
}

impl<'a> Eq for ArpPacketSlice<'a> {}
