//! ARP packets as values.

use crate::ether_arp::{ArpEthIpv4Packet, ArpPacketSlice, arp_addrs, arp_front};
use arrayvec::ArrayVec;
use crate::ether_base::err::LenError;
use crate::ether_base::err::arp::{ArpEthIpv4FromError, ArpHwAddrError, ArpNewError, ArpProtoAddrError};
use crate::ether_base::{ArpHardwareId, ArpOperation, EtherType};
use core::fmt;
use core::hash::{Hash, Hasher};

/// The greatest length of an address in bytes: its size is one byte on the wire.
const MAX_ADDR_LEN: usize = 255;

/// A packet of the Address Resolution Protocol (RFC 826): it asks which hardware address belongs to a protocol
/// address, or answers.
///
/// Both hardware addresses have the same length, at most 255 bytes, and so do both protocol addresses. Packets are
/// equal, and have the same hash, if types, sizes, operation and addresses are equal.
///
/// The reply to a request for 10.0.0.2:
///
/// ```
/// use etherpeel::{ArpOperation, ArpPacket};
///
/// # fn main() -> Result<(), Box<dyn std::error::Error>> {
/// let request = [
///     0, 1, 8, 0, 6, 4, // Ethernet and IPv4, whose addresses have 6 and 4 bytes
///     0, 1, // a request
///     2, 0, 0, 0, 0, 1, 10, 0, 0, 1, // the sender's addresses
///     0, 0, 0, 0, 0, 0, 10, 0, 0, 2, // the target's
/// ];
/// let reply = [
///     0, 1, 8, 0, 6, 4, // as in the request
///     0, 2, // a reply
///     2, 0, 0, 0, 0, 2, 10, 0, 0, 2, // the sender's addresses
///     2, 0, 0, 0, 0, 1, 10, 0, 0, 1, // the target's
/// ];
/// let mut packet = ArpPacket::from_slice(&request)?;
/// packet.operation = ArpOperation::REPLY;
/// packet.set_hw_addrs(&[2, 0, 0, 0, 0, 2], &[2, 0, 0, 0, 0, 1])?;
/// packet.set_protocol_addrs(&[10, 0, 0, 2], &[10, 0, 0, 1])?;
/// assert_eq!(packet.to_bytes().as_slice(), &reply);
/// # Ok(())
/// # }
/// ```
pub struct ArpPacket {
    /// What kind of link the hardware addresses belong to.
    pub hw_addr_type: ArpHardwareId,
    /// The protocol that the protocol addresses belong to, as an ether type.
    pub proto_addr_type: EtherType,
    /// The operation: a request, a reply or another.
    pub operation: ArpOperation,
    sender_hw_addr: ArrayVec<u8, 255>,
    sender_protocol_addr: ArrayVec<u8, 255>,
    target_hw_addr: ArrayVec<u8, 255>,
    target_protocol_addr: ArrayVec<u8, 255>,
}

impl ArpPacket {
    /// The greatest length of a packet in bytes: with four addresses of 255 bytes.
    pub const MAX_LEN: usize = 1028;

    /// Makes a packet with the given types, operation and addresses.
    ///
    /// # Errors
    ///
    /// The first of these that holds:
    ///
    /// - `ArpNewError::HwAddr` with `LenNonMatching`: the hardware addresses differ in length.
    /// - `ArpNewError::ProtoAddr` with `LenNonMatching`: the protocol addresses differ in length.
    /// - `ArpNewError::HwAddr` with `LenTooBig`: the hardware addresses are longer than 255 bytes.
    /// - `ArpNewError::ProtoAddr` with `LenTooBig`: the protocol addresses are longer than 255 bytes.
    ///
    /// <details><summary>Contract</summary>
    ///
    /// ```text
    /// ensures answers { AnswersAddrs (length sender_hw_addr.now) (length sender_protocol_addr.now)
    ///     (length target_hw_addr.now) (length target_protocol_addr.now) result }
    /// ensures holds { IfOk result (λ p. p ≡ record {
    ///   hardware_type = hw_addr_type.0;
    ///   protocol_type = proto_addr_type.0;
    ///   operation = operation.0;
    ///   sender_hardware = sender_hw_addr.now;
    ///   sender_protocol = sender_protocol_addr.now;
    ///   target_hardware = target_hw_addr.now;
    ///   target_protocol = target_protocol_addr.now;
    /// }) }
    /// ```
    ///
    /// Words: [`AnswersAddrs`](crate::definitions::ether_arp#def.AnswersAddrs).
    /// [Notation](crate::definitions::notation)
    ///
    /// </details>
    #[inline]
    pub fn new(
        hw_addr_type: ArpHardwareId,
        proto_addr_type: EtherType,
        operation: ArpOperation,
        sender_hw_addr: &[u8],
        sender_protocol_addr: &[u8],
        target_hw_addr: &[u8],
        target_protocol_addr: &[u8],
    ) -> Result<ArpPacket, ArpNewError> {
        if sender_hw_addr.len() != target_hw_addr.len() {
            return Err(ArpNewError::HwAddr(ArpHwAddrError::LenNonMatching(
                sender_hw_addr.len(),
                target_hw_addr.len(),
            )));
        }
        if sender_protocol_addr.len() != target_protocol_addr.len() {
            return Err(ArpNewError::ProtoAddr(ArpProtoAddrError::LenNonMatching(
                sender_protocol_addr.len(),
                target_protocol_addr.len(),
            )));
        }
        if sender_hw_addr.len() > MAX_ADDR_LEN {
            return Err(ArpNewError::HwAddr(ArpHwAddrError::LenTooBig(sender_hw_addr.len())));
        }
        if sender_protocol_addr.len() > MAX_ADDR_LEN {
            return Err(ArpNewError::ProtoAddr(ArpProtoAddrError::LenTooBig(
                sender_protocol_addr.len(),
            )));
        }
        Ok(ArpPacket::holding(
            hw_addr_type,
            proto_addr_type,
            operation,
            sender_hw_addr,
            sender_protocol_addr,
            target_hw_addr,
            target_protocol_addr,
        ))
    }

    /// The packet with these fields. The addresses of each kind have the same length, at most 255 bytes.
    #[inline]
    pub(in crate::ether_arp) fn holding(
        hw_addr_type: ArpHardwareId,
        proto_addr_type: EtherType,
        operation: ArpOperation,
        sender_hw_addr: &[u8],
        sender_protocol_addr: &[u8],
        target_hw_addr: &[u8],
        target_protocol_addr: &[u8],
    ) -> ArpPacket {
        ArpPacket {
            hw_addr_type,
            proto_addr_type,
            operation,
            sender_hw_addr: arp_addrs::address(sender_hw_addr),
            sender_protocol_addr: arp_addrs::address(sender_protocol_addr),
            target_hw_addr: arp_addrs::address(target_hw_addr),
            target_protocol_addr: arp_addrs::address(target_protocol_addr),
        }
    }

    /// Copies the packet that a slice begins with. What follows it is ignored.
    ///
    /// # Errors
    ///
    /// Those of [`ArpPacketSlice::from_slice`].
    ///
    /// <details><summary>Contract</summary>
    ///
    /// ```text
    /// ensures accepted { IfOk result (λ p. Accepts sources.Slice slice.now kinds.Arp) }
    /// ensures value { IfOk result (λ p. Means slice.now (headers.Arp p)) }
    /// ensures refused { IfErr result (IsRefusedLen slice.now kinds.Arp) }
    /// ensures short { IfErr result (λ e. length slice.now < e.required_len) }
    /// ```
    ///
    /// Words: [`Accepts`](crate::definitions::ether_base#def.Accepts), `sources` (`LenSource`),
    /// [`kinds.Arp`](crate::definitions::ether_base#def.Kind), [`Means`](crate::definitions::ether_base#def.Means),
    /// [`headers.Arp`](crate::definitions::ether_base#def.Header),
    /// [`IsRefusedLen`](crate::definitions::ether_base#def.IsRefusedLen). [Notation](crate::definitions::notation)
    ///
    /// </details>
    #[inline]
    pub fn from_slice(slice: &[u8]) -> Result<ArpPacket, LenError> {
        Ok(ArpPacketSlice::from_slice(slice)?.to_packet())
    }

    /// The size of a hardware address in bytes.
    ///
    /// <details><summary>Contract</summary>
    ///
    /// ```text
    /// ensures sender { result ≡ length self.now.sender_hardware }
    /// ensures target { result ≡ length self.now.target_hardware }
    /// ```
    ///
    /// [Notation](crate::definitions::notation)
    ///
    /// </details>
    #[must_use]
    #[inline]
    pub const fn hw_addr_size(&self) -> u8 {
        self.sender_hw_addr.len() as u8
    }

    /// The size of a protocol address in bytes.
    ///
    /// <details><summary>Contract</summary>
    ///
    /// ```text
    /// ensures sender { result ≡ length self.now.sender_protocol }
    /// ensures target { result ≡ length self.now.target_protocol }
    /// ```
    ///
    /// [Notation](crate::definitions::notation)
    ///
    /// </details>
    #[must_use]
    #[inline]
    pub const fn protocol_addr_size(&self) -> u8 {
        self.sender_protocol_addr.len() as u8
    }

    /// The hardware address of the sender.
    ///
    /// <details><summary>Contract</summary>
    ///
    /// ```text
    /// ensures { result.now ≡ self.now.sender_hardware }
    /// ```
    ///
    /// [Notation](crate::definitions::notation)
    ///
    /// </details>
    #[must_use]
    #[inline]
    pub fn sender_hw_addr(&self) -> &[u8] {
        self.sender_hw_addr.as_slice()
    }

    /// The protocol address of the sender.
    ///
    /// <details><summary>Contract</summary>
    ///
    /// ```text
    /// ensures { result.now ≡ self.now.sender_protocol }
    /// ```
    ///
    /// [Notation](crate::definitions::notation)
    ///
    /// </details>
    #[must_use]
    #[inline]
    pub fn sender_protocol_addr(&self) -> &[u8] {
        self.sender_protocol_addr.as_slice()
    }

    /// The hardware address of the target. In a request it is not known yet.
    ///
    /// <details><summary>Contract</summary>
    ///
    /// ```text
    /// ensures { result.now ≡ self.now.target_hardware }
    /// ```
    ///
    /// [Notation](crate::definitions::notation)
    ///
    /// </details>
    #[must_use]
    #[inline]
    pub fn target_hw_addr(&self) -> &[u8] {
        self.target_hw_addr.as_slice()
    }

    /// The protocol address of the target.
    ///
    /// <details><summary>Contract</summary>
    ///
    /// ```text
    /// ensures { result.now ≡ self.now.target_protocol }
    /// ```
    ///
    /// [Notation](crate::definitions::notation)
    ///
    /// </details>
    #[must_use]
    #[inline]
    pub fn target_protocol_addr(&self) -> &[u8] {
        self.target_protocol_addr.as_slice()
    }

    /// Replaces both hardware addresses, and with them their size.
    ///
    /// # Errors
    ///
    /// [`ArpHwAddrError::LenNonMatching`] if the addresses differ in length, else [`ArpHwAddrError::LenTooBig`] if
    /// they are longer than 255 bytes. The packet is then unchanged.
    ///
    /// <details><summary>Contract</summary>
    ///
    /// ```text
    /// ensures answers { AnswersHwAddrs (length sender_hw_addr.now)
    ///     (length target_hw_addr.now) result }
    /// ensures set { OnOk result (self.new ≡ record self.old {
    ///   sender_hardware = sender_hw_addr.now;
    ///   target_hardware = target_hw_addr.now;
    /// }) }
    /// ensures unchanged { OnErr result (self.new ≡ self.old) }
    /// ```
    ///
    /// Words: [`AnswersHwAddrs`](crate::definitions::ether_arp#def.AnswersHwAddrs).
    /// [Notation](crate::definitions::notation)
    ///
    /// </details>
    #[inline]
    pub fn set_hw_addrs(
        &mut self,
        sender_hw_addr: &[u8],
        target_hw_addr: &[u8],
    ) -> Result<(), ArpHwAddrError> {
        let len = sender_hw_addr.len();
        if len != target_hw_addr.len() {
            return Err(ArpHwAddrError::LenNonMatching(len, target_hw_addr.len()));
        }
        if len > MAX_ADDR_LEN {
            return Err(ArpHwAddrError::LenTooBig(len));
        }
        self.sender_hw_addr = arp_addrs::address(sender_hw_addr);
        self.target_hw_addr = arp_addrs::address(target_hw_addr);
        Ok(())
    }

    /// Replaces both protocol addresses, and with them their size.
    ///
    /// # Errors
    ///
    /// [`ArpProtoAddrError::LenNonMatching`] if the addresses differ in length, else [`ArpProtoAddrError::LenTooBig`]
    /// if they are longer than 255 bytes. The packet is then unchanged.
    ///
    /// <details><summary>Contract</summary>
    ///
    /// ```text
    /// ensures answers { AnswersProtoAddrs (length sender_protocol_addr.now)
    ///     (length target_protocol_addr.now) result }
    /// ensures set { OnOk result (self.new ≡ record self.old {
    ///   sender_protocol = sender_protocol_addr.now;
    ///   target_protocol = target_protocol_addr.now;
    /// }) }
    /// ensures unchanged { OnErr result (self.new ≡ self.old) }
    /// ```
    ///
    /// Words: [`AnswersProtoAddrs`](crate::definitions::ether_arp#def.AnswersProtoAddrs).
    /// [Notation](crate::definitions::notation)
    ///
    /// </details>
    #[inline]
    pub fn set_protocol_addrs(
        &mut self,
        sender_protocol_addr: &[u8],
        target_protocol_addr: &[u8],
    ) -> Result<(), ArpProtoAddrError> {
        let len = sender_protocol_addr.len();
        if len != target_protocol_addr.len() {
            return Err(ArpProtoAddrError::LenNonMatching(len, target_protocol_addr.len()));
        }
        if len > MAX_ADDR_LEN {
            return Err(ArpProtoAddrError::LenTooBig(len));
        }
        self.sender_protocol_addr = arp_addrs::address(sender_protocol_addr);
        self.target_protocol_addr = arp_addrs::address(target_protocol_addr);
        Ok(())
    }

    /// The length of the packet in bytes, 8 to [`ArpPacket::MAX_LEN`].
    ///
    /// <details><summary>Contract</summary>
    ///
    /// ```text
    /// ensures value { result ≡ arp_len (arp_front_of self.now) }
    /// ensures bound { result ≤ 1028 }
    /// ```
    ///
    /// Words: [`arp_len`](crate::definitions::ether_base#def.arp_len),
    /// [`arp_front_of`](crate::definitions::ether_base#def.arp_front_of). [Notation](crate::definitions::notation)
    ///
    /// </details>
    #[must_use]
    #[inline]
    pub fn packet_len(&self) -> usize {
        8 + 2 * usize::from(self.hw_addr_size()) + 2 * usize::from(self.protocol_addr_size())
    }

    /// The bytes of the packet on the wire. Their number is [`ArpPacket::packet_len`].
    ///
    /// They are read back as this packet, whatever follows them.
    ///
    /// <details><summary>Contract</summary>
    ///
    /// ```text
    /// ensures value { result.items ≡ arp_bytes self.now }
    /// ensures len { length result.items ≡ arp_len (arp_front_of self.now) }
    /// ensures fits { FitsArp self.now }
    /// ensures accepted { (more : List ℕ)
    ///     → Accepts sources.Slice (result.items ++ more) kinds.Arp }
    /// ensures read { (more : List ℕ) → Means (result.items ++ more) (headers.Arp self.now) }
    /// ```
    ///
    /// Words: [`arp_bytes`](crate::definitions::ether_base#def.arp_bytes),
    /// [`arp_len`](crate::definitions::ether_base#def.arp_len),
    /// [`arp_front_of`](crate::definitions::ether_base#def.arp_front_of),
    /// [`FitsArp`](crate::definitions::ether_base#def.FitsArp),
    /// [`Accepts`](crate::definitions::ether_base#def.Accepts), `sources` (`LenSource`),
    /// [`kinds.Arp`](crate::definitions::ether_base#def.Kind), [`Means`](crate::definitions::ether_base#def.Means),
    /// [`headers.Arp`](crate::definitions::ether_base#def.Header). [Notation](crate::definitions::notation)
    ///
    /// </details>
    #[must_use]
    #[inline]
    pub fn to_bytes(&self) -> ArrayVec<u8, 1028> {
        self.spelled()
    }

    /// The bytes of the packet. Each number fits in its field.
    #[inline]
    fn spelled(&self) -> ArrayVec<u8, 1028> {
        let mut bytes = ArrayVec::new();
        arp_addrs::append(&mut bytes, &self.front());
        arp_addrs::append(&mut bytes, self.sender_hw_addr());
        arp_addrs::append(&mut bytes, self.sender_protocol_addr());
        arp_addrs::append(&mut bytes, self.target_hw_addr());
        arp_addrs::append(&mut bytes, self.target_protocol_addr());
        bytes
    }

    /// The bytes before the addresses.
    #[inline]
    fn front(&self) -> [u8; 8] {
        arp_front::front_bytes(
            self.hw_addr_type.0,
            self.proto_addr_type.0,
            self.hw_addr_size(),
            self.protocol_addr_size(),
            self.operation.0,
        )
    }

    /// The packet as a packet of Ethernet and IPv4.
    ///
    /// # Errors
    ///
    /// The first of these that holds; each error has what the packet has instead:
    ///
    /// - [`ArpEthIpv4FromError::NonMatchingHwType`]: the hardware type is not 1, Ethernet.
    /// - [`ArpEthIpv4FromError::NonMatchingProtocolType`]: the protocol type is not 0x0800, IPv4.
    /// - [`ArpEthIpv4FromError::NonMatchingHwAddrSize`]: the hardware addresses are not 6 bytes long.
    /// - [`ArpEthIpv4FromError::NonMatchingProtoAddrSize`]: the protocol addresses are not 4 bytes long.
    ///
    /// <details><summary>Contract</summary>
    ///
    /// ```text
    /// ensures { AnswersEthIpv4 self.now result }
    /// ```
    ///
    /// Words: [`AnswersEthIpv4`](crate::definitions::ether_arp#def.AnswersEthIpv4).
    /// [Notation](crate::definitions::notation)
    ///
    /// </details>
    #[inline]
    pub fn try_eth_ipv4(&self) -> Result<ArpEthIpv4Packet, ArpEthIpv4FromError> {
        if self.hw_addr_type != ArpHardwareId::ETHERNET {
            return Err(ArpEthIpv4FromError::NonMatchingHwType(self.hw_addr_type));
        }
        if self.proto_addr_type != EtherType::IPV4 {
            return Err(ArpEthIpv4FromError::NonMatchingProtocolType(self.proto_addr_type));
        }
        let hw_addr_size = self.hw_addr_size();
        if hw_addr_size != 6 {
            return Err(ArpEthIpv4FromError::NonMatchingHwAddrSize(hw_addr_size));
        }
        let protocol_addr_size = self.protocol_addr_size();
        if protocol_addr_size != 4 {
            return Err(ArpEthIpv4FromError::NonMatchingProtoAddrSize(protocol_addr_size));
        }
        Ok(ArpEthIpv4Packet {
            operation: self.operation,
            sender_mac: array(self.sender_hw_addr()),
            sender_ipv4: array(self.sender_protocol_addr()),
            target_mac: array(self.target_hw_addr()),
            target_ipv4: array(self.target_protocol_addr()),
        })
    }
}

/// An address of `N` bytes as an array. Its length is tested once.
#[inline]
fn array<const N: usize>(address: &[u8]) -> [u8; N] {
    match address.first_chunk::<N>() {
        Some(array) => *array,
        None => unreachable!(),
    }
}

impl From<ArpEthIpv4Packet> for ArpPacket {
    #[inline]
    fn from(packet: ArpEthIpv4Packet) -> ArpPacket {
        packet.to_arp_packet()
    }
}

impl Clone for ArpPacket {
    #[inline]
    fn clone(&self) -> Self {
        ArpPacket {
            hw_addr_type: self.hw_addr_type,
            proto_addr_type: self.proto_addr_type,
            operation: self.operation,
            sender_hw_addr: self.sender_hw_addr.clone(),
            sender_protocol_addr: self.sender_protocol_addr.clone(),
            target_hw_addr: self.target_hw_addr.clone(),
            target_protocol_addr: self.target_protocol_addr.clone(),
        }
    }
}

impl PartialEq for ArpPacket {
    #[inline]
    fn eq(&self, other: &ArpPacket) -> bool {
        self.hw_addr_type == other.hw_addr_type
            && self.proto_addr_type == other.proto_addr_type
            && self.operation == other.operation
            && self.sender_hw_addr == other.sender_hw_addr
            && self.sender_protocol_addr == other.sender_protocol_addr
            && self.target_hw_addr == other.target_hw_addr
            && self.target_protocol_addr == other.target_protocol_addr
    }
}

impl Eq for ArpPacket {}

impl Hash for ArpPacket {
    #[inline]
    fn hash<H: Hasher>(&self, state: &mut H) {
        self.hw_addr_type.hash(state);
        self.proto_addr_type.hash(state);
        self.operation.hash(state);
        self.sender_hw_addr().hash(state);
        self.sender_protocol_addr().hash(state);
        self.target_hw_addr().hash(state);
        self.target_protocol_addr().hash(state);
    }
}

impl fmt::Debug for ArpPacket {
    fn fmt(&self, f: &mut fmt::Formatter<'_>) -> fmt::Result {
        f.debug_struct("ArpPacket")
            .field("hw_addr_type", &self.hw_addr_type)
            .field("proto_addr_type", &self.proto_addr_type)
            .field("hw_addr_size", &self.hw_addr_size())
            .field("proto_addr_size", &self.protocol_addr_size())
            .field("operation", &self.operation)
            .field("sender_hw_addr", &self.sender_hw_addr())
            .field("sender_protocol_addr", &self.sender_protocol_addr())
            .field("target_hw_addr", &self.target_hw_addr())
            .field("target_protocol_addr", &self.target_protocol_addr())
            .finish()
    }
}
