//! The order of the bytes of each number in a capture file.

use crate::ether_base::big_endian::u64_of;

/// The order of the bytes of each number in a capture file: that of the machine that wrote it.
///
/// ```
/// use etherpeel::ether_pcap::ByteOrder;
///
/// assert_eq!(ByteOrder::BigEndian.u16_of([0x02, 0x01]), 513);
/// assert_eq!(ByteOrder::LittleEndian.u16_of([0x02, 0x01]), 258);
/// assert_eq!(ByteOrder::LittleEndian.bytes_of_u16(258), [0x02, 0x01]);
/// ```
#[cfg_attr(feature = "serde", derive(serde::Serialize, serde::Deserialize))]
#[derive(Clone, Copy, PartialEq, Eq, Hash, Debug)]
pub enum ByteOrder {
    /// The most significant byte comes first.
    BigEndian,
    /// The least significant byte comes first.
    LittleEndian,
}

impl ByteOrder {
    /// The number that two bytes are in this order.
    ///
    /// <details><summary>Contract</summary>
    ///
    /// ```text
    /// ensures { result ≡ number_in (order_of self) bytes }
    /// ```
    ///
    /// Words: [`number_in`](crate::definitions::ether_pcap#def.number_in),
    /// [`order_of`](crate::definitions::ether_pcap#def.order_of). [Notation](crate::definitions::notation)
    ///
    /// </details>
    #[must_use]
    #[inline]
    pub fn u16_of(self, bytes: [u8; 2]) -> u16 {
        match self {
            ByteOrder::BigEndian => u16::from_be_bytes(bytes),
            ByteOrder::LittleEndian => u16::from_le_bytes(bytes),
        }
    }

    /// The number that four bytes are in this order.
    ///
    /// <details><summary>Contract</summary>
    ///
    /// ```text
    /// ensures { result ≡ number_in (order_of self) bytes }
    /// ```
    ///
    /// Words: [`number_in`](crate::definitions::ether_pcap#def.number_in),
    /// [`order_of`](crate::definitions::ether_pcap#def.order_of). [Notation](crate::definitions::notation)
    ///
    /// </details>
    #[must_use]
    #[inline]
    pub fn u32_of(self, bytes: [u8; 4]) -> u32 {
        match self {
            ByteOrder::BigEndian => u32::from_be_bytes(bytes),
            ByteOrder::LittleEndian => u32::from_le_bytes(bytes),
        }
    }

    /// The number that eight bytes are in this order.
    ///
    /// <details><summary>Contract</summary>
    ///
    /// ```text
    /// ensures { result ≡ number_in (order_of self) bytes }
    /// ```
    ///
    /// Words: [`number_in`](crate::definitions::ether_pcap#def.number_in),
    /// [`order_of`](crate::definitions::ether_pcap#def.order_of). [Notation](crate::definitions::notation)
    ///
    /// </details>
    #[must_use]
    #[inline]
    pub fn u64_of(self, bytes: [u8; 8]) -> u64 {
        match self {
            ByteOrder::BigEndian => u64_of(bytes),
            ByteOrder::LittleEndian => u64_from_low(bytes),
        }
    }

    /// The bytes of a number of 16 bits in this order.
    ///
    /// <details><summary>Contract</summary>
    ///
    /// ```text
    /// ensures { number_in (order_of self) result ≡ number }
    /// ```
    ///
    /// Words: [`number_in`](crate::definitions::ether_pcap#def.number_in),
    /// [`order_of`](crate::definitions::ether_pcap#def.order_of). [Notation](crate::definitions::notation)
    ///
    /// </details>
    #[must_use]
    #[inline]
    pub fn bytes_of_u16(self, number: u16) -> [u8; 2] {
        match self {
            ByteOrder::BigEndian => number.to_be_bytes(),
            ByteOrder::LittleEndian => number.to_le_bytes(),
        }
    }

    /// The bytes of a number of 32 bits in this order.
    ///
    /// <details><summary>Contract</summary>
    ///
    /// ```text
    /// ensures { number_in (order_of self) result ≡ number }
    /// ```
    ///
    /// Words: [`number_in`](crate::definitions::ether_pcap#def.number_in),
    /// [`order_of`](crate::definitions::ether_pcap#def.order_of). [Notation](crate::definitions::notation)
    ///
    /// </details>
    #[must_use]
    #[inline]
    pub fn bytes_of_u32(self, number: u32) -> [u8; 4] {
        match self {
            ByteOrder::BigEndian => number.to_be_bytes(),
            ByteOrder::LittleEndian => number.to_le_bytes(),
        }
    }

    /// The number in the two bytes from the offset `at` on.
    #[inline]
    pub(in crate::ether_pcap) fn u16_at(self, bytes: &[u8], at: usize) -> u16 {
        self.u16_of([bytes[at], bytes[at + 1]])
    }

    /// The number in the four bytes from the offset `at` on.
    #[inline]
    pub(in crate::ether_pcap) fn u32_at(self, bytes: &[u8], at: usize) -> u32 {
        self.u32_of([bytes[at], bytes[at + 1], bytes[at + 2], bytes[at + 3]])
    }
}

/// The number of eight bytes, the least significant one first.
#[inline]
fn u64_from_low(bytes: [u8; 8]) -> u64 {
    u64::from_le_bytes(bytes)
}
