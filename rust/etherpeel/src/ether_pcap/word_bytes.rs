//! Numbers of a pcapng file as bytes, one after the other.

use crate::ether_pcap::ByteOrder;

/// The bytes of a number of 32 bits.
#[inline]
pub(in crate::ether_pcap) fn word(order: ByteOrder, number: u32) -> [u8; 4] {
    order.bytes_of_u32(number)
}

/// Rounds a number of bytes up to a multiple of 4.
#[inline]
pub(in crate::ether_pcap) fn padded_len(len: usize) -> usize {
    len.div_ceil(4) * 4
}

/// The four bytes of a length, modulo 2^32.
#[inline]
pub(in crate::ether_pcap) fn len_word(order: ByteOrder, len: usize) -> [u8; 4] {
    word(order, (len as u64 % 0x1_0000_0000) as u32)
}

/// The bytes of a number of 16 bits.
#[inline]
fn half_word(order: ByteOrder, number: u16) -> [u8; 2] {
    order.bytes_of_u16(number)
}

/// The bytes of two numbers of 16 bits.
#[inline]
pub(in crate::ether_pcap) fn half_words(order: ByteOrder, first: u16, second: u16) -> [u8; 4] {
    let [a, b] = half_word(order, first);
    let [c, d] = half_word(order, second);
    [a, b, c, d]
}

/// Joins four words.
#[inline]
pub(in crate::ether_pcap) fn four_words(a: [u8; 4], b: [u8; 4], c: [u8; 4], d: [u8; 4]) -> [u8; 16] {
    let [a0, a1, a2, a3] = a;
    let [b0, b1, b2, b3] = b;
    let [c0, c1, c2, c3] = c;
    let [d0, d1, d2, d3] = d;
    [
        a0, a1, a2, a3, b0, b1, b2, b3, c0, c1, c2, c3, d0, d1, d2, d3,
    ]
}

/// Joins three words.
#[inline]
pub(in crate::ether_pcap) fn three_words(a: [u8; 4], b: [u8; 4], c: [u8; 4]) -> [u8; 12] {
    let [a0, a1, a2, a3] = a;
    let [b0, b1, b2, b3] = b;
    let [c0, c1, c2, c3] = c;
    [a0, a1, a2, a3, b0, b1, b2, b3, c0, c1, c2, c3]
}

/// Appends three words to four.
#[inline]
pub(in crate::ether_pcap) fn seven_words(front: [u8; 16], e: [u8; 4], f: [u8; 4], g: [u8; 4]) -> [u8; 28] {
    let [
        a0,
        a1,
        a2,
        a3,
        b0,
        b1,
        b2,
        b3,
        c0,
        c1,
        c2,
        c3,
        d0,
        d1,
        d2,
        d3,
    ] = front;
    let [e0, e1, e2, e3] = e;
    let [f0, f1, f2, f3] = f;
    let [g0, g1, g2, g3] = g;
    [
        a0, a1, a2, a3, b0, b1, b2, b3, c0, c1, c2, c3, d0, d1, d2, d3, e0, e1, e2, e3, f0, f1, f2,
        f3, g0, g1, g2, g3,
    ]
}
