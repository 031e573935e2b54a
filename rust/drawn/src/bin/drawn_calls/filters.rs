//! Filters.
use crate::draw::Draw;
use crate::text::{Text, WithText};
use crate::walks::drawn_frame;
use arrayvec::ArrayVec;
use etherpeel::ether_filter::{Filter, Packet, PacketTime, filter_program, number_of};
use std::fmt;

/// The words of a drawn filter.
pub(crate) type Words = ArrayVec<u8, 512>;

static PRIMITIVES: [&[u8]; 41] = [
    b"vlan",
    b"vlan 5",
    b"outer vlan 0x10",
    b"inner vlan 4095",
    b"macsec",
    b"ether proto 0x8100",
    b"ether proto 2054",
    b"arp",
    b"ip",
    b"ip6",
    b"ether broadcast",
    b"ether multicast",
    b"refused",
    b"cut",
    b"less 60",
    b"greater 40",
    b"ether src 02:00:00:00:00:01",
    b"ether dst ffffffffffff",
    b"ether host 00:11:22:33:44:55",
    b"vlan 4096",
    b"vlan.vid",
    b"vlan.vid == 5",
    b"vlan.pcp >= 4",
    b"vlan.vid & 0xf00 != 0x100",
    b"vlan.type in {0x8100, 0x800, 2054}",
    b"eth.src[0:3] == 02:00:00",
    b"eth.dst < 80:00:00:00:00:00",
    b"arp.op == 1",
    b"arp.spa & 255.0.0.0 == 10.0.0.0",
    b"arp.tha != 00:00:00:00:00:00",
    b"macsec.sci[0:6] > 00:00:00:00:00:01",
    b"macsec.pn<=0x7fffffff",
    b"sll.addr_len == 6",
    b"vlan.vid == 4096",
    b"frame.original <= 60",
    b"frame.captured in {14, 18, 60}",
    b"frame.time",
    b"headers.header == vlan",
    b"headers.header in {sll, macsec}",
    b"frame.time >= \"2026-11-01T00:00:00Z\"",
    b"frame.time < 2024-02-29T12:00:00.5Z",
];

static WORDS: [&[u8]; 17] = [
    b"ether",
    b"vlan",
    b"and",
    b"or",
    b"not",
    b"(",
    b")",
    b"0x",
    b"007",
    b"4294967296",
    b"&&",
    b"0xFFFFFFFF",
    b"==",
    b"{",
    b"10.0.0.1",
    b"eth.src[4:3]",
    b"2023-02-29T00:00:00Z",
];

/// Calls what reads filters and decides by them.
pub(crate) fn calls(draw: &mut Draw, text: &mut Text) -> fmt::Result {
    let mut words = Words::new();
    add_filter(draw, &mut words);
    let word = word_of(draw);
    text.add(&(&number_of(word), &number_of(&word[1..])))?;
    match Filter::parse(words.as_slice()) {
        Ok(filter) => decided(draw, &filter, text),
        Err(error) => text.add(&(WithText(&error), WithText(&error.kind))),
    }
}

fn word_of(draw: &mut Draw) -> &'static [u8] {
    match WORDS.get(draw.below(17)) {
        Some(word) => word,
        None => b"12",
    }
}

/// Adds the words of a filter, of which one in eight has a wrong word.
pub(crate) fn add_filter(draw: &mut Draw, words: &mut Words) {
    let joined: &[u8] = if draw.flag() { b" and " } else { b" || " };
    let terms = 1 + draw.below(4);
    for term in 0..terms {
        if term > 0 {
            add(words, joined);
        }
        add_term(draw, words);
    }
    if draw.one_in(8) {
        add(words, b" ");
        add(words, word_of(draw));
    }
}

fn add_term(draw: &mut Draw, words: &mut Words) {
    let (is_negated, is_group) = (draw.one_in(4), draw.one_in(4));
    if is_negated {
        add(words, b"not ");
    }
    if is_group {
        add(words, b"(");
        add(words, primitive_of(draw));
        add(words, b" or !");
    }
    add(words, primitive_of(draw));
    if is_group {
        add(words, b")");
    }
}

fn primitive_of(draw: &mut Draw) -> &'static [u8] {
    match PRIMITIVES.get(draw.below(41)) {
        Some(words) => words,
        None => b"arp",
    }
}

fn add(words: &mut Words, more: &[u8]) {
    for byte in more {
        let _ = words.try_push(*byte);
    }
}

fn decided(draw: &mut Draw, filter: &Filter, text: &mut Text) -> fmt::Result {
    text.add(&filter)?;
    for instruction in filter.instructions() {
        text.add(&(&instruction, &instruction.node()))?;
    }
    for _ in 0..3u8 {
        let (start, frame) = drawn_frame(draw);
        let whole = frame.as_slice();
        let captured = if draw.flag() {
            whole
        } else {
            &whole[..draw.below(whole.len() + 1)]
        };
        let time = draw.flag().then_some(PacketTime {
            seconds: 1_793_491_200,
            nanoseconds: 0,
        });
        let packet = Packet {
            start,
            frame: captured,
            captured_len: captured.len(),
            original_len: (whole.len() + draw.below(3)) as u32,
            time,
        };
        text.add(&(&packet, &filter.matches(&packet), &filter.decide(&packet)))?;
        text.add(&filter_program::matches(filter.instructions(), &packet))?;
        text.add(&filter_program::decide(filter.instructions(), &packet))?;
    }
    Ok(())
}
