//! What is called with an input.
use crate::draw::Draw;
use crate::text::Text;
use crate::{
    arp, contents, ethernet2, filters, lines, macsec, numbers, packets, pcap, same, sll, sll2,
    switches, vlan, walks,
};
use std::fmt;

/// How many kinds of inputs there are.
pub(crate) const KINDS: u64 = 16;

/// Draws the input that has a number, and calls the functions that its kind is for.
pub(crate) fn calls(number: u64, text: &mut Text) -> fmt::Result {
    let mut draw = Draw::new(number);
    match number % KINDS {
        0 => numbers::calls(&mut draw, text),
        1 => ethernet2::calls(&mut draw, text),
        2 => vlan::calls(&mut draw, text),
        3 => macsec::calls(&mut draw, text),
        4 => sll::calls(&mut draw, text),
        5 => sll2::calls(&mut draw, text),
        6 => arp::calls(&mut draw, text),
        7 => pcap::calls(&mut draw, text),
        8 => filters::calls(&mut draw, text),
        9 => switches::calls(&mut draw, text),
        10 => lines::calls(&mut draw, text),
        11 => contents::calls(&mut draw, text),
        12 | 13 => packets::calls(&mut draw, text),
        14 => same::calls(&mut draw, text),
        _ => walks::calls(&mut draw, text),
    }
}
