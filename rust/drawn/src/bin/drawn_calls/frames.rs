//! Drawn headers and frames.
use crate::draw::Draw;
use arrayvec::ArrayVec;

/// The bytes of a drawn frame.
pub(crate) type Frame = ArrayVec<u8, 512>;

/// Adds a byte, if there is room.
pub(crate) fn add(frame: &mut Frame, byte: u8) {
    let _ = frame.try_push(byte);
}

/// Adds bytes, as far as there is room.
pub(crate) fn add_all(frame: &mut Frame, bytes: &[u8]) {
    for byte in bytes {
        add(frame, *byte);
    }
}

/// Adds some drawn bytes.
pub(crate) fn add_drawn(draw: &mut Draw, frame: &mut Frame, len: usize) {
    for _ in 0..len {
        add(frame, draw.byte());
    }
}

/// Adds a number of 16 bits.
pub(crate) fn add_u16(frame: &mut Frame, number: u16) {
    add_all(frame, &number.to_be_bytes());
}

/// Adds an ether type, and what it announces.
pub(crate) fn add_typed(draw: &mut Draw, frame: &mut Frame) {
    let ether_type = draw.ether_type();
    add_u16(frame, ether_type);
    add_announced(draw, frame, ether_type);
}

/// Adds what an ether type announces, and what that announces, at most six headers.
pub(crate) fn add_announced(draw: &mut Draw, frame: &mut Frame, ether_type: u16) {
    let mut announced = ether_type;
    for _ in 0..6u8 {
        match add_header(draw, frame, announced) {
            Some(next) => announced = next,
            None => return,
        }
    }
}

/// Adds what an ether type announces: a header, whose ether type is returned if it has one, or some bytes.
fn add_header(draw: &mut Draw, frame: &mut Frame, ether_type: u16) -> Option<u16> {
    match ether_type {
        0x8100 | 0x88A8 | 0x9100 => {
            add_u16(frame, draw.short());
            Some(add_type(draw, frame))
        }
        0x88E5 => add_sec_tag(draw, frame),
        0x0806 => {
            add_arp(draw, frame);
            None
        }
        _ => {
            let len = draw.below(40);
            add_drawn(draw, frame, len);
            None
        }
    }
}

fn add_type(draw: &mut Draw, frame: &mut Frame) -> u16 {
    let ether_type = draw.ether_type();
    add_u16(frame, ether_type);
    ether_type
}

/// Adds a SecTag, and returns its ether type; or its payload, if that is encrypted or modified.
fn add_sec_tag(draw: &mut Draw, frame: &mut Frame) -> Option<u16> {
    let version = if draw.one_in(20) { 0x80 } else { 0 };
    let control = draw.byte() & 0x73 | if draw.one_in(4) { 0x0C } else { 0 } | version;
    let short_len = match draw.below(4) {
        0 => draw.byte(),
        1 => draw.byte() % 64,
        _ => 0,
    };
    add_all(frame, &[control, short_len]);
    add_drawn(draw, frame, if control & 0x20 == 0 { 4 } else { 12 });
    if control & 0x0C == 0 {
        return Some(add_type(draw, frame));
    }
    let len = draw.below(50);
    add_drawn(draw, frame, len);
    None
}

/// Adds an ARP packet and some bytes.
pub(crate) fn add_arp(draw: &mut Draw, frame: &mut Frame) {
    let plain = draw.below(4) < 3;
    let (hardware, protocol) = if plain {
        (6, 4)
    } else {
        (draw.below(9), draw.below(9))
    };
    add_u16(frame, if plain { 1 } else { draw.small_u16() });
    add_u16(frame, if plain { 0x0800 } else { draw.short() });
    add_all(frame, &[hardware as u8, protocol as u8]);
    add_u16(frame, draw.small_u16());
    add_drawn(draw, frame, 2 * (hardware + protocol));
    if draw.flag() {
        add_drawn(draw, frame, 18);
    }
}

/// Adds a header of cooked capture v1, and its ether type.
pub(crate) fn add_sll(draw: &mut Draw, frame: &mut Frame) {
    add_all(frame, &[0, draw.byte() % 9]);
    add_u16(frame, draw.hardware_type());
    add_u16(frame, draw.short() % 10);
    add_drawn(draw, frame, 8);
    add_u16(frame, draw.ether_type());
}
