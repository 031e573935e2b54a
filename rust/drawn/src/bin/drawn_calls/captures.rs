//! Drawn captures: classic pcap, and pcapng.
use crate::draw::Draw;
use crate::walks::drawn_frame;
use arrayvec::ArrayVec;
use etherpeel::ether_pcap::ByteOrder;

/// The bytes of a drawn capture.
pub(crate) type Bytes = ArrayVec<u8, 2048>;

/// Link types, of which three are known.
static LINKS: [u16; 6] = [1, 1, 1, 113, 276, 228];

/// A capture in a byte order. One in six has a byte that is changed, and one in six is cut.
pub(crate) fn drawn_capture(draw: &mut Draw) -> Bytes {
    let mut bytes = Bytes::new();
    let order = if draw.flag() {
        ByteOrder::BigEndian
    } else {
        ByteOrder::LittleEndian
    };
    if draw.one_in(3) {
        add_classic(draw, order, &mut bytes);
    } else {
        add_pcapng(draw, order, &mut bytes);
    }
    if draw.one_in(6) {
        let index = draw.below(bytes.len());
        if let Some(byte) = bytes.as_mut_slice().get_mut(index) {
            *byte = draw.byte();
        }
    }
    if draw.one_in(6) {
        bytes.truncate(draw.below(bytes.len() + 1));
    }
    bytes
}

/// Adds bytes, as far as there is room.
pub(crate) fn add(bytes: &mut Bytes, more: &[u8]) {
    for byte in more {
        let _ = bytes.try_push(*byte);
    }
}

fn add_u16(order: ByteOrder, bytes: &mut Bytes, number: u16) {
    match order {
        ByteOrder::BigEndian => add(bytes, &number.to_be_bytes()),
        ByteOrder::LittleEndian => add(bytes, &number.to_le_bytes()),
    }
}

fn add_u32(order: ByteOrder, bytes: &mut Bytes, number: u32) {
    match order {
        ByteOrder::BigEndian => add(bytes, &number.to_be_bytes()),
        ByteOrder::LittleEndian => add(bytes, &number.to_le_bytes()),
    }
}

fn link_type(draw: &mut Draw) -> u16 {
    match LINKS.get(draw.below(6)) {
        Some(number) => *number,
        None => 1,
    }
}

fn snap_len(draw: &mut Draw) -> u32 {
    match draw.below(4) {
        0 => draw.word(),
        1 => 64,
        _ => 262_144,
    }
}

/// Adds a classic capture of some packets.
pub(crate) fn add_classic(draw: &mut Draw, order: ByteOrder, bytes: &mut Bytes) {
    add_u32(
        order,
        bytes,
        if draw.flag() {
            0xA1B2_C3D4
        } else {
            0xA1B2_3C4D
        },
    );
    add_u16(order, bytes, if draw.one_in(12) { 3 } else { 2 });
    add_u16(order, bytes, 4);
    add(bytes, &[0; 8]);
    add_u32(order, bytes, snap_len(draw));
    let fcs = if draw.one_in(3) {
        (draw.word() % 16) << 28 | 1 << 26
    } else {
        0
    };
    add_u32(order, bytes, fcs | u32::from(link_type(draw)));
    let count = draw.below(4);
    for _ in 0..count {
        add_record(draw, order, bytes);
    }
}

/// Adds a record of a classic capture.
pub(crate) fn add_record(draw: &mut Draw, order: ByteOrder, bytes: &mut Bytes) {
    let (_, frame) = drawn_frame(draw);
    add_u32(order, bytes, draw.word());
    add_u32(
        order,
        bytes,
        if draw.one_in(4) {
            draw.word()
        } else {
            draw.word() % 1_000_000_000
        },
    );
    add_u32(order, bytes, frame.len() as u32);
    let cut = if draw.flag() { draw.word() % 80 } else { 0 };
    add_u32(order, bytes, frame.len() as u32 + cut);
    add(bytes, frame.as_slice());
}

/// Adds a section of a pcapng capture.
pub(crate) fn add_pcapng(draw: &mut Draw, order: ByteOrder, bytes: &mut Bytes) {
    let mut section = Bytes::new();
    add_u32(order, &mut section, 0x1A2B_3C4D);
    add_u16(order, &mut section, 1);
    add_u16(order, &mut section, if draw.one_in(8) { 2 } else { 0 });
    add(
        &mut section,
        if draw.one_in(8) { &[0; 8] } else { &[0xFF; 8] },
    );
    add_block(order, bytes, 0x0A0D_0D0A, section.as_slice());
    let interfaces = 1 + draw.below(2);
    for _ in 0..interfaces {
        add_interface(draw, order, bytes);
    }
    let count = draw.below(4);
    for _ in 0..count {
        add_packet(draw, order, bytes);
    }
}

/// Adds a block of pcapng.
fn add_block(order: ByteOrder, bytes: &mut Bytes, block_type: u32, body: &[u8]) {
    let padding = (4 - body.len() % 4) % 4;
    let len = (body.len() + padding) as u32 + 12;
    add_u32(order, bytes, block_type);
    add_u32(order, bytes, len);
    add(bytes, body);
    add(bytes, &[0, 0, 0][..padding]);
    add_u32(order, bytes, len);
}

/// Adds an option of pcapng, with its padding.
fn add_option(order: ByteOrder, bytes: &mut Bytes, code: u16, value: &[u8]) {
    add_u16(order, bytes, code);
    add_u16(order, bytes, value.len() as u16);
    add(bytes, value);
    add(bytes, &[0, 0, 0][..(4 - value.len() % 4) % 4]);
}

fn add_interface(draw: &mut Draw, order: ByteOrder, bytes: &mut Bytes) {
    let mut body = Bytes::new();
    add_u16(order, &mut body, link_type(draw));
    add_u16(order, &mut body, 0);
    add_u32(order, &mut body, snap_len(draw));
    if draw.flag() {
        add_option(order, &mut body, 2, b"eth0");
    }
    if draw.flag() {
        add_option(
            order,
            &mut body,
            9,
            &[if draw.one_in(3) { draw.byte() } else { 9 }],
        );
    }
    if draw.one_in(3) {
        add_option(order, &mut body, 13, &[draw.byte() % 6]);
    }
    if draw.one_in(3) {
        let mut offset = [0u8; 8];
        draw.fill(&mut offset[..4]);
        add_option(order, &mut body, 14, &offset);
    }
    if draw.flag() {
        add_option(order, &mut body, 0, b"");
    }
    add_block(order, bytes, 1, body.as_slice());
}

/// Adds an enhanced packet, a simple one, an obsolete one or another block.
fn add_packet(draw: &mut Draw, order: ByteOrder, bytes: &mut Bytes) {
    let (_, frame) = drawn_frame(draw);
    let mut body = Bytes::new();
    let original_len = frame.len() as u32 + if draw.flag() { draw.word() % 80 } else { 0 };
    match draw.below(6) {
        0 => {
            add_u32(order, &mut body, original_len);
            add(&mut body, frame.as_slice());
            add_block(order, bytes, 3, body.as_slice())
        }
        1 => {
            add_u16(order, &mut body, draw.short() % 3);
            add_u16(order, &mut body, draw.short());
            add_timed(draw, order, &mut body, original_len, frame.as_slice());
            add_block(order, bytes, 2, body.as_slice())
        }
        2 => add_block(order, bytes, draw.word() % 12, frame.as_slice()),
        _ => {
            add_u32(order, &mut body, draw.word() % 3);
            add_timed(draw, order, &mut body, original_len, frame.as_slice());
            add_block(order, bytes, 6, body.as_slice())
        }
    }
}

/// Adds the time, the lengths, the bytes and perhaps the flags of a packet.
fn add_timed(draw: &mut Draw, order: ByteOrder, body: &mut Bytes, original_len: u32, frame: &[u8]) {
    add_u32(
        order,
        body,
        if draw.flag() {
            0x0006_0000
        } else {
            draw.word()
        },
    );
    add_u32(order, body, draw.word());
    add_u32(order, body, frame.len() as u32);
    add_u32(order, body, original_len);
    add(body, frame);
    add(body, &[0, 0, 0][..(4 - frame.len() % 4) % 4]);
    if draw.one_in(3) {
        let mut flags = [0u8; 4];
        draw.fill(&mut flags);
        add_option(order, body, 2, &flags);
    }
}
