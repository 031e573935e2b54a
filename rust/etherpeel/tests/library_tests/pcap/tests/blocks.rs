//! The blocks of pcapng files: whole, cut, and with other lengths.
use super::pcapng_captures::{BIG, LITTLE};
use super::{equal, put};
use etherpeel::ether_pcap::{
    BlockError, BodyError, ByteOrder, EnhancedPacket, InterfaceDescription, LinkType, PcapngBlock,
    SectionError, SectionHeader, SimplePacket,
};
use crate::kit::Fail;

/// Both files, with their byte orders.
const FILES: [(&str, ByteOrder, &[u8; 188]); 2] = [
    ("most significant byte first", ByteOrder::BigEndian, &BIG),
    (
        "least significant byte first",
        ByteOrder::LittleEndian,
        &LITTLE,
    ),
];

/// The offset at which each block of both files begins, its type, and the offset at which it ends.
const BLOCKS: [(usize, u32, usize); 5] = [
    (0, 0x0A0D_0D0A, 28),
    (28, 1, 68),
    (68, 0x0ABC, 84),
    (84, 6, 132),
    (132, 3, 188),
];

/// Each block is cut at each of its bytes.
#[test]
fn a_cut_block_names_the_missing_bytes() {
    let rt = crate::kit::HostRuntime;
    for (name, order, file) in FILES {
        for (start, block_type, end) in BLOCKS {
            for to in start..=end {
                let len = to - start;
                let required_len = if len < 12 { 12 } else { end - start };
                let wanted = if to < end {
                    Err(BlockError::Len { required_len, len })
                } else {
                    Ok((block_type, len))
                };
                let found = file.get(start..to).map(|bytes| {
                    PcapngBlock::from_slice(order, bytes).map(|block| (
                        block.block_type,
                        block.block_len(),
                    ))
                });
                equal!(rt, name; found => Some(wanted));
            }
        }
    }
}

#[test]
fn bodies_have_the_fields_of_their_bytes() -> Result<(), Fail> {
    let rt = crate::kit::HostRuntime;
    for (name, order, file) in FILES {
        let interface = InterfaceDescription::from_body(order, &file[36..64])?;
        equal!(rt, name;
            interface.link_type => LinkType::ETHERNET,
            interface.snap_len => 39,
            interface.options => &file[44..64],
        );
        let packet = EnhancedPacket::from_body(order, &file[92..128])?;
        equal!(rt, name;
            packet.interface => 0,
            packet.time => 1_700_000_000_123_456_789,
            packet.original_len => 60,
            packet.packet => &file[112..128],
        );
        let simple = SimplePacket::from_body(order, interface.snap_len, &file[140..184])?;
        equal!(rt, name;
            simple.original_len => 42,
            simple.packet => &file[144..183],
        );
    }
    Ok(())
}

#[test]
fn a_cut_simple_packet_names_the_missing_bytes() {
    let rt = crate::kit::HostRuntime;
    for len in 0..43 {
        let found = SimplePacket::from_body(ByteOrder::BigEndian, 39, &BIG[140..140 + len]);
        let required_len = if len < 4 { 4 } else { 43 };
        equal!(rt, "a simple packet"; found => Err(BodyError::Len { required_len, len }));
    }
}

#[test]
fn a_cut_enhanced_packet_names_the_missing_bytes() {
    let rt = crate::kit::HostRuntime;
    for len in 0..36 {
        let found = EnhancedPacket::from_body(ByteOrder::BigEndian, &BIG[92..92 + len]);
        let required_len = if len < 20 { 20 } else { 36 };
        equal!(rt, "an enhanced packet"; found => Err(BodyError::Len { required_len, len }));
    }
}

#[test]
fn a_cut_interface_names_the_missing_bytes() {
    let rt = crate::kit::HostRuntime;
    for len in 0..8 {
        let found = InterfaceDescription::from_body(ByteOrder::BigEndian, &BIG[36..36 + len]);
        equal!(rt, "an interface"; found => Err(BodyError::Len { required_len: 8, len }));
    }
}

#[test]
fn a_body_with_too_many_captured_bytes_is_refused() {
    let rt = crate::kit::HostRuntime;
    let mut file = BIG;
    file[105] = 0x04;
    let order = ByteOrder::BigEndian;
    equal!(rt, "too many bytes, and one byte too many";
        EnhancedPacket::from_body(order, &file[92..128]) => Err(BodyError::CapturedLen(262_160)),
        SimplePacket::from_body(order, 0, &[0x00, 0x04, 0x00, 0x01])
            => Err(BodyError::CapturedLen(262_145)),
    );
}

/// Snap lengths that do not cut a simple packet.
static SNAP_LENS: [(&str, u32); 4] = [
    ("none", 0),
    ("just its length", 3),
    ("a byte more", 4),
    ("a great one", 262_144),
];

#[test]
fn a_snap_length_that_cuts_nothing_leaves_the_packet_whole() -> Result<(), Fail> {
    let rt = crate::kit::HostRuntime;
    for &(name, snap_len) in &SNAP_LENS {
        let bytes = [0, 0, 0, 3, 1, 2, 3, 0];
        let found = SimplePacket::from_body(ByteOrder::BigEndian, snap_len, &bytes)?;
        equal!(rt, name; found.packet => [1, 2, 3].as_slice());
    }
    Ok(())
}

/// The length of a block, and why twelve bytes of it are refused.
static TOTAL_LENS: [(&str, u32, BlockError); 10] = [
    ("nothing", 0, BlockError::TotalLen(0)),
    ("four bytes", 4, BlockError::TotalLen(4)),
    ("eleven bytes", 11, BlockError::TotalLen(11)),
    ("13 bytes", 13, BlockError::TotalLen(13)),
    ("14 bytes", 14, BlockError::TotalLen(14)),
    ("15 bytes", 15, BlockError::TotalLen(15)),
    (
        "the greatest",
        16_777_216,
        BlockError::Len {
            required_len: 16_777_216,
            len: 12,
        },
    ),
    ("one more", 16_777_217, BlockError::TotalLen(16_777_217)),
    ("four more", 16_777_220, BlockError::TotalLen(16_777_220)),
    ("all bits", u32::MAX, BlockError::TotalLen(u32::MAX)),
];

#[test]
fn a_length_that_no_block_has_is_refused() {
    let rt = crate::kit::HostRuntime;
    for (name, total_len, error) in &TOTAL_LENS {
        let [a, b, c, d] = total_len.to_be_bytes();
        let bytes = [0, 0, 0, 1, a, b, c, d, 0, 0, 0, 0];
        let found = PcapngBlock::from_slice(ByteOrder::BigEndian, &bytes).err();
        equal!(rt, name; found.as_ref() => Some(error));
    }
}

#[test]
fn a_block_with_another_length_at_its_end_is_refused() {
    let rt = crate::kit::HostRuntime;
    let mut file = BIG;
    file[67] = 44;
    let error = BlockError::Trailer {
        total_len: 40,
        trailer: 44,
    };
    equal!(rt, "44 in the place of 40";
        PcapngBlock::from_slice(ByteOrder::BigEndian, &file[28..]) => Err(error),
    );
}

#[test]
fn a_section_header_decides_the_byte_order() {
    let rt = crate::kit::HostRuntime;
    for (name, order, file) in FILES {
        for len in 0..29 {
            let wanted = if len < 12 {
                Err(SectionError::Len {
                    required_len: 12,
                    len,
                })
            } else if len < 28 {
                Err(SectionError::Block(BlockError::Len {
                    required_len: 28,
                    len,
                }))
            } else {
                Ok((order, 28))
            };
            let found = SectionHeader::from_slice(&file[..len]).map(|section| (
                section.byte_order,
                section.block.block_len(),
            ));
            equal!(rt, name; found => wanted);
        }
    }
}

/// The bytes of a section header that are changed, with the offset of the first, and why the header is refused.
static REFUSED: [(&str, usize, &[u8], SectionError); 8] = [
    (
        "another type",
        0,
        &[0x0B],
        SectionError::BlockType(0x0B0D_0D0A),
    ),
    (
        "a classic file",
        0,
        &[0xA1, 0xB2, 0xC3, 0xD4],
        SectionError::BlockType(0xA1B2_C3D4),
    ),
    (
        "another magic",
        11,
        &[0x4E],
        SectionError::Magic(0x1A2B_3C4E),
    ),
    (
        "a length of 29",
        7,
        &[0x1D],
        SectionError::Block(BlockError::TotalLen(29)),
    ),
    (
        "version 2.0",
        13,
        &[2],
        SectionError::Version { major: 2, minor: 0 },
    ),
    (
        "version 1.1",
        15,
        &[1],
        SectionError::Version { major: 1, minor: 1 },
    ),
    (
        "version 1.3",
        15,
        &[3],
        SectionError::Version { major: 1, minor: 3 },
    ),
    (
        "without its fields",
        4,
        &[0, 0, 0, 0x10, 0x1A, 0x2B, 0x3C, 0x4D, 0, 0, 0, 0x10],
        SectionError::Body {
            required_len: 16,
            len: 4,
        },
    ),
];

#[test]
fn a_refused_section_header_names_the_cause() {
    let rt = crate::kit::HostRuntime;
    for (name, place, bytes, error) in &REFUSED {
        let mut file = BIG;
        put(&mut file, *place, bytes);
        let found = SectionHeader::from_slice(&file).err();
        equal!(rt, name; found.as_ref() => Some(error));
    }
}
