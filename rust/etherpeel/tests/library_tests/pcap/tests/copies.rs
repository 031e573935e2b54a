//! The units of a copy, where the caller keeps the state of the reader.
use super::captures::BIG_MICROSECONDS;
use super::equal;
use super::pcapng_captures::{BIG, LITTLE};
use etherpeel::ether_pcap::{
    ByteOrder, CaptureInterface, CopiedUnit, CopyMode, EditedUnit, FileHeader, InterfaceSlice,
    LinkType, ReaderState, UnitContent,
};
use crate::kit::Fail;

const SECTION: ReaderState = ReaderState::Section(ByteOrder::BigEndian);

const RAISED: CopyMode = CopyMode::Changed { raise: 4 };

/// A custom block that may be copied, and one that must not.
const COPIED: &[u8] = &[
    0x00, 0x00, 0x0B, 0xAD, 0x00, 0x00, 0x00, 0x10, 0x00, 0x00, 0x7E, 0xD9, 0x00, 0x00, 0x00, 0x10,
];

const UNCOPIED: &[u8] = &[
    0x40, 0x00, 0x0B, 0xAD, 0x00, 0x00, 0x00, 0x10, 0x00, 0x00, 0x7E, 0xD9, 0x00, 0x00, 0x00, 0x10,
];

#[test]
fn a_state_edits_the_packets_of_a_section() {
    let rt = crate::kit::HostRuntime;
    let packet: &[u8] = &[0xAA, 0xBB];
    let wanted = EditedUnit::Block {
        header: [
            0x00, 0x00, 0x00, 0x06, 0x00, 0x00, 0x00, 0x24, 0x00, 0x00, 0x00, 0x00, //
            0x17, 0x97, 0x9C, 0xFE, 0x3D, 0x85, 0xCD, 0x15, // time
            0x00, 0x00, 0x00, 0x02, 0x00, 0x00, 0x00, 0x3D, // captured and original length
        ],
        packet,
        padding_len: 2,
        options: &[],
        trailer: [0x00, 0x00, 0x00, 0x24],
    };
    equal!(rt, "packets of a section";
        SECTION.edit_unit(&BIG[84..132], packet, 61) => Some(wanted),
        SECTION.edit_unit(&BIG[84..132], packet, 0x1_0000_0000) => None,
        SECTION.edit_unit(&BIG[132..], packet, 61) => None,
    );
}

#[test]
fn a_state_edits_the_packets_of_a_classic_file() -> Result<(), Fail> {
    let rt = crate::kit::HostRuntime;
    let state = ReaderState::Classic(FileHeader::from_slice(&BIG_MICROSECONDS)?);
    let packet: &[u8] = &[];
    let header = [
        0x65, 0x53, 0xF1, 0x00, 0x00, 0x01, 0xE2, 0x40, // time
        0x00, 0x00, 0x00, 0x00, 0x00, 0x00, 0x00, 0x05, // captured and original length
    ];
    equal!(rt, "a record without bytes";
        state.edit_unit(&BIG_MICROSECONDS[24..82], packet, 5)
            => Some(EditedUnit::Record { header, packet }),
    );
    Ok(())
}

/// Units of a big-endian section, and what a copy has for each. The snap length of the interface, 39, is raised by 4.
#[rustfmt::skip]
static UNITS: [(&str, &[u8], CopiedUnit<'static>); 4] = [
    ("a section header", SECTION_HEADER, CopiedUnit::SectionLen {
        front: &[0x0A, 0x0D, 0x0D, 0x0A, 0, 0, 0, 0x1C, 0x1A, 0x2B, 0x3C, 0x4D, 0, 1, 0, 0],
        rest: &[0, 0, 0, 0x1C],
    }),
    ("an interface description", INTERFACE, CopiedUnit::SnapLen {
        front: &[0, 0, 0, 1, 0, 0, 0, 0x14, 0, 1, 0, 0],
        snap_len: [0, 0, 0, 43],
        rest: &[0, 0, 0, 0x14],
    }),
    ("a custom block", COPIED, CopiedUnit::Same(COPIED)),
    ("one that is not to be copied", UNCOPIED, CopiedUnit::LeftOut),
];

const SECTION_HEADER: &[u8] = &[
    0x0A, 0x0D, 0x0D, 0x0A, 0x00, 0x00, 0x00, 0x1C, 0x1A, 0x2B, 0x3C, 0x4D, 0x00, 0x01, 0x00, 0x00, //
    0x00, 0x00, 0x00, 0x00, 0x00, 0x00, 0x01, 0x00, 0x00, 0x00, 0x00, 0x1C, //
];

const INTERFACE: &[u8] = &[
    0x00, 0x00, 0x00, 0x01, 0x00, 0x00, 0x00, 0x14, 0x00, 0x01, 0x00, 0x00, 0x00, 0x00, 0x00, 0x27, //
    0x00, 0x00, 0x00, 0x14, //
];

#[test]
fn a_changed_copy_says_what_is_true_of_it() {
    let rt = crate::kit::HostRuntime;
    for &(name, unit, wanted) in &UNITS {
        equal!(rt, name;
            SECTION.copy_unit(RAISED, unit) => wanted,
            SECTION.copy_unit(CopyMode::Exact, unit) => CopiedUnit::Same(unit),
        );
    }
}

/// A snap length, by how much it is raised, and the snap length of the copy.
#[rustfmt::skip]
static SNAP_LENS: [(&str, u32, u32, u32); 6] = [
    ("no edit makes packets longer", 96, 0, 96),
    ("four bytes", 96, 4, 100),
    ("no limit", 0, 4, 0),
    ("at most as many bytes as a packet has", 262_142, 4, 262_144),
    ("a greater one", 262_145, 4, 262_145),
    ("the greatest one", 0xFFFF_FFFF, 0xFFFF_FFFF, 0xFFFF_FFFF),
];

#[test]
fn a_raised_snap_length_is_still_a_bound() -> Result<(), Fail> {
    let rt = crate::kit::HostRuntime;
    for &(name, snap_len, raise, wanted) in &SNAP_LENS {
        let header = FileHeader {
            snap_len,
            ..FileHeader::from_slice(&BIG_MICROSECONDS)?
        };
        let unit = header.to_bytes();
        let copied = ReaderState::Classic(header).copy_unit(CopyMode::Changed { raise }, &unit);
        let found = match copied {
            CopiedUnit::SnapLen { snap_len, .. } => u32::from_be_bytes(snap_len),
            _ => 1,
        };
        equal!(rt, name; found => wanted);
    }
    Ok(())
}

/// Tests that a copy can have the unit of a packet, on an interface with the snap length of the files.
fn copies_packet_of(mode: CopyMode, order: ByteOrder, unit: &[u8]) -> Option<bool> {
    let interface = CaptureInterface {
        link_type: LinkType::ETHERNET,
        snap_len: 39,
        ..CaptureInterface::default()
    };
    let state = ReaderState::Section(order);
    match state.read(&InterfaceSlice(&[interface]), unit) {
        Ok(read) => match read.content {
            UnitContent::Packet(packet) => Some(state.copies_packet(mode, unit, &packet)),
            _ => None,
        },
        Err(_) => None,
    }
}

#[test]
fn a_cut_simple_packet_is_copied_where_its_snap_length_is_unchanged() {
    let rt = crate::kit::HostRuntime;
    for (name, order, unit) in [
        ("big-endian", ByteOrder::BigEndian, &BIG[132..]),
        ("little-endian", ByteOrder::LittleEndian, &LITTLE[132..]),
    ] {
        equal!(rt, name;
            copies_packet_of(CopyMode::Exact, order, unit) => Some(true),
            copies_packet_of(CopyMode::Changed { raise: 0 }, order, unit) => Some(true),
            copies_packet_of(CopyMode::Changed { raise: 1 }, order, unit) => Some(false),
        );
    }
}

#[test]
fn a_packet_with_a_captured_length_is_copied() {
    let rt = crate::kit::HostRuntime;
    let unit = &BIG[84..132];
    equal!(rt, "an enhanced packet";
        copies_packet_of(RAISED, ByteOrder::BigEndian, unit) => Some(true),
    );
}
