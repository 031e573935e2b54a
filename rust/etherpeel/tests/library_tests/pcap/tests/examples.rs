//! The examples of the documentation.
use super::equal;
use arrayvec::ArrayVec;
use etherpeel::ether_pcap::{
    ByteOrder, CaptureError, CaptureInterface, CaptureReader, CaptureUnit, CapturedPacket,
    CopiedUnit, CopyMode, EditedUnit, EnhancedPacket, FileHeader, InterfaceDescription, LinkType,
    PcapRecord, PcapRecords, PcapngBlock, RecordError, SectionHeader, SimplePacket, Timestamp,
    TimestampResolution,
};
use crate::kit::Fail;

#[test]
fn byte_orders_times_and_resolutions_are_those_of_the_example() {
    let rt = crate::kit::HostRuntime;
    let (big, little) = (ByteOrder::BigEndian, ByteOrder::LittleEndian);
    equal!(rt, "byte orders";
        big.u16_of([0x02, 0x01]) => 513,
        little.u16_of([0x02, 0x01]) => 258,
        big.u32_of([0x04, 0x03, 0x02, 0x01]) => 0x0403_0201,
        little.u32_of([0x04, 0x03, 0x02, 0x01]) => 0x0102_0304,
        little.bytes_of_u16(258) => [0x02, 0x01],
    );
    let early = Timestamp {
        seconds: 1_700_000_000,
        nanoseconds: 5_000,
    };
    let error = CaptureError::Record(RecordError::Len {
        required_len: 76,
        len: 20,
    });
    equal!(rt, "units, times and errors";
        TimestampResolution::of_magic(0xA1B2_3C4D) => Some(TimestampResolution::Nanoseconds),
        early.nanoseconds => 5_000,
        error.required_len() => Some(76),
    );
}

/// A file with one record of one byte.
const FILE: [u8; 41] = [
    0xA1, 0xB2, 0xC3, 0xD4, 0x00, 0x02, 0x00, 0x04, 0x00, 0x00, 0x00, 0x00, // file header
    0x00, 0x00, 0x00, 0x00, 0x00, 0x00, 0xFF, 0xFF, 0x00, 0x00, 0x00, 0x01, //
    0x00, 0x00, 0x00, 0x01, 0x00, 0x00, 0x00, 0x02, 0x00, 0x00, 0x00, 0x01, 0x00, 0x00, 0x00, 0x01, // record
    0xFF,
];

#[test]
fn a_classic_file_is_read_and_its_headers_written() -> Result<(), Fail> {
    let rt = crate::kit::HostRuntime;
    let bytes = [
        0xD4, 0xC3, 0xB2, 0xA1, 0x02, 0x00, 0x04, 0x00, 0x00, 0x00, 0x00, 0x00, //
        0x00, 0x00, 0x00, 0x00, 0xFF, 0xFF, 0x00, 0x00, 0x01, 0x00, 0x00, 0x24,
    ];
    let header = FileHeader {
        byte_order: ByteOrder::LittleEndian,
        resolution: TimestampResolution::Microseconds,
        snap_len: 65535,
        link_type: LinkType::ETHERNET,
        fcs_len: Some(4),
    };
    equal!(rt, "a file header";
        FileHeader::from_slice(&bytes) => Ok(header),
        header.to_bytes() => bytes,
    );
    let file = FileHeader {
        byte_order: ByteOrder::BigEndian,
        resolution: TimestampResolution::Microseconds,
        snap_len: 2,
        link_type: LinkType::ETHERNET,
        fcs_len: None,
    };
    let bytes = [
        0x65, 0x53, 0xF1, 0x00, 0x00, 0x00, 0x00, 0x05, 0x00, 0x00, 0x00, 0x02, 0x00, 0x00, 0x00,
        0x3C, // header
        0xFF, 0xFF, // packet
    ];
    let record = PcapRecord::from_slice(&file, &bytes)?;
    let nanoseconds = record.nanoseconds(file.resolution);
    equal!(rt, "a record";
        nanoseconds => 1_700_000_000_000_005_000,
        record.original_len => 60,
        record.packet => [0xFF, 0xFF].as_slice(),
    );
    let wanted = [
        0x65, 0x53, 0xF1, 0x00, 0x00, 0x00, 0x00, 0x05, 0x00, 0x00, 0x00, 0x02, 0x00, 0x00, 0x00,
        0x3C,
    ];
    equal!(rt, "a written header of a record";
        record.header_to_bytes(ByteOrder::BigEndian) => wanted,
    );
    let mut records = PcapRecords::from_slice(&FILE)?;
    let link_type = records.header().link_type;
    let packet = match records.next() {
        Some(Ok(record)) => record.packet,
        _ => &[],
    };
    let is_over = records.next().is_none();
    equal!(rt, "the records of a file";
        link_type => LinkType::ETHERNET,
        packet => [0xFF].as_slice(),
        is_over => true,
        records.offset() => 41,
    );
    Ok(())
}

/// A big-endian section header.
const SECTION: [u8; 28] = [
    0x0A, 0x0D, 0x0D, 0x0A, 0x00, 0x00, 0x00, 0x1C, 0x1A, 0x2B, 0x3C, 0x4D, 0x00, 0x01, 0x00, 0x00,
    0xFF, 0xFF, 0xFF, 0xFF, 0xFF, 0xFF, 0xFF, 0xFF, 0x00, 0x00, 0x00, 0x1C,
];

#[test]
fn a_section_header_and_a_block_are_read() -> Result<(), Fail> {
    let rt = crate::kit::HostRuntime;
    let section = [
        0x0A, 0x0D, 0x0D, 0x0A, 0x1C, 0x00, 0x00, 0x00, 0x4D, 0x3C, 0x2B, 0x1A, 0x01, 0x00, 0x00,
        0x00, //
        0xFF, 0xFF, 0xFF, 0xFF, 0xFF, 0xFF, 0xFF, 0xFF, 0x1C, 0x00, 0x00, 0x00, //
    ];
    let section = SectionHeader::from_slice(&section)?;
    let bytes = [
        0x00, 0x00, 0x00, 0x03, 0x00, 0x00, 0x00, 0x10, 0x00, 0x00, 0x00, 0x00, 0x00, 0x00, 0x00,
        0x10, //
    ];
    let block = PcapngBlock::from_slice(ByteOrder::BigEndian, &bytes)?;
    equal!(rt, "a section header and a block";
        section.byte_order => ByteOrder::LittleEndian,
        section.block.block_len() => 28,
        block.block_type => PcapngBlock::SIMPLE_PACKET,
        block.body => [0x00; 4].as_slice(),
        block.block_len() => 16,
    );
    Ok(())
}

#[test]
fn an_interface_and_packets_are_read_from_bodies() -> Result<(), Fail> {
    let rt = crate::kit::HostRuntime;
    let order = ByteOrder::BigEndian;
    let body = [
        0x00, 0x01, 0x00, 0x00, 0x00, 0x04, 0x00, 0x00, // link type, snap length
        0x00, 0x0D, 0x00, 0x01, 0x04, 0x00, 0x00, 0x00, // if_fcslen
    ];
    let interface = InterfaceDescription::from_body(order, &body)?;
    let body = [
        0x00, 0x00, 0x00, 0x00, 0x00, 0x00, 0x00, 0x01, 0x00, 0x00, 0x00, 0x02, //
        0x00, 0x00, 0x00, 0x02, 0x00, 0x00, 0x00, 0x3C, 0xFF, 0xFF, 0x00, 0x00, //
    ];
    let packet = EnhancedPacket::from_body(order, &body)?;
    let body = [0x00, 0x00, 0x00, 0x3C, 0xFF, 0xFF, 0x00, 0x00];
    let simple = SimplePacket::from_body(order, 2, &body)?;
    equal!(rt, "an interface description";
        interface.link_type => LinkType::ETHERNET,
        interface.snap_len => 262_144,
        interface.fcs_len() => Some(4),
    );
    equal!(rt, "packets";
        packet.time => 4_294_967_298,
        [packet.original_len, simple.original_len] => [60, 60],
        [packet.packet, simple.packet] => [[0xFF, 0xFF].as_slice(); 2],
    );
    Ok(())
}

#[test]
fn a_reader_takes_one_unit_at_a_time() -> Result<(), Fail> {
    let rt = crate::kit::HostRuntime;
    let mut reader = CaptureReader::new(ArrayVec::<CaptureInterface, 16>::new());
    let packet = CapturedPacket {
        time: Some(Timestamp {
            seconds: 1,
            nanoseconds: 2_000,
        }),
        interface: None,
        direction: None,
        comment: None,
        original_len: 1,
        link_type: LinkType::ETHERNET,
        snap_len: 65_535,
        fcs_len: None,
        packet: &[0xFF],
    };
    let units = [
        CaptureUnit {
            len: 24,
            packet: None,
        },
        CaptureUnit {
            len: 17,
            packet: Some(packet),
        },
    ];
    equal!(rt, "the units of a file"; [reader.read(&FILE)?, reader.read(&FILE[24..])?] => units);
    Ok(())
}

#[test]
fn an_edited_record_has_new_lengths() -> Result<(), Fail> {
    let rt = crate::kit::HostRuntime;
    let file = [
        0xA1, 0xB2, 0xC3, 0xD4, 0x00, 0x02, 0x00, 0x04, 0x00, 0x00, 0x00, 0x00, // file header
        0x00, 0x00, 0x00, 0x00, 0x00, 0x00, 0xFF, 0xFF, 0x00, 0x00, 0x00, 0x01, //
        0x00, 0x00, 0x00, 0x01, 0x00, 0x00, 0x00, 0x02, 0x00, 0x00, 0x00, 0x03, 0x00, 0x00, 0x00,
        0x3C, // record
        0xAA, 0xBB, 0xCC,
    ];
    let mut reader = CaptureReader::new(ArrayVec::<CaptureInterface, 16>::new());
    let header_len = reader.read(&file)?.len;
    let record_len = reader.read(file.get(24..).unwrap_or(&[]))?.len;
    let packet = [0xAA, 0xCC];
    let found = reader.edit_unit(&file[24..43], &packet, 59);
    let header = [
        0x00, 0x00, 0x00, 0x01, 0x00, 0x00, 0x00, 0x02, 0x00, 0x00, 0x00, 0x02, 0x00, 0x00, 0x00,
        0x3B,
    ];
    let wanted = EditedUnit::Record {
        header,
        packet: &packet,
    };
    equal!(rt, "a record";
        header_len => 24,
        record_len => 19,
        found => Some(wanted),
    );
    Ok(())
}

#[test]
fn a_copied_file_header_has_a_raised_snap_length() -> Result<(), Fail> {
    let rt = crate::kit::HostRuntime;
    let file = [
        0xA1, 0xB2, 0xC3, 0xD4, 0x00, 0x02, 0x00, 0x04, 0x00, 0x00, 0x00, 0x00, // file header
        0x00, 0x00, 0x00, 0x00, 0x00, 0x00, 0x00, 0x60, 0x00, 0x00, 0x00, 0x01, //
    ];
    let mut reader = CaptureReader::new(ArrayVec::<CaptureInterface, 16>::new());
    let header_len = reader.read(&file)?.len;
    let copied = reader.copy_unit(CopyMode::Changed { raise: 4 }, &file);
    let wanted = CopiedUnit::SnapLen {
        front: &file[..16],
        snap_len: [0x00, 0x00, 0x00, 0x64],
        rest: &file[20..],
    };
    equal!(rt, "a file header";
        header_len => 24,
        copied => wanted,
    );
    Ok(())
}

#[test]
fn blocks_are_written_in_both_byte_orders() {
    let rt = crate::kit::HostRuntime;
    let packet = EnhancedPacket {
        interface: 0,
        time: 4_294_967_298,
        original_len: 60,
        packet: &[0xFF, 0xFF],
        options: &[],
    };
    for (name, order, section, options, interface, header, lens) in [
        (
            "big-endian",
            ByteOrder::BigEndian,
            [
                0x0A, 0x0D, 0x0D, 0x0A, 0x00, 0x00, 0x00, 0x1C, 0x1A, 0x2B, 0x3C, 0x4D, 0x00, 0x01,
                0x00, 0x00, //
                0xFF, 0xFF, 0xFF, 0xFF, 0xFF, 0xFF, 0xFF, 0xFF, 0x00, 0x00, 0x00, 0x1C, //
            ],
            [
                0x00, 0x09, 0x00, 0x01, 0x09, 0x00, 0x00, 0x00, 0x00, 0x00, 0x00, 0x00,
            ],
            [
                0x00, 0x00, 0x00, 0x01, 0x00, 0x00, 0x00, 0x20, 0x00, 0x01, 0x00, 0x00, 0x00, 0x04,
                0x00, 0x00, //
            ],
            [
                0x00, 0x00, 0x00, 0x06, 0x00, 0x00, 0x00, 0x24, 0x00, 0x00, 0x00, 0x00, //
                0x00, 0x00, 0x00, 0x01, 0x00, 0x00, 0x00, 0x02, 0x00, 0x00, 0x00, 0x02, 0x00, 0x00,
                0x00, 0x3C, //
            ],
            ([0x00, 0x00, 0x00, 0x20], [0x00, 0x00, 0x00, 0x24]),
        ),
        (
            "little-endian",
            ByteOrder::LittleEndian,
            [
                0x0A, 0x0D, 0x0D, 0x0A, 0x1C, 0x00, 0x00, 0x00, 0x4D, 0x3C, 0x2B, 0x1A, 0x01, 0x00,
                0x00, 0x00, //
                0xFF, 0xFF, 0xFF, 0xFF, 0xFF, 0xFF, 0xFF, 0xFF, 0x1C, 0x00, 0x00, 0x00, //
            ],
            [
                0x09, 0x00, 0x01, 0x00, 0x09, 0x00, 0x00, 0x00, 0x00, 0x00, 0x00, 0x00,
            ],
            [
                0x01, 0x00, 0x00, 0x00, 0x20, 0x00, 0x00, 0x00, 0x01, 0x00, 0x00, 0x00, 0x00, 0x00,
                0x04, 0x00, //
            ],
            [
                0x06, 0x00, 0x00, 0x00, 0x24, 0x00, 0x00, 0x00, 0x00, 0x00, 0x00, 0x00, //
                0x01, 0x00, 0x00, 0x00, 0x02, 0x00, 0x00, 0x00, 0x02, 0x00, 0x00, 0x00, 0x3C, 0x00,
                0x00, 0x00, //
            ],
            ([0x20, 0x00, 0x00, 0x00], [0x24, 0x00, 0x00, 0x00]),
        ),
    ] {
        let description = InterfaceDescription {
            byte_order: order,
            link_type: LinkType::ETHERNET,
            snap_len: 262_144,
            options: &options,
        };
        equal!(rt, name;
            SectionHeader::to_bytes(order) => section,
            InterfaceDescription::nanosecond_options(order) => options,
            description.header_to_bytes() => interface,
            packet.header_to_bytes(order) => header,
            packet.padding_len() => 2,
            (description.trailer_to_bytes(), packet.trailer_to_bytes(order)) => lens,
        );
    }
}
