//! Classic files: their headers, their records, and files that are cut at every byte.
use super::captures::{BIG_MICROSECONDS, BIG_SLL, LITTLE_FCS, LITTLE_NANOSECONDS};
use super::{equal, put};
use etherpeel::ether_pcap::{
    ByteOrder, FileHeader, FileHeaderError, LinkType, PcapRecord, PcapRecords, RecordError,
    RecordFault, TimestampResolution,
};
use crate::kit::Abort;
use crate::kit::Fail;

/// The header of a big-endian file with times in microseconds.
const HEADER: FileHeader = FileHeader {
    byte_order: ByteOrder::BigEndian,
    resolution: TimestampResolution::Microseconds,
    snap_len: 65535,
    link_type: LinkType::ETHERNET,
    fcs_len: None,
};

/// The same with another link type and length of a frame check sequence.
macro_rules! with_link {
    ($link_type:expr, $fcs_len:expr $(,)?) => {
        Ok(FileHeader {
            link_type: LinkType($link_type),
            fcs_len: $fcs_len,
            ..HEADER
        })
    };
}

macro_rules! version {
    ($major:expr, $minor:expr $(,)?) => {
        Err(FileHeaderError::Version {
            major: $major,
            minor: $minor,
        })
    };
}

macro_rules! magic {
    ($number:expr $(,)?) => {
        Err(FileHeaderError::Magic($number))
    };
}

static HEADERS: [(&str, &[u8], FileHeader); 4] = [
    ("microseconds", &BIG_MICROSECONDS, HEADER),
    (
        "nanoseconds",
        &LITTLE_NANOSECONDS,
        FileHeader {
            byte_order: ByteOrder::LittleEndian,
            resolution: TimestampResolution::Nanoseconds,
            snap_len: 262_144,
            ..HEADER
        },
    ),
    (
        "a frame check sequence",
        &LITTLE_FCS,
        FileHeader {
            byte_order: ByteOrder::LittleEndian,
            snap_len: 256,
            fcs_len: Some(4),
            ..HEADER
        },
    ),
    (
        "cooked captures",
        &BIG_SLL,
        FileHeader {
            resolution: TimestampResolution::Nanoseconds,
            snap_len: 96,
            link_type: LinkType::LINUX_SLL,
            ..HEADER
        },
    ),
];

#[test]
fn a_file_header_is_read_whole_and_a_cut_one_refused() {
    let rt = crate::kit::HostRuntime;
    for (name, file, wanted) in &HEADERS {
        equal!(rt, name; FileHeader::from_slice(file).as_ref() => Ok(wanted));
        for len in 0..24 {
            let found = FileHeader::from_slice(&file[..len.min(file.len())]);
            let cut = FileHeaderError::Len {
                required_len: 24,
                len,
            };
            equal!(rt, name; found => Err(cut));
        }
    }
}

/// Bytes of the header that are changed, with the offset of the first, and what is then read.
static CHANGED: [(&str, usize, [u8; 4], Result<FileHeader, FileHeaderError>); 18] = [
    (
        "no sequence",
        20,
        [0x00, 0x00, 0x00, 0x01],
        with_link!(1, None),
    ),
    (
        "a length without its mark",
        20,
        [0x20, 0x00, 0x00, 0x01],
        with_link!(1, None),
    ),
    (
        "a sequence of no bytes",
        20,
        [0x04, 0x00, 0x00, 0x01],
        with_link!(1, Some(0)),
    ),
    (
        "a sequence of four bytes",
        20,
        [0x24, 0x00, 0x00, 0x01],
        with_link!(1, Some(4)),
    ),
    (
        "the longest sequence",
        20,
        [0xF4, 0x00, 0xFF, 0xFF],
        with_link!(65535, Some(30)),
    ),
    (
        "all bits but the mark",
        20,
        [0xFB, 0xFF, 0x00, 0x71],
        with_link!(113, None),
    ),
    (
        "reserved bits",
        20,
        [0x2F, 0xFF, 0x01, 0x02],
        with_link!(258, Some(4)),
    ),
    (
        "a section header",
        0,
        [0x0A, 0x0D, 0x0D, 0x0A],
        magic!(0x0A0D_0D0A),
    ),
    (
        "a modified format",
        0,
        [0xA1, 0xB2, 0xCD, 0x34],
        magic!(0xA1B2_CD34),
    ),
    (
        "one bit more",
        0,
        [0xA1, 0xB2, 0xC3, 0xD5],
        magic!(0xA1B2_C3D5),
    ),
    (
        "exchanged pairs",
        0,
        [0xB2, 0xA1, 0xD4, 0xC3],
        magic!(0xB2A1_D4C3),
    ),
    ("zeros", 0, [0x00, 0x00, 0x00, 0x00], magic!(0)),
    ("version 2.3", 4, [0, 2, 0, 3], version!(2, 3)),
    ("version 2.5", 4, [0, 2, 0, 5], version!(2, 5)),
    ("version 1.4", 4, [0, 1, 0, 4], version!(1, 4)),
    ("version 4.2", 4, [0, 4, 0, 2], version!(4, 2)),
    ("version 0.0", 4, [0, 0, 0, 0], version!(0, 0)),
    ("both bytes of a version", 4, [1, 2, 0, 4], version!(258, 4)),
];

#[test]
fn a_changed_file_header_is_read_or_refused() {
    let rt = crate::kit::HostRuntime;
    for (name, place, bytes, wanted) in &CHANGED {
        let mut file = BIG_MICROSECONDS;
        put(&mut file, *place, bytes);
        equal!(rt, name; FileHeader::from_slice(&file) => *wanted);
    }
}

/// A file, and for each record its offset, its time in nanoseconds, its length and its end. The times and lengths are
/// those that `tshark` prints.
type Records = (
    &'static str,
    &'static [u8],
    &'static [(usize, u64, u32, usize)],
);

static FILES: [Records; 5] = [
    (
        "microseconds",
        &BIG_MICROSECONDS,
        &[
            (24, 1_700_000_000_123_456_000, 60, 82),
            (82, 1_700_000_001_000_005_000, 16, 114),
        ],
    ),
    (
        "nanoseconds",
        &LITTLE_NANOSECONDS,
        &[
            (24, 1_700_000_000_123_456_789, 60, 82),
            (82, 1_700_000_001_000_000_005, 16, 114),
        ],
    ),
    (
        "a frame check sequence",
        &LITTLE_FCS,
        &[(24, 1_000_002_000, 20, 60)],
    ),
    (
        "cooked captures",
        &BIG_SLL,
        &[(24, 4_294_967_295_999_999_999, 17, 57)],
    ),
    (
        "no records",
        &[
            0xA1, 0xB2, 0x3C, 0x4D, 0x00, 0x02, 0x00, 0x04, 0x00, 0x00, 0x00, 0x00, //
            0x00, 0x00, 0x00, 0x00, 0x00, 0x00, 0x00, 0x60, 0x00, 0x00, 0x00, 0x71, //
        ],
        &[],
    ),
];

/// The fault of a record of a cut file, if there is one.
fn fault_at(place: usize, end: usize, len: usize) -> Option<RecordFault> {
    let have = len.saturating_sub(place);
    let required_len = if have < 16 {
        16
    } else {
        end.saturating_sub(place)
    };
    if have == 0 {
        return None;
    }
    Some(RecordFault {
        offset: place,
        error: RecordError::Len {
            required_len,
            len: have,
        },
    })
}

/// Tests that the whole records of a file are read, and then the fault of the record that is cut.
fn are_read(
    rt: &impl Abort,
    name: &str,
    file: &[u8],
    records: &[(usize, u64, u32, usize)],
) -> Result<(), Fail> {
    let mut found = PcapRecords::from_slice(file)?;
    let resolution = found.header().resolution;
    let mut place = 24;
    let mut fault = None;
    for (start, time, original_len, end) in records {
        if file.len() < *end {
            fault = fault_at(*start, *end, file.len());
            break;
        }
        let packet = file.get(start.saturating_add(16)..*end);
        let is_record = match found.next() {
            Some(Ok(record)) => {
                record.nanoseconds(resolution) == *time
                    && record.original_len == *original_len
                    && Some(record.packet) == packet
            }
            _ => false,
        };
        equal!(rt, name; is_record => true);
        place = *end;
    }
    let next = match found.next() {
        Some(Err(fault)) => Some(fault),
        _ => None,
    };
    equal!(rt, name;
        next => fault,
        found.next().is_none() => true,
        found.offset() => place,
        found.rest().len() => file.len().saturating_sub(place),
    );
    Ok(())
}

/// Each file is cut at each byte from the file header's end on.
#[test]
fn records_are_read_up_to_the_cut() -> Result<(), Fail> {
    let rt = crate::kit::HostRuntime;
    for &(name, file, records) in &FILES {
        for len in 24..=file.len() {
            are_read(&rt, name, &file[..len], records)?;
        }
    }
    Ok(())
}

/// The captured length in an empty record, and why it is refused.
static CAPTURED_LENS: [(&str, [u8; 4], RecordError); 3] = [
    (
        "the greatest",
        [0x00, 0x04, 0x00, 0x00],
        RecordError::Len {
            required_len: 262_160,
            len: 20,
        },
    ),
    (
        "one more",
        [0x00, 0x04, 0x00, 0x01],
        RecordError::CapturedLen(262_145),
    ),
    (
        "all bits",
        [0xFF, 0xFF, 0xFF, 0xFF],
        RecordError::CapturedLen(u32::MAX),
    ),
];

#[test]
fn a_record_with_too_many_captured_bytes_is_refused() {
    let rt = crate::kit::HostRuntime;
    for (name, captured_len, error) in &CAPTURED_LENS {
        let mut bytes = [0; 20];
        put(&mut bytes, 8, captured_len);
        let found = PcapRecord::from_slice(&HEADER, &bytes).err();
        equal!(rt, name; found.as_ref() => Some(error));
    }
}

#[test]
fn a_fault_ends_the_records() -> Result<(), Fail> {
    let rt = crate::kit::HostRuntime;
    let mut file = BIG_MICROSECONDS;
    file[90] = 0xFF;
    let mut records = PcapRecords::from_slice(&file)?;
    let first = match records.next() {
        Some(Ok(record)) => record.record_len(),
        _ => 0,
    };
    let fault = RecordFault {
        offset: 82,
        error: RecordError::CapturedLen(0xFF00_0010),
    };
    let next = match records.next() {
        Some(Err(fault)) => Some(fault),
        _ => None,
    };
    let is_over = records.next().is_none();
    equal!(rt, "a record that no file has";
        first => 58,
        next => Some(fault),
        is_over => true,
        records.offset() => 82,
        records.rest() => &file[82..],
    );
    Ok(())
}

#[test]
fn a_fraction_beyond_its_second_is_added() {
    let rt = crate::kit::HostRuntime;
    let record = PcapRecord {
        seconds: u32::MAX,
        fraction: u32::MAX,
        original_len: 0,
        packet: &[],
    };
    equal!(rt, "in microseconds and nanoseconds";
        [
            record.nanoseconds(TimestampResolution::Microseconds),
            record.nanoseconds(TimestampResolution::Nanoseconds),
        ] => [4_294_971_589_967_295_000, 4_294_967_299_294_967_295],
    );
}
