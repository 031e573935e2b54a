//! A file of two sections, read one unit at a time, and changed until it is refused. Python's `struct` wrote it;
//! Wireshark's `tshark` printed the times, lengths and link types of its packets.
use super::{equal, put};
use arrayvec::ArrayVec;
use etherpeel::ether_pcap::{
    BlockError, BodyError, CaptureError, CaptureInterface, CaptureReader, CapturedPacket, LinkType,
    Timestamp,
};
use crate::kit::Fail;

/// A big-endian section with two interfaces, Ethernet in microseconds and cooked capture in nanoseconds, and a packet
/// of each; and a little-endian section with three interfaces, whose times count 1/1024 seconds, seconds, and
/// microseconds with an offset of one hour.
const SECTIONS: [u8; 508] = [
    0x0A, 0x0D, 0x0D, 0x0A, 0x00, 0x00, 0x00, 0x1C, 0x1A, 0x2B, 0x3C, 0x4D, 0x00, 0x01, 0x00, 0x00, // section header
    0xFF, 0xFF, 0xFF, 0xFF, 0xFF, 0xFF, 0xFF, 0xFF, 0x00, 0x00, 0x00, 0x1C, //
    0x00, 0x00, 0x00, 0x01, 0x00, 0x00, 0x00, 0x28, 0x00, 0x01, 0x00, 0x00, 0x00, 0x00, 0x00, 0x00, // interface description
    0x00, 0x09, 0x00, 0x01, 0x06, 0x00, 0x00, 0x00, 0x00, 0x0D, 0x00, 0x01, 0x04, 0x00, 0x00, 0x00, //
    0x00, 0x00, 0x00, 0x00, 0x00, 0x00, 0x00, 0x28, //
    0x00, 0x00, 0x00, 0x01, 0x00, 0x00, 0x00, 0x20, 0x00, 0x71, 0x00, 0x00, 0x00, 0x00, 0x00, 0x11, // interface description
    0x00, 0x09, 0x00, 0x01, 0x09, 0x00, 0x00, 0x00, 0x00, 0x00, 0x00, 0x00, 0x00, 0x00, 0x00, 0x20, //
    0x00, 0x00, 0x00, 0x06, 0x00, 0x00, 0x00, 0x34, 0x00, 0x00, 0x00, 0x01, 0x17, 0x97, 0x9C, 0xFE, // enhanced packet
    0x3D, 0x85, 0xCD, 0x15, 0x00, 0x00, 0x00, 0x11, 0x00, 0x00, 0x00, 0x3C, 0x00, 0x04, 0x00, 0x01, //
    0x00, 0x06, 0x02, 0x00, 0x00, 0x00, 0x00, 0x01, 0x00, 0x00, 0x08, 0x00, 0x45, 0x00, 0x00, 0x00, //
    0x00, 0x00, 0x00, 0x34, //
    0x00, 0x00, 0x00, 0x06, 0x00, 0x00, 0x00, 0x30, 0x00, 0x00, 0x00, 0x00, 0x00, 0x06, 0x0A, 0x24, // enhanced packet
    0x18, 0x20, 0x22, 0x40, 0x00, 0x00, 0x00, 0x10, 0x00, 0x00, 0x00, 0x10, 0x02, 0x00, 0x00, 0x00, //
    0x00, 0x01, 0x02, 0x00, 0x00, 0x00, 0x00, 0x02, 0x88, 0xB5, 0x01, 0x02, 0x00, 0x00, 0x00, 0x30, //
    0x0A, 0x0D, 0x0D, 0x0A, 0x1C, 0x00, 0x00, 0x00, 0x4D, 0x3C, 0x2B, 0x1A, 0x01, 0x00, 0x00, 0x00, // section header
    0xFF, 0xFF, 0xFF, 0xFF, 0xFF, 0xFF, 0xFF, 0xFF, 0x1C, 0x00, 0x00, 0x00, //
    0x01, 0x00, 0x00, 0x00, 0x20, 0x00, 0x00, 0x00, 0x01, 0x00, 0x00, 0x00, 0x00, 0x00, 0x00, 0x00, // interface description
    0x09, 0x00, 0x01, 0x00, 0x8A, 0x00, 0x00, 0x00, 0x00, 0x00, 0x00, 0x00, 0x20, 0x00, 0x00, 0x00, //
    0x01, 0x00, 0x00, 0x00, 0x20, 0x00, 0x00, 0x00, 0x01, 0x00, 0x00, 0x00, 0x00, 0x00, 0x00, 0x00, // interface description
    0x09, 0x00, 0x01, 0x00, 0x00, 0x00, 0x00, 0x00, 0x00, 0x00, 0x00, 0x00, 0x20, 0x00, 0x00, 0x00, //
    0x01, 0x00, 0x00, 0x00, 0x24, 0x00, 0x00, 0x00, 0x71, 0x00, 0x00, 0x00, 0x00, 0x00, 0x00, 0x00, // interface description
    0x0E, 0x00, 0x08, 0x00, 0x10, 0x0E, 0x00, 0x00, 0x00, 0x00, 0x00, 0x00, 0x00, 0x00, 0x00, 0x00, //
    0x24, 0x00, 0x00, 0x00, //
    0x06, 0x00, 0x00, 0x00, 0x30, 0x00, 0x00, 0x00, 0x00, 0x00, 0x00, 0x00, 0x95, 0x01, 0x00, 0x00, // enhanced packet
    0x55, 0x01, 0xC4, 0x4F, 0x10, 0x00, 0x00, 0x00, 0x10, 0x00, 0x00, 0x00, 0x02, 0x00, 0x00, 0x00, //
    0x00, 0x01, 0x02, 0x00, 0x00, 0x00, 0x00, 0x02, 0x88, 0xB5, 0x01, 0x02, 0x30, 0x00, 0x00, 0x00, //
    0x06, 0x00, 0x00, 0x00, 0x30, 0x00, 0x00, 0x00, 0x01, 0x00, 0x00, 0x00, 0x00, 0x00, 0x00, 0x00, // enhanced packet
    0x00, 0xF1, 0x53, 0x65, 0x10, 0x00, 0x00, 0x00, 0x10, 0x00, 0x00, 0x00, 0x02, 0x00, 0x00, 0x00, //
    0x00, 0x01, 0x02, 0x00, 0x00, 0x00, 0x00, 0x02, 0x88, 0xB5, 0x01, 0x02, 0x30, 0x00, 0x00, 0x00, //
    0x06, 0x00, 0x00, 0x00, 0x34, 0x00, 0x00, 0x00, 0x02, 0x00, 0x00, 0x00, 0x24, 0x0A, 0x06, 0x00, // enhanced packet
    0x40, 0x22, 0x20, 0x18, 0x11, 0x00, 0x00, 0x00, 0x11, 0x00, 0x00, 0x00, 0x00, 0x04, 0x00, 0x01, //
    0x00, 0x06, 0x02, 0x00, 0x00, 0x00, 0x00, 0x01, 0x00, 0x00, 0x08, 0x00, 0x45, 0x00, 0x00, 0x00, //
    0x34, 0x00, 0x00, 0x00, //
    0x03, 0x00, 0x00, 0x00, 0x20, 0x00, 0x00, 0x00, 0x10, 0x00, 0x00, 0x00, 0x02, 0x00, 0x00, 0x00, // simple packet
    0x00, 0x01, 0x02, 0x00, 0x00, 0x00, 0x00, 0x02, 0x88, 0xB5, 0x01, 0x02, 0x20, 0x00, 0x00, 0x00, //
];

/// The offset at which each unit begins, and the one at which the last unit ends.
const PLACES: [usize; 14] = [
    0, 28, 68, 100, 152, 200, 228, 260, 292, 328, 376, 424, 476, 508,
];

/// A reader of sections with up to four interfaces.
type Reader = CaptureReader<ArrayVec<CaptureInterface, 4>>;

/// A reader that has read this number of units.
fn reader_at(file: &[u8; 508], number: usize) -> Result<Reader, Fail> {
    let mut reader = CaptureReader::new(ArrayVec::new());
    for start in PLACES.iter().take(number.min(13)) {
        reader.read(&file[(*start).min(508)..])?;
    }
    Ok(reader)
}

/// The number of a unit, and its packet: interface, nanoseconds, original length, link type, snap length, length of
/// the frame check sequence, begin and end.
#[rustfmt::skip]
static PACKETS: [(&str, usize, u32, Option<u32>, u32, LinkType, u32, Option<u8>, usize, usize); 5] = [
    ("the second interface", 3, 1, Some(123_456_789), 60, LinkType::LINUX_SLL, 17, None, 128, 145),
    ("the first interface", 4, 0, Some(123_456_000), 16, LinkType::ETHERNET, 0, Some(4), 180, 196),
    ("powers of two", 9, 0, Some(333_007_812), 16, LinkType::ETHERNET, 0, None, 356, 372),
    ("whole seconds", 10, 1, Some(0), 16, LinkType::ETHERNET, 0, None, 404, 420),
    ("a simple packet", 12, 0, None, 16, LinkType::ETHERNET, 0, None, 488, 504),
];

#[test]
fn packets_have_the_interface_of_their_own_section() -> Result<(), Fail> {
    let rt = crate::kit::HostRuntime;
    for &(
        name,
        number,
        interface,
        time,
        original_len,
        link_type,
        snap_len,
        fcs_len,
        start,
        end,
    ) in &PACKETS {
        let mut reader = reader_at(&SECTIONS, number)?;
        let unit = reader.read(&SECTIONS[PLACES[number.min(13)].min(508)..])?;
        let packet = CapturedPacket {
            time: time.map(|nanoseconds| Timestamp {
                seconds: 1_700_000_000,
                nanoseconds,
            }),
            interface: Some(interface),
            direction: None,
            comment: None,
            original_len,
            link_type,
            snap_len,
            fcs_len,
            packet: SECTIONS.get(start..end).unwrap_or(&[]),
        };
        equal!(rt, name; unit.packet => Some(packet));
    }
    Ok(())
}

/// The file is cut at each byte: the unit at the cut needs more bytes, even if none of it is there.
#[test]
fn a_unit_cut_anywhere_names_the_length_it_needs() -> Result<(), Fail> {
    let rt = crate::kit::HostRuntime;
    for i in 0..13 {
        let mut reader = reader_at(&SECTIONS, i)?;
        let start = PLACES[i].min(508);
        let len = PLACES[i + 1].saturating_sub(start);
        for have in 0..=len {
            let end = (start + have).min(508).max(start);
            let least = if i == 0 && have < 4 { 24 } else { 12 };
            let required = if have < 12 { least } else { len };
            let found = reader
                .read(&SECTIONS[start..end])
                .map(|unit| unit.len)
                .map_err(|error| error.required_len());
            let wanted = if have == len {
                Ok(have)
            } else {
                Err(Some(required))
            };
            equal!(rt, "a cut unit"; found => wanted);
        }
    }
    Ok(())
}

/// The file with these bytes changed, each list with its offset.
fn changed(changes: &[(usize, &[u8])]) -> [u8; 508] {
    let mut file = SECTIONS;
    for (place, bytes) in changes {
        put(&mut file, *place, bytes);
    }
    file
}

/// The bytes that are changed, the number of units that are read before the refused one, its offset, and why it is
/// refused.
type Refused = (
    &'static str,
    &'static [(usize, &'static [u8])],
    usize,
    usize,
    CaptureError,
);

#[rustfmt::skip]
static REFUSED: [Refused; 7] = [
    ("an interface that is not described", &[(111, &[2])], 3, 100, CaptureError::NoInterface(2)),
    ("one of the second section", &[(336, &[3])], 9, 328, CaptureError::NoInterface(3)),
    ("an interface of the section before", &[], 7, 376, CaptureError::NoInterface(1)),
    ("a simple packet without one", &[], 6, 476, CaptureError::NoInterface(0)),
    ("another length at the end", &[(67, &[41])], 1, 28, CaptureError::Block(BlockError::Trailer { total_len: 40, trailer: 41 })),
    ("a captured length above the block", &[(122, &[1])], 3, 100, CaptureError::Body(BodyError::Len { required_len: 293, len: 40 })),
    ("one of the first interface", &[(174, &[1])], 4, 152, CaptureError::Body(BodyError::Len { required_len: 292, len: 36 })),
];

#[test]
fn a_refused_unit_names_the_cause() -> Result<(), Fail> {
    let rt = crate::kit::HostRuntime;
    for (name, changes, number, start, error) in &REFUSED {
        let file = changed(changes);
        let mut reader = reader_at(&file, *number)?;
        let found = reader.read(file.get(*start..).unwrap_or(&[])).err();
        equal!(rt, name; found.as_ref() => Some(error));
    }
    Ok(())
}

/// A section may describe as many interfaces as the table has room for.
#[test]
fn the_fifth_of_four_interfaces_is_refused() -> Result<(), Fail> {
    let rt = crate::kit::HostRuntime;
    let mut reader = reader_at(&SECTIONS, 1)?;
    for number in 0..5 {
        let found = reader.read(&SECTIONS[28..68]).map(|unit| unit.packet);
        let wanted = if number < 4 {
            Ok(None)
        } else {
            Err(CaptureError::TooManyInterfaces)
        };
        equal!(rt, "an interface"; found => wanted);
    }
    let unit = reader.read(&SECTIONS[100..152])?;
    equal!(rt, "a packet after them"; unit.packet.is_some() => true);
    Ok(())
}

/// The bytes that are changed, the number of units that are read before the packet, the offset of the unit, and its
/// seconds and nanoseconds.
type Shifted = (
    &'static str,
    &'static [(usize, &'static [u8])],
    usize,
    usize,
    u64,
    u32,
);

/// A packet of an interface whose times are offset by an hour, and by a second backwards; and a packet in an obsolete
/// block of type 2, whose interface has two bytes. Wireshark's `tshark` shows these times.
#[rustfmt::skip]
static SHIFTED: [Shifted; 3] = [
    ("an hour later", &[], 11, 424, 1_700_003_600, 123_456_000),
    ("a second earlier", &[(312, &[0xFF; 8])], 11, 424, 1_699_999_999, 123_456_000),
    ("an obsolete packet", &[(103, &[2]), (108, &[0, 1, 0xFF, 0xFF])], 3, 100, 1_700_000_000, 123_456_789),
];

#[test]
fn an_offset_shifts_the_times_of_its_interface() -> Result<(), Fail> {
    let rt = crate::kit::HostRuntime;
    for &(name, changes, number, start, seconds, nanoseconds) in &SHIFTED {
        let file = changed(changes);
        let mut reader = reader_at(&file, number)?;
        let packet = reader.read(file.get(start..).unwrap_or(&[]))?.packet;
        let time = Some(Timestamp {
            seconds,
            nanoseconds,
        });
        equal!(rt, name; packet.and_then(|packet| packet.time) => time);
    }
    Ok(())
}
