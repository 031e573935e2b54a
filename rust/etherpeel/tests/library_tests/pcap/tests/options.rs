//! The options of units, where the caller keeps the state of the reader.
use super::captures::LITTLE_NANOSECONDS;
use super::equal;
use super::pcapng_captures::{BIG, LITTLE};
use etherpeel::ether_pcap::{ByteOrder, FileHeader, PcapngOption, PcapngOptions, ReaderState};
use crate::kit::Fail;

const BE: ByteOrder = ByteOrder::BigEndian;

const LE: ByteOrder = ByteOrder::LittleEndian;

const FCS_LEN: Option<PcapngOption<'static>> = Some(PcapngOption {
    code: 13,
    value: &[0],
});

const NANOSECONDS: Option<PcapngOption<'static>> = Some(PcapngOption {
    code: 9,
    value: &[9],
});

const COMMENT: Option<PcapngOption<'static>> = Some(PcapngOption {
    code: PcapngOption::COMMENT,
    value: b"kept",
});

const FLAGS: Option<PcapngOption<'static>> = Some(PcapngOption {
    code: 2,
    value: &[0, 0, 0, 1],
});

const HARDWARE: Option<PcapngOption<'static>> = Some(PcapngOption {
    code: 2,
    value: b"hardware",
});

const SECTION: &[u8] = &[
    0x0A, 0x0D, 0x0D, 0x0A, 0x00, 0x00, 0x00, 0x28, 0x1A, 0x2B, 0x3C, 0x4D, 0x00, 0x01, 0x00, 0x00, //
    0xFF, 0xFF, 0xFF, 0xFF, 0xFF, 0xFF, 0xFF, 0xFF, //
    0x00, 0x02, 0x00, 0x08, b'h', b'a', b'r', b'd', b'w', b'a', b'r', b'e', // shb_hardware
    0x00, 0x00, 0x00, 0x28, //
];

/// With two options, and no end of options.
const ENHANCED: &[u8] = &[
    0x00, 0x00, 0x00, 0x06, 0x00, 0x00, 0x00, 0x34, 0x00, 0x00, 0x00, 0x00, //
    0x00, 0x00, 0x00, 0x01, 0x00, 0x00, 0x00, 0x02, //
    0x00, 0x00, 0x00, 0x01, 0x00, 0x00, 0x00, 0x3C, 0xAA, 0x77, 0x77, 0x77, // one byte, padding
    0x00, 0x01, 0x00, 0x04, b'k', b'e', b'p', b't', // opt_comment
    0x00, 0x02, 0x00, 0x04, 0x00, 0x00, 0x00, 0x01, // epb_flags
    0x00, 0x00, 0x00, 0x34, //
];

const OBSOLETE: &[u8] = &[
    0x02, 0x00, 0x00, 0x00, 0x34, 0x00, 0x00, 0x00, 0x00, 0x00, 0x07, 0x00, //
    0x01, 0x00, 0x00, 0x00, 0x02, 0x00, 0x00, 0x00, //
    0x05, 0x00, 0x00, 0x00, 0x3C, 0x00, 0x00, 0x00, // captured and original length
    0xAA, 0xBB, 0xCC, 0xDD, 0xEE, 0x00, 0x00, 0x00, // packet, padding
    0x01, 0x00, 0x04, 0x00, b'k', b'e', b'p', b't', // opt_comment
    0x00, 0x00, 0x00, 0x00, 0x34, 0x00, 0x00, 0x00, //
];

/// The second option has four bytes of nine.
const CUT: &[u8] = &[
    0x00, 0x00, 0x00, 0x01, 0x00, 0x00, 0x00, 0x24, 0x00, 0x01, 0x00, 0x00, 0x00, 0x00, 0x00, 0x00, //
    0x00, 0x01, 0x00, 0x04, b'k', b'e', b'p', b't', //
    0x00, 0x01, 0x00, 0x09, b'n', b'o', b'n', b'e', //
    0x00, 0x00, 0x00, 0x24, //
];

/// The option follows the end of options.
const ENDED: &[u8] = &[
    0x00, 0x00, 0x00, 0x01, 0x00, 0x00, 0x00, 0x20, 0x00, 0x01, 0x00, 0x00, 0x00, 0x00, 0x00, 0x00, //
    0x00, 0x00, 0x00, 0x00, 0x00, 0x01, 0x00, 0x04, b'n', b'o', b'n', b'e', //
    0x00, 0x00, 0x00, 0x20, //
];

/// A unit in a section of this byte order from an offset on, and its first three options.
type Row = (
    &'static str,
    ByteOrder,
    &'static [u8],
    usize,
    [Option<PcapngOption<'static>>; 3],
);

/// By draft-ietf-opsawg-pcapng, sections 3.5, 4.1 to 4.4 and appendix A.
#[rustfmt::skip]
static UNITS: [Row; 11] = [
    ("interface description", BE, &BIG, 28, [FCS_LEN, NANOSECONDS, None]),
    ("interface description, little-endian", LE, &LITTLE, 28, [FCS_LEN, NANOSECONDS, None]),
    ("a block that is not read", BE, &BIG, 68, [None, None, None]),
    ("enhanced packet without options", BE, &BIG, 84, [None, None, None]),
    ("simple packet, little-endian", LE, &LITTLE, 132, [None, None, None]),
    ("section header", BE, SECTION, 0, [HARDWARE, None, None]),
    ("section header in a section of the other order", LE, SECTION, 0, [HARDWARE, None, None]),
    ("enhanced packet", BE, ENHANCED, 0, [COMMENT, FLAGS, None]),
    ("obsolete packet block", LE, OBSOLETE, 0, [COMMENT, None, None]),
    ("an option that is cut", BE, CUT, 0, [COMMENT, None, None]),
    ("the end of options", BE, ENDED, 0, [None, None, None]),
];

#[test]
fn a_unit_has_the_options_of_its_block() {
    let rt = crate::kit::HostRuntime;
    for &(name, order, bytes, from, wanted) in &UNITS {
        let unit = bytes.get(from..).unwrap_or(&[]);
        let found = match ReaderState::Section(order).options(unit) {
            Some(options) => {
                let mut options = options;
                Some([options.next(), options.next(), options.next()])
            }
            None => None,
        };
        equal!(rt, name; found => Some(wanted));
    }
}

#[test]
fn a_unit_that_is_not_expected_has_no_options() -> Result<(), Fail> {
    let rt = crate::kit::HostRuntime;
    let section = ReaderState::Section(BE);
    let classic = ReaderState::Classic(FileHeader::from_slice(&LITTLE_NANOSECONDS)?);
    equal!(rt, "units of other files";
        ReaderState::Nothing.options(SECTION).is_some() => true,
        ReaderState::Nothing.options(ENHANCED).is_none() => true,
        classic.options(SECTION).is_none() => true,
        classic.options(&LITTLE_NANOSECONDS[24..]).is_none() => true,
        section.options(OBSOLETE).is_none() => true,
    );
    for len in 0..SECTION.len() {
        equal!(rt, "a cut section header"; section.options(&SECTION[..len]).is_none() => true);
    }
    for len in 0..ENHANCED.len() {
        equal!(rt, "a cut block"; section.options(&ENHANCED[..len]).is_none() => true);
    }
    Ok(())
}

#[test]
fn options_end_where_their_bytes_do() {
    let rt = crate::kit::HostRuntime;
    let bytes = [
        0x00, 0x02, 0x00, 0x01, b'e', 0x00, 0x00, 0x00, //
        0x00, 0x0D, 0x00, 0x01, 0x04, 0x00, 0x00, 0x00, //
    ];
    for len in 0..17 {
        let mut count = 0;
        let options = PcapngOptions::from_slice(BE, &bytes[..len]);
        equal!(rt, "at most one for four bytes"; options.size_hint() => (0, Some(len / 4)));
        for option in options {
            count += option.value.len();
        }
        let wanted = if len < 5 {
            0
        } else if len < 13 {
            1
        } else {
            2
        };
        equal!(rt, "options of one byte"; count => wanted);
    }
}
