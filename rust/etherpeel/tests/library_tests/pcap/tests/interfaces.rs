//! The options of interface descriptions.
use super::equal;
use super::pcapng_captures::{BIG, LITTLE};
use etherpeel::ether_pcap::{ByteOrder, InterfaceDescription, LinkType};

/// Options from an offset on, and the length of the frame check sequence and the resolution of times in them.
type Row = (
    &'static str,
    ByteOrder,
    &'static [u8],
    usize,
    usize,
    Option<u8>,
    Option<u8>,
);

const NAMED: &[u8] = &[
    0x00, 0x02, 0x00, 0x05, b'e', b't', b'h', b'1', b'0', 0x00, 0x00, 0x00, // if_name
    0x00, 0x09, 0x00, 0x01, 0x86, 0x00, 0x00, 0x00, // if_tsresol
];

const TWO: &[u8] = &[
    0x00, 0x0D, 0x00, 0x01, 0x04, 0x00, 0x00, 0x00, //
    0x00, 0x0D, 0x00, 0x01, 0x00, 0x00, 0x00, 0x00, //
];

const ENDED: &[u8] = &[
    0x00, 0x00, 0x00, 0x00, //
    0x00, 0x0D, 0x00, 0x01, 0x04, 0x00, 0x00, 0x00, //
];

const SWAPPED: &[u8] = &[0x0D, 0x00, 0x01, 0x00, 0x04, 0x00, 0x00, 0x00];

const BE: ByteOrder = ByteOrder::BigEndian;

const LE: ByteOrder = ByteOrder::LittleEndian;

/// Wireshark's `capinfos` shows 0 bytes and a resolution of 9 for both files.
#[rustfmt::skip]
static OPTIONS: [Row; 11] = [
    ("the most significant byte first", BE, &BIG, 44, 64, Some(0), Some(9)),
    ("the least significant byte first", LE, &LITTLE, 44, 64, Some(0), Some(9)),
    ("after a padded name", BE, NAMED, 0, 20, None, Some(0x86)),
    ("the first of two", BE, TWO, 0, 16, Some(4), None),
    ("not after the end", BE, ENDED, 0, 12, None, None),
    ("a number of no byte", BE, &[0x00, 0x0D, 0x00, 0, 4, 4, 4, 4], 0, 8, None, None),
    ("a number of two bytes", BE, &[0x00, 0x0D, 0x00, 2, 4, 4, 4, 4], 0, 8, None, None),
    ("a number of three bytes", BE, &[0x00, 0x0D, 0x00, 3, 4, 4, 4, 4], 0, 8, None, None),
    ("a number of four bytes", BE, &[0x00, 0x0D, 0x00, 4, 4, 4, 4, 4], 0, 8, None, None),
    ("in the order of the section", LE, SWAPPED, 0, 8, Some(4), None),
    ("in the other order", BE, SWAPPED, 0, 8, None, None),
];

#[test]
fn options_give_check_sequence_and_resolution() {
    let rt = crate::kit::HostRuntime;
    for &(name, order, bytes, from, to, fcs_len, resolution) in &OPTIONS {
        let interface = InterfaceDescription {
            byte_order: order,
            link_type: LinkType::ETHERNET,
            snap_len: 0,
            options: bytes.get(from..to).unwrap_or(&[]),
        };
        equal!(rt, name;
            [interface.fcs_len(), interface.time_resolution()] => [fcs_len, resolution],
        );
    }
}

/// The first option needs 5 bytes, and the second needs 13: its padding may be missing.
#[test]
fn an_option_is_read_once_its_value_is_whole() {
    let rt = crate::kit::HostRuntime;
    let options = [
        0x00, 0x02, 0x00, 0x01, b'e', 0x00, 0x00, 0x00, //
        0x00, 0x0D, 0x00, 0x01, 0x04, 0x00, 0x00, 0x00, //
    ];
    for len in 0..17 {
        let interface = InterfaceDescription {
            byte_order: ByteOrder::BigEndian,
            link_type: LinkType::ETHERNET,
            snap_len: 0,
            options: &options[..len],
        };
        let fcs_len = if len < 13 { None } else { Some(4) };
        let name = if len < 5 { None } else { Some(b"e".as_slice()) };
        equal!(rt, "cut options";
            interface.fcs_len() => fcs_len,
            interface.option(2) => name,
        );
    }
}
