//! Captures of frames that are cut before, at and after the end of their headers.
use super::TAGGED;
use crate::checks::equal;
use etherpeel::ether_peel::Start;
use etherpeel::EtherType;
use crate::example_frames::snap_checker::keeps_all_headers;

/// Captured with the link type LINUX_SLL: a broadcast ARP request.
const COOKED_ARP_REQUEST: [u8; 44] = [
    0x00, 0x01, 0x00, 0x01, 0x00, 0x06, 0x02, 0x00, 0x5E, 0x10, 0x00, 0x01, 0x00, 0x00, 0x08, 0x06,
    0x00, 0x01, 0x08, 0x00, 0x06, 0x04, 0x00, 0x01, 0x02, 0x00, 0x5E, 0x10, 0x00, 0x01, 0xC0, 0x00,
    0x02, 0x01, 0x00, 0x00, 0x00, 0x00, 0x00, 0x00, 0xC0, 0x00, 0x02, 0x02,
];

/// After the ether type of MACsec: a SecTag whose short length gives 4 bytes of payload, a VLAN tag in these, and 2
/// bytes after them.
const TAG_IN_SEC_TAG: [u8; 14] = [
    0x00, 0x06, 0x00, 0x00, 0x00, 0x01, 0x81, 0x00, 0xAA, 0xBB, 0xCC, 0xDD, 0xEE, 0xEE,
];

const MACSEC: Start = Start::EtherType(EtherType::MACSEC);

const ETH: Start = Start::Ethernet2;

#[rustfmt::skip]
static ROWS: [(&str, Start, &[u8], usize, bool); 8] = [
    ("a tag", ETH, &TAGGED, 18, true),
    ("a tag that is cut", ETH, &TAGGED, 17, false),
    ("an ARP packet is a header", Start::LinuxSll, &COOKED_ARP_REQUEST, 44, true),
    ("an ARP packet that is cut", Start::LinuxSll, &COOKED_ARP_REQUEST, 43, false),
    ("a named payload is kept", MACSEC, &TAG_IN_SEC_TAG, 12, true),
    ("a named payload that is cut", MACSEC, &TAG_IN_SEC_TAG, 11, false),
    ("longer than the frame", ETH, &TAGGED, 65535, true),
    ("no frame", ETH, &[], 0, true),
];

#[test]
fn a_cut_keeps_all_headers_from_their_length_on() {
    let rt = crate::kit::HostRuntime;
    for &(name, start, frame, snap_len, keeps) in &ROWS {
        equal!(rt, name; keeps_all_headers(start, frame, snap_len) => keeps);
    }
}
