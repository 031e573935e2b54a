//! The bytes that tests of several modules read: frames that were made, and captured frames and worked examples, which
//! the tests of `ether_peel` read too.

pub use crate::peel::test_frames::{
    ARP_REQUEST_FRAME as ARP_REQUEST, CONFIDENTIALITY, COOKED_ARP_REQUEST, COOKED_LOOPBACK,
    COOKED_SPANNING_TREE, INTEGRITY, NAMED, SEALED, SPANNING_TREE, TAGGED_ARP_REQUEST,
    TWICE_TAGGED_ARP_REQUEST,
};

/// A broadcast frame from 02:00:00:00:00:01 with IPv4, and four bytes after the header.
pub const FRAME: [u8; 18] = [
    0xFF, 0xFF, 0xFF, 0xFF, 0xFF, 0xFF, 2, 0, 0, 0, 0, 1, 0x08, 0x00, 0x11, 0x22, 0x33, 0x44,
];

/// A VLAN tag with priority 5, drop eligible, VLAN 291 and IPv4 next, and one byte after it.
pub const TAG: [u8; 5] = [0xB1, 0x23, 0x08, 0x00, 0x45];

/// VLAN 1 around VLAN 2, IPv4 next, and one byte after the tags.
pub const TWO_TAGS: [u8; 9] = [0x00, 0x01, 0x81, 0x00, 0x00, 0x02, 0x08, 0x00, 0x45];

/// To us, on Ethernet, from 02:00:00:00:00:01 with the address length 255, with the dummy type for 802.3 frames, and
/// one byte after the header.
pub const COOKED: [u8; 17] = [0, 0, 0, 1, 0, 0xFF, 2, 0, 0, 0, 0, 1, 0, 0, 0, 1, 0xAA];

/// From us, on Ethernet, with IPv4, and one byte after the header.
pub const COOKED_OUTGOING: [u8; 17] = [0, 4, 0, 1, 0, 6, 2, 0, 0, 0, 0, 1, 0, 0, 0x08, 0x00, 0x45];

/// A packet from a GRE tunnel, and one byte after the header.
pub const COOKED_GRE: [u8; 17] = [
    0, 0, 0x03, 0x0A, 0, 0, 0, 0, 0, 0, 0, 0, 0, 0, 0x08, 0x00, 0x45,
];

/// A request as Linux sends it: who has 10.0.0.2, tell 10.0.0.1 at 02:00:00:00:00:01.
pub const REQUEST: [u8; 28] = [
    0x00, 0x01, 0x08, 0x00, 0x06, 0x04, 0x00, 0x01, 0x02, 0x00, 0x00, 0x00, 0x00, 0x01, 0x0A, 0x00,
    0x00, 0x01, 0x00, 0x00, 0x00, 0x00, 0x00, 0x00, 0x0A, 0x00, 0x00, 0x02,
];

/// The reply to it: 10.0.0.2 is at 02:00:00:00:00:02.
pub const REPLY: [u8; 28] = [
    0x00, 0x01, 0x08, 0x00, 0x06, 0x04, 0x00, 0x02, 0x02, 0x00, 0x00, 0x00, 0x00, 0x02, 0x0A, 0x00,
    0x00, 0x02, 0x02, 0x00, 0x00, 0x00, 0x00, 0x01, 0x0A, 0x00, 0x00, 0x01,
];
