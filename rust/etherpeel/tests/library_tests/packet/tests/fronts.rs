//! The first headers of frames. The bytes were worked out by hand.
use super::equal;
use etherpeel::ether_packet::{ethernet_front, outer_vlan};
use etherpeel::ether_peel::Start;
use etherpeel::{EtherType, Ethernet2Header, SingleVlanHeader};

/// A frame with a customer tag. Its last four bytes can be read as a frame check sequence.
const TAGGED: [u8; 22] = [
    0xFF, 0xFF, 0xFF, 0xFF, 0xFF, 0xFF, 0x02, 0x00, 0x00, 0x00, 0x00, 0x01, 0x81, 0x00, // Ethernet II
    0xB1, 0x23, 0x08, 0x00, // VLAN
    0x45, 0x00, 0x00, 0x00,
];

/// A captured frame with a service tag.
const CAPTURED: [u8; 20] = [
    0x00, 0x00, 0x00, 0x01, 0x00, 0x06, 0x02, 0x00, 0x00, 0x00, 0x00, 0x01, 0x00, 0x00, 0x88, 0xA8, // cooked capture
    0x00, 0x0A, 0x08, 0x06, // VLAN
];

/// The length to which the frame is cut, whether its header is then whole, and its tag.
static CUTS: [(&str, usize, bool, Option<[u8; 4]>); 5] = [
    ("all bytes", 22, true, Some([0xB1, 0x23, 0x08, 0x00])),
    ("18 bytes", 18, true, Some([0xB1, 0x23, 0x08, 0x00])),
    ("17 bytes", 17, true, None),
    ("14 bytes", 14, true, None),
    ("13 bytes", 13, false, None),
];

const HEADER: Ethernet2Header = Ethernet2Header {
    source: [2, 0, 0, 0, 0, 1],
    destination: [0xFF; 6],
    ether_type: EtherType(0x8100),
};

#[test]
fn a_cut_front_has_the_tag_only_if_it_is_whole() {
    let rt = crate::kit::HostRuntime;
    for &(name, len, has_header, wanted) in &CUTS {
        match ethernet_front(&TAGGED[..len.min(22)]) {
            Some(front) => {
                let tag = front.vlan.map(|tag| tag.to_bytes());
                equal!(rt, name;
                    true => has_header,
                    front.link => HEADER,
                    tag => wanted,
                );
            }
            None => equal!(rt, name; false => has_header),
        }
    }
}

/// The captured frame with the hardware type of netlink.
const NETLINK: [u8; 20] = [
    0x00, 0x00, 0x03, 0x38, 0x00, 0x06, 0x02, 0x00, 0x00, 0x00, 0x00, 0x01, 0x00, 0x00, 0x88, 0xA8, // cooked capture
    0x00, 0x0A, 0x08, 0x06, // VLAN
];

/// A start, a frame by its first byte and its end, and its outer tag.
type Outer = (
    &'static str,
    Start,
    &'static [u8],
    usize,
    usize,
    Option<[u8; 4]>,
);

static OUTER: [Outer; 6] = [
    (
        "a frame with a check sequence",
        Start::Ethernet2Fcs,
        &TAGGED,
        0,
        22,
        Some([0xB1, 0x23, 0x08, 0x00]),
    ),
    (
        "a tag cut by the check sequence",
        Start::Ethernet2Fcs,
        &TAGGED,
        0,
        21,
        None,
    ),
    (
        "a cooked capture",
        Start::LinuxSll,
        &CAPTURED,
        0,
        20,
        Some([0x00, 0x0A, 0x08, 0x06]),
    ),
    ("a cut tag", Start::LinuxSll, &CAPTURED, 0, 19, None),
    (
        "no link",
        Start::EtherType(EtherType(0x8100)),
        &TAGGED,
        14,
        22,
        None,
    ),
    ("netlink", Start::LinuxSll, &NETLINK, 0, 20, None),
];

#[test]
fn the_outer_tag_is_the_first_after_any_start() {
    let rt = crate::kit::HostRuntime;
    for &(name, start, frame, from, to, wanted) in &OUTER {
        let tag = outer_vlan(start, frame.get(from..to).unwrap_or(&[]));
        equal!(rt, name; tag.map(|tag| tag.to_bytes()) => wanted);
    }
}
