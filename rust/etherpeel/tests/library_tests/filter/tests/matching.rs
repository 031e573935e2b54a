//! Which packets match an expression.
use crate::checks::equal;
use etherpeel::ether_filter::{Filter, Packet};
use etherpeel::ether_peel::Start;
use etherpeel::EtherType;
use crate::kit::Fail;

/// ARP; VLAN 5, ARP; VLAN 7, ARP; VLAN 5, IPv4; IPv4; service tag 100, VLAN 5, IPv4. The ARP packets have 28 bytes.
const FRAMES: [&[u8]; 6] = [
    b"\xFF\xFF\xFF\xFF\xFF\xFF\x02\x00\x5E\x10\x00\x01\x08\x06\x00\x01\x08\x00\x06\x04\x00\x01\x02\x00\x5E\x10\x00\x01\xC0\x00\x02\x01\x00\x00\x00\x00\x00\x00\xC0\x00\x02\x02",
    b"\xFF\xFF\xFF\xFF\xFF\xFF\x02\x00\x5E\x10\x00\x01\x81\x00\x00\x05\x08\x06\x00\x01\x08\x00\x06\x04\x00\x01\x02\x00\x5E\x10\x00\x01\xC0\x00\x02\x01\x00\x00\x00\x00\x00\x00\xC0\x00\x02\x02",
    b"\xFF\xFF\xFF\xFF\xFF\xFF\x02\x00\x5E\x10\x00\x01\x81\x00\x00\x07\x08\x06\x00\x01\x08\x00\x06\x04\x00\x01\x02\x00\x5E\x10\x00\x01\xC0\x00\x02\x01\x00\x00\x00\x00\x00\x00\xC0\x00\x02\x02",
    b"\x02\x00\x5E\x10\x00\x02\x02\x00\x5E\x10\x00\x01\x81\x00\xA0\x05\x08\x00\x45",
    b"\x03\x00\x5E\x10\x00\x02\x02\x00\x5E\x10\x00\x01\x08\x00\x45",
    b"\x02\x00\x5E\x10\x00\x02\x02\x00\x5E\x10\x00\x01\x88\xA8\x00\x64\x81\x00\x00\x05\x08\x00\x45",
];

/// The number of bytes of each packet on the wire.
const ORIGINAL_LENS: [u32; 6] = [60, 64, 64, 100, 15, 104];

/// The numbers of the packets that match.
fn matching(expression: &[u8]) -> Option<[bool; 6]> {
    let Ok(filter) = Filter::parse(expression) else {
        return None;
    };
    let mut found = [false; 6];
    for (i, frame) in FRAMES.iter().enumerate() {
        let packet = Packet {
            start: Start::Ethernet2,
            frame: *frame,
            captured_len: 60,
            original_len: ORIGINAL_LENS[i],
            time: None,
        };
        found[i] = filter.matches(&packet);
    }
    Some(found)
}

const Y: bool = true;

const N: bool = false;

/// An expression, and which of the packets match.
#[rustfmt::skip]
static MATCHING: [(&str, [bool; 6]); 28] = [
    ("vlan 5 or arp", [Y, Y, Y, Y, N, Y]),
    ("arp or vlan 5", [Y, Y, Y, Y, N, Y]),
    ("vlan 7 or vlan 5", [N, Y, Y, Y, N, Y]),
    ("vlan and arp", [N, Y, Y, N, N, N]),
    ("arp", [Y, Y, Y, N, N, N]),
    ("not vlan", [Y, N, N, N, Y, N]),
    ("!(vlan 5||arp)", [N, N, N, N, Y, N]),
    ("not not vlan 0x7", [N, N, Y, N, N, N]),
    ("outer vlan 5", [N, Y, N, Y, N, N]),
    ("outer vlan 100", [N, N, N, N, N, Y]),
    ("inner vlan 5", [N, N, N, N, N, Y]),
    ("inner vlan 100", [N, N, N, N, N, N]),
    ("ip", [N, N, N, Y, Y, Y]),
    ("ether proto 0x88a8", [N, N, N, N, N, Y]),
    ("ip6 or macsec or refused", [N, N, N, N, N, N]),
    ("ether src 02:00:5e:10:00:01", [Y, Y, Y, Y, Y, Y]),
    ("ether dst 02:00:5E:10:00:02", [N, N, N, Y, N, Y]),
    ("ether host 03:00:5e:10:00:02", [N, N, N, N, Y, N]),
    ("ether host 03005E100002", [N, N, N, N, Y, N]),
    ("ether broadcast", [Y, Y, Y, N, N, N]),
    ("ether multicast", [Y, Y, Y, N, Y, N]),
    ("cut", [N, Y, Y, Y, N, Y]),
    ("less 64", [Y, Y, Y, N, Y, N]),
    ("greater 64", [N, Y, Y, Y, N, Y]),
    ("vlan 5 and (arp or ip) and not outer vlan 100", [N, Y, N, Y, N, N]),
    ("not vlan 5 and not vlan 7 and not vlan 100", [Y, N, N, N, Y, N]),
    ("not (vlan 5 and not arp) and (ether broadcast or vlan 5)", [Y, Y, Y, N, N, N]),
    ("(vlan and (ip or not vlan 7)) or greater 1000", [N, Y, N, Y, N, Y]),
];

#[test]
fn each_expression_matches_its_packets_of_six() {
    let rt = crate::kit::HostRuntime;
    for &(expression, wanted) in &MATCHING {
        equal!(rt, expression; matching(expression.as_bytes()) => Some(wanted));
    }
}

/// Four VLAN tags, 1 to 4, before IPv4.
const FOUR_TAGS: &[u8] =
    b"\x02\x00\x5E\x10\x00\x02\x02\x00\x5E\x10\x00\x01\x81\x00\x00\x01\x81\x00\x00\x02\x81\x00\x00\x03\x81\x00\x00\x04\x08\x00";

/// Ten VLAN tags, 1 to 10, before IPv4.
const TEN_TAGS: &[u8] =
    b"\x02\x00\x5E\x10\x00\x02\x02\x00\x5E\x10\x00\x01\x81\x00\x00\x01\x81\x00\x00\x02\x81\x00\x00\x03\x81\x00\x00\x04\x81\x00\x00\x05\x81\x00\x00\x06\x81\x00\x00\x07\x81\x00\x00\x08\x81\x00\x00\x09\x81\x00\x00\x0A\x08\x00";

/// Ten VLAN tags before IPv4: 0, 63 (after 0x88A8), 64 (after 0x9100), 65, 127, 128, 4095, 2048, 2047, 4094.
const SPREAD_TAGS: &[u8] =
    b"\x02\x00\x5E\x10\x00\x02\x02\x00\x5E\x10\x00\x01\x81\x00\x00\x00\x88\xA8\x00\x3F\x91\x00\x00\x40\x81\x00\x00\x41\x81\x00\x00\x7F\x81\x00\x00\x80\x81\x00\x0F\xFF\x81\x00\x08\x00\x81\x00\x07\xFF\x81\x00\x0F\xFE\x08\x00";

/// VLAN 9 and the announcement of an ARP packet, in a SecTag that leaves its payload readable.
const IN_SEC_TAG: &[u8] =
    b"\x02\x00\x5E\x10\x00\x02\x02\x00\x5E\x10\x00\x01\x88\xE5\x00\x00\x00\x00\x00\x01\x81\x00\x00\x09\x08\x06";

/// The same in a SecTag that encrypts its payload.
const ENCRYPTED: &[u8] =
    b"\x02\x00\x5E\x10\x00\x02\x02\x00\x5E\x10\x00\x01\x88\xE5\x0C\x00\x00\x00\x00\x01\x81\x00\x00\x09\x08\x06";

/// A broadcast of IPv6 in Linux cooked capture v1, from Ethernet.
const COOKED: &[u8] = b"\x00\x01\x00\x01\x00\x06\xFF\xFF\xFF\xFF\xFF\xFF\x00\x00\x86\xDD\x60";

/// Cuts within the fourth tag, and within the cooked header.
const FOUR_TAGS_CUT: &[u8] =
    b"\x02\x00\x5E\x10\x00\x02\x02\x00\x5E\x10\x00\x01\x81\x00\x00\x01\x81\x00\x00\x02\x81\x00\x00\x03\x81\x00\x00\x04\x08";

const COOKED_CUT: &[u8] = b"\x00\x01\x00\x01\x00\x06\xFF\xFF\xFF\xFF\xFF\xFF\x00\x00\x86";

const ETH: Start = Start::Ethernet2;

const FCS: Start = Start::Ethernet2Fcs;

const SLL: Start = Start::LinuxSll;

const TAG: Start = Start::EtherType(EtherType::VLAN_TAGGED_FRAME);

/// A start, a frame, an expression, and whether the frame matches.
#[rustfmt::skip]
static OTHER: [(Start, &[u8], &str, bool); 32] = [
    (ETH, FOUR_TAGS, "outer vlan 1 and inner vlan 4", true),
    (ETH, FOUR_TAGS, "vlan 3 and vlan 2", true),
    (ETH, FOUR_TAGS, "inner vlan 2 or inner vlan 3", false),
    (ETH, FOUR_TAGS_CUT, "refused and vlan 3", true),
    (ETH, FOUR_TAGS_CUT, "fault && vlan 3", true),
    (ETH, FOUR_TAGS, "fault", false),
    (ETH, FOUR_TAGS_CUT, "vlan 4 or ip", false),
    (ETH, TEN_TAGS, "outer vlan 1 and inner vlan 10", true),
    (ETH, TEN_TAGS, "vlan 10 and ip and not refused", true),
    (ETH, TEN_TAGS, "vlan 11 or inner vlan 9 or arp", false),
    (ETH, TEN_TAGS, "vlan 9", true),
    (ETH, TEN_TAGS, "vlan 0 or vlan 11 or vlan 9", true),
    (ETH, TEN_TAGS, "outer vlan 9 or inner vlan 9 or not vlan 9", false),
    (ETH, SPREAD_TAGS, "vlan 0 and vlan 63 and vlan 64 and vlan 65 and vlan 127 and vlan 128", true),
    (ETH, SPREAD_TAGS, "vlan 4095 and vlan 2048 and vlan 2047 and vlan 4094", true),
    (ETH, SPREAD_TAGS, "vlan 1 or vlan 62 or vlan 66 or vlan 126 or vlan 129 or vlan 4093", false),
    (ETH, SPREAD_TAGS, "outer vlan 0 and inner vlan 4094 and vlan 2047", true),
    (ETH, SPREAD_TAGS, "outer vlan 63 or inner vlan 2047 or inner vlan 0", false),
    (ETH, SPREAD_TAGS, "ether proto 0x88a8 and ether proto 0x9100 and ether proto 0x8100 and ip", true),
    (ETH, SPREAD_TAGS, "arp or macsec or ether proto 0x88e5 or ip6", false),
    (ETH, IN_SEC_TAG, "macsec and vlan 9 and arp", true),
    (ETH, IN_SEC_TAG, "ether proto 0x88e5 and ether proto 0x8100", true),
    (ETH, IN_SEC_TAG, "refused", true),
    (ETH, ENCRYPTED, "macsec", true),
    (ETH, ENCRYPTED, "vlan or arp or refused", false),
    (SLL, COOKED, "ip6", true),
    (SLL, COOKED, "ether broadcast or ether src ff:ff:ff:ff:ff:ff", false),
    (SLL, COOKED_CUT, "refused", true),
    (TAG, b"\x00\x05\x08\x00\x45", "vlan 5 and ip", true),
    (TAG, b"\x00", "ether proto 0x8100 and refused", true),
    (TAG, b"\x00", "vlan", false),
    (FCS, FOUR_TAGS, "vlan 3 and refused", true),
];

#[test]
fn packets_of_other_links_match() -> Result<(), Fail> {
    let rt = crate::kit::HostRuntime;
    for &(start, frame, expression, wanted) in &OTHER {
        let packet = Packet {
            start,
            frame,
            captured_len: frame.len(),
            original_len: 60,
            time: None,
        };
        let filter = Filter::parse(expression.as_bytes())
            .ok()
            .ok_or("an expression")?;
        equal!(rt, expression; filter.matches(&packet) => wanted);
    }
    Ok(())
}
