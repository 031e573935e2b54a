//! Decisions on packets that were cut.
use crate::checks::equal;
use etherpeel::ether_filter::{Decision, Filter, Packet};
use etherpeel::ether_peel::Start;
use crate::kit::Fail;

/// To a group, with service tag 100, VLAN 5 and ARP: 14, 4, 4 and 28 bytes.
const FRAME: [u8; 50] =
    *b"\x03\x00\x5E\x10\x00\x02\x02\x00\x5E\x10\x00\x01\x88\xA8\x00\x64\x81\x00\x00\x05\x08\x06\x00\x01\x08\x00\x06\x04\x00\x01\x02\x00\x5E\x10\x00\x01\xC0\x00\x02\x01\x00\x00\x00\x00\x00\x00\xC0\x00\x02\x02";

/// Cuts within the link's header, the first tag, the second tag, the first eight bytes of the ARP packet, and that
/// packet; and the whole frame.
const CUTS: [usize; 6] = [13, 16, 20, 24, 31, 50];

/// The decisions on the cuts.
fn decided(expression: &[u8]) -> Option<[Decision; 6]> {
    let Ok(filter) = Filter::parse(expression) else {
        return None;
    };
    let mut found = [Decision::Fails; 6];
    for (i, cut) in CUTS.iter().enumerate() {
        let packet = Packet {
            start: Start::Ethernet2,
            frame: FRAME.get(..*cut)?,
            captured_len: *cut,
            original_len: 64,
            time: None,
        };
        found[i] = filter.decide(&packet);
    }
    Some(found)
}

const M: Decision = Decision::Matches;

const F: Decision = Decision::Fails;

const N14: Decision = Decision::Needs(14);

const N17: Decision = Decision::Needs(17);

const N21: Decision = Decision::Needs(21);

const N27: Decision = Decision::Needs(27);

/// An expression, and the decisions on the cuts. Of a header whose ether type is missing its first byte can decide what
/// follows; of an ARP packet the size of the hardware addresses.
#[rustfmt::skip]
static DECIDED: [(&str, [Decision; 6]); 14] = [
    ("vlan", [N14, M, M, M, M, M]),
    ("vlan 5", [N14, N17, M, M, M, M]),
    ("outer vlan 5", [N14, F, F, F, F, F]),
    ("inner vlan 5", [N14, N17, N21, M, M, M]),
    ("inner vlan 100", [N14, N17, N21, F, F, F]),
    ("macsec", [N14, N17, N21, F, F, F]),
    ("ether proto 0x88a8", [N14, M, M, M, M, M]),
    ("ip", [N14, N17, N21, F, F, F]),
    ("not ether multicast", [F, F, F, F, F, F]),
    ("ether src 02:00:5e:10:00:09", [F, F, F, F, F, F]),
    ("refused", [N14, N17, N21, N27, F, F]),
    ("cut and vlan 9 and vlan 100", [N14, N17, N21, F, F, F]),
    ("less 64 or vlan 9", [M, M, M, M, M, M]),
    ("greater 65 and refused", [F, F, F, F, F, F]),
];

#[test]
fn a_cut_packet_is_decided_as_far_as_it_is_known() {
    let rt = crate::kit::HostRuntime;
    for &(expression, wanted) in &DECIDED {
        equal!(rt, expression; decided(expression.as_bytes()) => Some(wanted));
    }
}

const ETH: Start = Start::Ethernet2;

const FCS: Start = Start::Ethernet2Fcs;

const SLL: Start = Start::LinuxSll;

/// A start, the number of captured bytes of the frame, the original length, an expression, and the decision on it.
#[rustfmt::skip]
static OTHER: [(Start, usize, u32, &str, Decision); 12] = [
    (ETH, 16, 18, "vlan", M),
    (ETH, 16, 17, "vlan", F),
    (ETH, 16, 17, "refused", M),
    (ETH, 16, 16, "vlan 5 or inner vlan 5", F),
    (ETH, 0, 64, "ether multicast", Decision::Needs(1)),
    (ETH, 0, 64, "ether src 02:00:5e:10:00:01", Decision::Needs(7)),
    (FCS, 31, 64, "vlan 5", M),
    (FCS, 20, 64, "inner vlan 5", N21),
    (FCS, 20, 26, "inner vlan 5", M),
    (FCS, 50, 50, "vlan 5", M),
    (SLL, 15, 64, "ether broadcast", F),
    (SLL, 15, 64, "vlan", F),
];

#[test]
fn packets_of_other_links_are_decided() -> Result<(), Fail> {
    let rt = crate::kit::HostRuntime;
    for &(start, captured_len, original_len, expression, wanted) in &OTHER {
        let frame = FRAME.get(..captured_len).ok_or("a front")?;
        let found = decision(start, frame, original_len, expression).ok_or("an expression")?;
        equal!(rt, expression; found => wanted);
    }
    Ok(())
}

/// The decision on a packet.
fn decision(start: Start, frame: &[u8], original_len: u32, expression: &str) -> Option<Decision> {
    let filter = Filter::parse(expression.as_bytes()).ok()?;
    Some(filter.decide(&Packet {
        start,
        frame,
        captured_len: frame.len(),
        original_len,
        time: None,
    }))
}

/// The first bytes of a frame of 100 bytes, an expression, and the decision on it. The frames begin with a VLAN tag, with
/// a SecTag whose payload is encrypted and whose SCI is missing, and with an address.
#[rustfmt::skip]
static FRONTS: [(&[u8], &str, Decision); 14] = [
    (b"\xFF\xFF\xFF\xFF\xFF\xFF\x02\0\0\0\0\x07\x81\x00\x00\x09", "vlan", M),
    (b"\xFF\xFF\xFF\xFF\xFF\xFF\x02\0\0\0\0\x07\x81\x00\x00\x09", "outer vlan 9", M),
    (b"\xFF\xFF\xFF\xFF\xFF\xFF\x02\0\0\0\0\x07\x81\x00\x00\x09", "vlan 8", N17),
    (b"\xFF\xFF\xFF\xFF\xFF\xFF\x02\0\0\0\0\x07\x81\x00\x00", "vlan 9", Decision::Needs(16)),
    (b"\xFF\xFF\xFF\xFF\xFF\xFF\x02\0\0\0\0\x07\x81\x00\x10", "vlan 9", Decision::Needs(16)),
    (b"\xFF\xFF\xFF\xFF\xFF\xFF\x02\0\0\0\0\x07\x81\x00\x01", "vlan 9", N17),
    (b"\x02\0\0\0\0\x08\x02\0\0\0\0\x07\x88\xE5\x2C\x00", "vlan", F),
    (b"\x02\0\0\0\0\x08\x02\0\0\0\0\x07\x88\xE5\x2C\x00", "macsec", M),
    (b"\x02\0\0\0\0\x08\x02\0\0\0\0\x07\x88\xE5\x2C\x00", "refused or ip", F),
    (b"\x02\0\0\0\0\x08\x02\0\0\0\0\x07\x88\xE5\x20\x00", "ip", Decision::Needs(29)),
    (b"\x02\0\0\0\0\x08\x02\0\0\0\0\x07\x88\xE5", "macsec", Decision::Needs(15)),
    (b"\x02\0\0\0\0\x08", "ether dst 02:00:00:00:00:08", M),
    (b"\x02\0\0\0\0", "ether dst 02:00:00:00:00:08", Decision::Needs(6)),
    (b"\x02\0\0\0\0", "ether host 02:00:00:00:01:08", Decision::Needs(7)),
];

#[test]
fn what_no_missing_byte_can_change_is_decided() -> Result<(), Fail> {
    let rt = crate::kit::HostRuntime;
    for &(frame, expression, wanted) in &FRONTS {
        let found = decision(ETH, frame, 100, expression).ok_or("an expression")?;
        equal!(rt, expression; found => wanted);
    }
    Ok(())
}
