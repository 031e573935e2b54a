//! Tests of fields: which packets match, and where texts are refused.
use crate::checks::equal;
use etherpeel::ether_filter::{Decision, Filter, FilterError, FilterErrorKind, Packet};
use etherpeel::ether_peel::Start;
use crate::kit::Fail;

/// Ethernet II, VLAN 0x123 with priority 5, VLAN 6, and an ARP request of 10.0.0.1 for 10.0.0.2.
const TAGGED_ARP: [u8; 50] = [
    0xFF, 0xFF, 0xFF, 0xFF, 0xFF, 0xFF, 0x02, 0x00, 0x00, 0x00, 0x00, 0x01, 0x81, 0x00, // Ethernet II
    0xA1, 0x23, 0x81, 0x00, 0x00, 0x06, 0x08, 0x06, // VLAN tags
    0x00, 0x01, 0x08, 0x00, 0x06, 0x04, 0x00, 0x01, // ARP
    0x02, 0x00, 0x00, 0x00, 0x00, 0x01, 0x0A, 0x00, 0x00, 0x01, 0x00, 0x00, 0x00, 0x00, 0x00, 0x00,
    0x0A, 0x00, 0x00, 0x02,
];

/// Ethernet II and a SecTag with a secure channel identifier, whose payload is not changed.
const SEC_TAGGED: [u8; 30] = [
    0xFF, 0xFF, 0xFF, 0xFF, 0xFF, 0xFF, 0x02, 0x00, 0x00, 0x00, 0x00, 0x01, 0x88, 0xE5, // Ethernet II
    0x21, 0x00, 0x00, 0x00, 0x00, 0x07, 0x02, 0x00, 0x00, 0x00, 0x00, 0x01, 0x00, 0x01, 0x08, 0x00,
];

fn matches(text: &str, frame: &[u8]) -> Result<bool, Fail> {
    let filter = Filter::parse(text.as_bytes()).ok().ok_or("an expression")?;
    Ok(filter.matches(&Packet {
        start: Start::Ethernet2,
        frame,
        captured_len: frame.len(),
        original_len: frame.len() as u32,
        time: None,
    }))
}

#[rustfmt::skip]
static TESTS: [(&str, bool, bool); 58] = [
    // of the ARP packet, and of the SecTag
    ("vlan.vid", true, false),
    ("vlan.vid == 0x123", true, false),
    ("vlan.vid == 6", true, false),
    ("vlan.vid == 5", false, false),
    ("vlan.vid != 5", true, false),
    ("vlan.vid != 6", false, false),
    ("!(vlan.vid == 6)", false, true),
    ("vlan.vid > 6", true, false),
    ("vlan.vid>291", false, false),
    ("vlan.vid >= 291", true, false),
    ("vlan.vid < 7", true, false),
    ("vlan.vid<6", false, false),
    ("vlan.vid <= 6", true, false),
    ("vlan.pcp >= 5 and vlan.dei == 0", true, false),
    ("vlan.vid & 0xf00 == 0x100", true, false),
    ("vlan.vid&0xf00!=0x100", false, false),
    ("vlan.type == 0x8100&&vlan.type == 0x806", true, false),
    ("eth.src == 02:00:00:00:00:01", true, true),
    ("eth.src == 020000000001", true, true),
    ("eth.src == 0x020000000001", true, true),
    ("eth.dst != 02:00:00:00:00:01", true, true),
    ("eth.src[0:3] == 02:00:00", true, true),
    ("eth.src[4:2] == 1", true, true),
    ("eth.src[0:1] == 0x03", false, false),
    ("eth.type == 0x88e5", false, true),
    ("arp.op == 1", true, false),
    ("arp.op != 1", false, false),
    ("arp.op != 2", true, false),
    ("arp.spa == 10.0.0.1", true, false),
    ("arp.tpa == 0a:00:00:02", true, false),
    ("arp.spa & 255.255.255.0 == 10.0.0.0", true, false),
    ("arp.spa == 02:00:00:00:00:01", false, false),
    ("arp.sha == 02:00:00:00:00:01", true, false),
    ("arp.tha != 02:00:00:00:00:01", true, false),
    ("arp.tpa[3:1] == 2", true, false),
    ("macsec.sci == 0x0200000000010001", false, true),
    ("macsec.sci == 02:00:00:00:00:01:00:01", false, true),
    ("macsec.sci[6:2] == 00:01", false, true),
    ("macsec.pn == 7 and macsec.an == 1 and macsec.e == 0", false, true),
    ("not macsec.sci", true, false),
    ("sll.addr", false, false),
    ("arp.op in {1, 2}", true, false),
    ("arp.op in {2}", false, false),
    ("vlan.vid in {5,6,7}", true, false),
    ("vlan.vid & 0xf in {4, 6} and arp", true, false),
    ("!arp.op in {2,1}", false, true),
    ("eth.src[0:3] in {00:00:01, 02:00:00}", true, true),
    ("arp.spa in {10.0.0.2, 10.0.0.1} or ip", true, true),
    ("headers.header", true, true),
    ("headers.header == eth", true, true),
    ("headers.header == sll", false, false),
    ("headers.header == vlan", true, false),
    ("headers.header == macsec", false, true),
    ("headers.header == arp", true, false),
    ("headers.header != arp", false, true),
    ("headers.header != sll", true, true),
    ("headers.header in {sll, macsec, arp} && headers.header==eth", true, true),
    ("not headers.header in {sll, vlan}", false, true),
];

#[test]
fn packets_match_by_their_fields() -> Result<(), Fail> {
    let rt = crate::kit::HostRuntime;
    for &(text, of_arp, of_sec_tag) in &TESTS {
        equal!(rt, text;
            matches(text, &TAGGED_ARP)? => of_arp,
            matches(text, &SEC_TAGGED)? => of_sec_tag,
        );
    }
    Ok(())
}

#[rustfmt::skip]
static TEXTS: [(&str, usize, FilterErrorKind); 34] = [
    ("vlan.vid 5", 9, FilterErrorKind::ExpectedRelationOrOperator),
    ("vlan.vid == 4096", 12, FilterErrorKind::ExpectedNumber(4095)),
    ("vlan.vid ==", 11, FilterErrorKind::ExpectedNumber(4095)),
    ("vlan.vid & 4096 == 1", 11, FilterErrorKind::ExpectedNumber(4095)),
    ("vlan.vid & 1", 12, FilterErrorKind::ExpectedRelation),
    ("vlan.vid & 1 and arp", 13, FilterErrorKind::ExpectedRelation),
    ("macsec.pn == 4294967296", 13, FilterErrorKind::ExpectedNumber(4294967295)),
    ("eth.src == 5:6", 11, FilterErrorKind::ExpectedBytes(6)),
    ("eth.src[0:3] == 02:00", 16, FilterErrorKind::ExpectedBytes(3)),
    ("arp.spa == 5", 11, FilterErrorKind::ExpectedAnyBytes),
    ("arp.spa == 10.0.0.256", 11, FilterErrorKind::ExpectedAnyBytes),
    ("vlan.none", 0, FilterErrorKind::ExpectedOperand),
    ("vlan.start == 5", 0, FilterErrorKind::ExpectedOperand),
    ("eth.fcs", 0, FilterErrorKind::ExpectedOperand),
    ("macsec.reserved", 0, FilterErrorKind::ExpectedOperand),
    ("vlan.vid[0:1] == 5", 0, FilterErrorKind::ExpectedOperand),
    ("eth.src[4:3] == 0", 0, FilterErrorKind::ExpectedOperand),
    ("vlan == 5", 5, FilterErrorKind::ExpectedVlanIdOrOperator),
    ("arp == 5", 4, FilterErrorKind::ExpectedOperator),
    ("arp.op == 1 or vlan.vid == 5 and ip", 29, FilterErrorKind::MixedOperators),
    ("arp.op in 5", 10, FilterErrorKind::ExpectedSet),
    ("arp.op in {}", 11, FilterErrorKind::ExpectedNumber(65535)),
    ("arp.op in {1", 12, FilterErrorKind::ExpectedSetEnd),
    ("arp.op in {1 2", 13, FilterErrorKind::ExpectedSetEnd),
    ("arp.op in {1,", 13, FilterErrorKind::ExpectedNumber(65535)),
    ("arp.op in {1} 2", 14, FilterErrorKind::ExpectedOperator),
    ("headers.header == 5", 18, FilterErrorKind::ExpectedHeader),
    ("headers.header == sll2", 18, FilterErrorKind::ExpectedHeader),
    ("headers.header ==", 17, FilterErrorKind::ExpectedHeader),
    ("headers.header[0:1] == vlan", 0, FilterErrorKind::ExpectedOperand),
    ("eth", 0, FilterErrorKind::ExpectedOperand),
    ("arp.op == arp", 10, FilterErrorKind::ExpectedNumber(65535)),
    ("(vlan.vid", 9, FilterErrorKind::Unclosed),
    ("vlan.vid)", 8, FilterErrorKind::Unopened),
];

#[test]
fn a_word_that_does_not_fit_after_a_field_is_refused() {
    let rt = crate::kit::HostRuntime;
    for &(text, offset, kind) in &TEXTS {
        let refusal = Filter::parse(text.as_bytes()).err();
        equal!(rt, text; refusal => Some(FilterError { offset, kind }));
    }
}

#[rustfmt::skip]
static DECISIONS: [(&str, Decision); 8] = [
    ("vlan.vid == 0x123", Decision::Matches),
    ("vlan.vid != 0x123", Decision::Needs(22)),
    ("vlan.vid == 6", Decision::Matches),
    ("vlan.vid == 7", Decision::Needs(21)),
    ("vlan.vid", Decision::Matches),
    ("eth.type == 5 and less 40", Decision::Fails),
    ("eth.type == 5", Decision::Fails),
    ("eth.type != 5", Decision::Matches),
];

#[test]
fn a_packet_cut_in_its_second_tag_is_decided_by_its_fields() -> Result<(), Fail> {
    let rt = crate::kit::HostRuntime;
    for &(text, wanted) in &DECISIONS {
        let filter = Filter::parse(text.as_bytes()).ok().ok_or("an expression")?;
        let decision = filter.decide(&Packet {
            start: Start::Ethernet2,
            frame: &TAGGED_ARP[..20],
            captured_len: 20,
            original_len: 50,
            time: None,
        });
        equal!(rt, text; decision => wanted);
    }
    Ok(())
}
