//! The examples of the documentation.
use crate::checks::equal;
use etherpeel::ether_filter::{Decision, Filter, FilterErrorKind, Packet, number_of};
use etherpeel::ether_peel::Start;
use crate::kit::Fail;

/// An Ethernet II header and VLAN 5, before ARP.
const TAGGED_ARP: [u8; 18] = [
    0xFF, 0xFF, 0xFF, 0xFF, 0xFF, 0xFF, 0x02, 0x00, 0x00, 0x00, 0x00, 0x01, 0x81, 0x00, 0x00, 0x05,
    0x08, 0x06,
];

const PACKET: Packet<'static> = Packet {
    start: Start::Ethernet2,
    frame: &TAGGED_ARP,
    captured_len: 18,
    original_len: 64,
    time: None,
};

static FILTERS: [(&str, bool); 3] = [
    ("vlan 5 and arp", true),
    ("not (vlan 5 or cut)", false),
    ("vlan.vid == 5 and eth.src[0:3] == 02:00:00", true),
];

#[test]
fn the_filters_of_the_examples_match_as_documented() -> Result<(), Fail> {
    let rt = crate::kit::HostRuntime;
    for &(text, wanted) in &FILTERS {
        let filter = Filter::parse(text.as_bytes()).ok().ok_or("an expression")?;
        equal!(rt, text; filter.matches(&PACKET) => wanted);
    }
    Ok(())
}

const CUT_IN_TAG: Packet<'static> = Packet {
    start: Start::Ethernet2,
    frame: &[
        0xFF, 0xFF, 0xFF, 0xFF, 0xFF, 0xFF, 0x02, 0x00, 0x00, 0x00, 0x00, 0x01, 0x81, 0x00, 0x00,
    ],
    captured_len: 15,
    original_len: 64,
    time: None,
};

static DECISIONS: [(&str, Decision); 5] = [
    ("vlan", Decision::Matches),
    ("vlan 5", Decision::Needs(16)),
    ("not macsec", Decision::Needs(17)),
    ("vlan 5 and greater 100", Decision::Fails),
    ("vlan.pcp <= 7", Decision::Needs(18)),
];

#[test]
fn a_packet_cut_in_its_tag_is_decided_as_documented() -> Result<(), Fail> {
    let rt = crate::kit::HostRuntime;
    for &(text, wanted) in &DECISIONS {
        let filter = Filter::parse(text.as_bytes()).ok().ok_or("an expression")?;
        equal!(rt, text; filter.decide(&CUT_IN_TAG) => wanted);
    }
    Ok(())
}

#[test]
fn a_filter_error_names_its_place() -> Result<(), Fail> {
    let rt = crate::kit::HostRuntime;
    let error = Filter::parse(b"vlan 4096").err().ok_or("an error")?;
    let shown = format!("{error}");
    equal!(rt, "the example";
        error.offset => 5,
        error.kind => FilterErrorKind::ExpectedNumber(4095),
        shown.as_str() => "At byte 5: expected a number up to 4095.",
    );
    Ok(())
}

#[test]
fn a_number_is_decimal_or_hexadecimal() {
    let rt = crate::kit::HostRuntime;
    equal!(rt, "the example";
        [number_of(b"0x88A8"), number_of(b"4294967296"), number_of(b"07")]
            => [Some(Some(34984)), Some(None), None],
    );
}
