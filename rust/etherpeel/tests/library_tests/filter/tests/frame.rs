//! Tests of what a capture says of a packet: which packets match, and where texts are refused.
use crate::checks::equal;
use etherpeel::ether_filter::{Decision, Filter, FilterError, FilterErrorKind, Packet, PacketTime};
use etherpeel::ether_peel::Start;
use crate::kit::Fail;

/// Ethernet II and the first bytes of a VLAN tag.
const CUT_IN_TAG: [u8; 16] = [
    0xFF, 0xFF, 0xFF, 0xFF, 0xFF, 0xFF, 0x02, 0x00, 0x00, 0x00, 0x00, 0x01, 0x81, 0x00, 0x00, 0x05,
];

/// A packet that was captured at these seconds and nanoseconds of Unix time.
fn packet(time: Option<(u64, u32)>) -> Packet<'static> {
    Packet {
        start: Start::Ethernet2,
        frame: &CUT_IN_TAG,
        captured_len: 16,
        original_len: 64,
        time: match time {
            Some((seconds, nanoseconds)) => Some(PacketTime {
                seconds,
                nanoseconds,
            }),
            None => None,
        },
    }
}

fn filter(text: &str) -> Result<Filter, Fail> {
    let filter = Filter::parse(text.as_bytes()).ok().ok_or("an expression")?;
    Ok(filter)
}

#[rustfmt::skip]
static LENGTHS: [(&str, bool); 14] = [
    ("frame.original == 64", true),
    ("frame.original != 64", false),
    ("frame.original > 63", true),
    ("frame.original > 64", false),
    ("frame.captured < 17 and frame.original >= 0x40", true),
    ("frame.captured <= 15", false),
    ("frame.captured == 64", false),
    ("frame.captured in {15, 16}", true),
    ("frame.original in {15, 16}", false),
    ("frame.original & 0xf0 == 0x40", true),
    ("frame.captured & 0xf0 == 0x40", false),
    ("frame.captured && frame.original", true),
    ("not frame.original", false),
    ("frame.original == 4294967295", false),
];

#[test]
fn packets_match_by_their_lengths() -> Result<(), Fail> {
    let rt = crate::kit::HostRuntime;
    for &(text, wanted) in &LENGTHS {
        equal!(rt, text;
            filter(text)?.matches(&packet(None)) => wanted,
            filter(text)?.matches(&packet(Some((0, 0)))) => wanted,
        );
    }
    Ok(())
}

/// Texts of times in their order, and those times as GNU date prints them: `date -d TEXT +%s`.
#[rustfmt::skip]
static TIMES: [(&str, u64, u32); 12] = [
    ("1970-01-01T00:00:00Z", 0, 0),
    ("1970-01-01T00:00:00.000000001Z", 0, 1),
    ("2000-02-29T23:59:59Z", 951_868_799, 0),
    ("2000-03-01T12:34:56Z", 951_914_096, 0),
    ("2024-02-29T00:00:00Z", 1_709_164_800, 0),
    ("2024-12-31T23:59:59.5Z", 1_735_689_599, 500_000_000),
    ("2026-11-01T00:00:00Z", 1_793_491_200, 0),
    ("2026-11-01T00:00:00.000250000Z", 1_793_491_200, 250_000),
    ("2026-11-01T00:00:00.25Z", 1_793_491_200, 250_000_000),
    ("2038-01-19T03:14:08Z", 2_147_483_648, 0),
    ("2100-03-01T00:00:00Z", 4_107_542_400, 0),
    ("2553-12-31T23:59:59Z", 18_429_292_799, 0),
];

#[test]
fn packets_match_by_their_times() -> Result<(), Fail> {
    let rt = crate::kit::HostRuntime;
    for (i, &(text, seconds, nanoseconds)) in TIMES.iter().enumerate() {
        for (j, &(other, _, _)) in TIMES.iter().enumerate() {
            let packet = packet(Some((seconds, nanoseconds)));
            for (relation, wanted) in [
                ("==", i == j),
                ("!=", i != j),
                ("<", i < j),
                ("<=", i <= j),
                (">", i > j),
                (">=", i >= j),
            ] {
                let words = format!("frame.time {relation} {other}");
                equal!(rt, text; filter(words.as_str())?.matches(&packet) => wanted);
                let quoted = format!("frame.time{relation}\"{other}\"");
                equal!(rt, text; filter(quoted.as_str())?.matches(&packet) => wanted);
            }
        }
    }
    Ok(())
}

#[rustfmt::skip]
static LATE: [(&str, bool, bool, bool); 5] = [
    // of a packet without a time, of one in 2026, and of one so late that 64 bits do not have its nanoseconds
    ("frame.time", false, true, true),
    ("frame.time >= 2026-11-01T00:00:00Z", false, true, true),
    ("frame.time > 2553-12-31T23:59:59.999999999Z", false, false, true),
    ("frame.time != 2026-11-01T00:00:00Z", false, false, true),
    ("frame.time in {2025-11-01T00:00:00Z, 2026-11-01T00:00:00Z}", false, true, false),
];

#[test]
fn a_packet_can_have_no_time_or_a_late_one() -> Result<(), Fail> {
    let rt = crate::kit::HostRuntime;
    for &(text, of_none, of_one, of_late) in &LATE {
        equal!(rt, text;
            filter(text)?.matches(&packet(None)) => of_none,
            filter(text)?.matches(&packet(Some((1_793_491_200, 0)))) => of_one,
            filter(text)?.matches(&packet(Some((u64::MAX, 999_999_999)))) => of_late,
        );
    }
    Ok(())
}

#[rustfmt::skip]
static TEXTS: [(&str, usize, FilterErrorKind); 26] = [
    ("frame.original == 4294967296", 18, FilterErrorKind::ExpectedNumber(4_294_967_295)),
    ("frame.captured == 00:01", 18, FilterErrorKind::ExpectedNumber(4_294_967_295)),
    ("frame.captured[0:1] == 1", 0, FilterErrorKind::ExpectedOperand),
    ("frame.captured 5", 15, FilterErrorKind::ExpectedRelationOrOperator),
    ("frame.link == 1", 0, FilterErrorKind::ExpectedOperand),
    ("frame", 0, FilterErrorKind::ExpectedOperand),
    ("frame.time == 5", 14, FilterErrorKind::ExpectedTime),
    ("frame.time ==", 13, FilterErrorKind::ExpectedTime),
    ("frame.time in {", 15, FilterErrorKind::ExpectedTime),
    ("frame.time[0:4] == 5", 0, FilterErrorKind::ExpectedOperand),
    ("vlan.vid == 2026-11-01T00:00:00Z", 12, FilterErrorKind::ExpectedNumber(4095)),
    ("2026-11-01T00:00:00Z", 0, FilterErrorKind::ExpectedOperand),
    ("frame.time == 2026-11-01", 14, FilterErrorKind::ExpectedTime),
    ("frame.time == 2026-11-01T00:00:00", 14, FilterErrorKind::ExpectedTime),
    ("frame.time == 2026-11-01t00:00:00Z", 14, FilterErrorKind::ExpectedTime),
    ("frame.time == 2026-11-01T00:00:00+01:00", 14, FilterErrorKind::ExpectedTime),
    ("frame.time == 2026-11-01T00:00:00.Z", 14, FilterErrorKind::ExpectedTime),
    ("frame.time == 2026-11-01T00:00:00.0000000000Z", 14, FilterErrorKind::ExpectedTime),
    ("frame.time == \"2026-11-01T00:00:00Z", 14, FilterErrorKind::ExpectedTime),
    ("frame.time == 2026-02-29T00:00:00Z", 14, FilterErrorKind::ExpectedTime),
    ("frame.time == 2100-02-29T00:00:00Z", 14, FilterErrorKind::ExpectedTime),
    ("frame.time == 2026-13-01T00:00:00Z", 14, FilterErrorKind::ExpectedTime),
    ("frame.time == 2026-11-31T00:00:00Z", 14, FilterErrorKind::ExpectedTime),
    ("frame.time == 2026-11-01T24:00:00Z", 14, FilterErrorKind::ExpectedTime),
    ("frame.time == 1969-12-31T23:59:59Z", 14, FilterErrorKind::ExpectedTime),
    ("frame.time == 2554-01-01T00:00:00Z", 14, FilterErrorKind::ExpectedTime),
];

#[test]
fn a_word_that_is_no_value_is_refused() {
    let rt = crate::kit::HostRuntime;
    for &(text, offset, kind) in &TEXTS {
        let refusal = Filter::parse(text.as_bytes()).err();
        equal!(rt, text; refusal => Some(FilterError { offset, kind }));
    }
}

#[rustfmt::skip]
static DECISIONS: [(&str, Decision); 6] = [
    ("frame.captured == 16", Decision::Matches),
    ("frame.original < 64", Decision::Fails),
    ("frame.time > 2026-11-01T00:00:00Z", Decision::Matches),
    ("vlan.vid == 5 and frame.captured > 16", Decision::Fails),
    ("vlan.vid == 6 and frame.time < 2026-11-02T00:00:00Z", Decision::Needs(17)),
    ("vlan.vid == 5 or frame.original == 64", Decision::Matches),
];

#[test]
fn what_a_capture_says_of_a_cut_packet_is_known() -> Result<(), Fail> {
    let rt = crate::kit::HostRuntime;
    let packet = packet(Some((1_793_491_201, 0)));
    for &(text, wanted) in &DECISIONS {
        let decision = filter(text)?.decide(&packet);
        equal!(rt, text; decision => wanted);
    }
    Ok(())
}
