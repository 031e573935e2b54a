//! The texts of values.
use super::{equal, fault_at};
use crate::peel::plain::PlainRefusal;
use crate::peel::test_frames::{NAMED, TAGGED};
use etherpeel::ether_peel::{Feed, Peel, RestKind, Start, Summary};
use etherpeel::err::Layer;
use etherpeel::{LenSource, LinuxSllProtocolType};
use crate::kit::Fail;

/// A fault by its offset, whether the window is closed, and why it is refused; the text of the error, and what `Debug`
/// shows of the fault.
type Row = (usize, bool, PlainRefusal, &'static str, &'static str);

#[rustfmt::skip]
static FAULTS: [Row; 6] = [
    (18, false, too_short!(4, 2, LenSource::Slice, Layer::VlanHeader),
        "VLAN Header Error: Not enough data to decode 'VLAN header'. 4 byte(s) would be required, but only 2 byte(s) are available based on the slice length ('VLAN header' starts at overall parsed byte 18).",
        "PeelFault { offset: 18, closed: false, error: Len(LenError { required_len: 4, len: 2, len_source: Slice, layer: VlanHeader, layer_start_offset: 18 }) }"),
    (0, true, too_short!(18, 17, LenSource::Slice, Layer::Ethernet2Header),
        "Ethernet 2 Header Error: Not enough data to decode 'Ethernet 2 header'. 18 byte(s) would be required, but only 17 byte(s) are available based on the slice length.",
        "PeelFault { offset: 0, closed: true, error: Len(LenError { required_len: 18, len: 17, len_source: Slice, layer: Ethernet2Header, layer_start_offset: 0 }) }"),
    (0, false, PlainRefusal::PacketType(8),
        "Linux cooked capture v1 (SLL) Header Error: Encountered '8' as the packet type, but its not supported.",
        "PeelFault { offset: 0, closed: false, error: LinuxSll(UnsupportedPacketTypeField { packet_type: 8 }) }"),
    (0, false, PlainRefusal::HardwareType(257),
        "Linux cooked capture v1 (SLL)  Header Error:  Encountered '257 (CSLIP)' as the ARP harware type, but its not supported.",
        "PeelFault { offset: 0, closed: false, error: LinuxSll(UnsupportedArpHardwareId { arp_hardware_type: 257 (CSLIP) }) }"),
    (2048, true, PlainRefusal::Version,
        "MACsec Header Error: \
            Encountered '1' as MACsec version in the MACsec SecTag header (must be '0').",
        "PeelFault { offset: 2048, closed: true, error: Macsec(UnexpectedVersion) }"),
    (22, true, PlainRefusal::ShortLen,
        "MACsec Header Error: \
            Encountered '1' as MACsec short len in an unmodified packet (must be '0' or '2' or greater).",
        "PeelFault { offset: 22, closed: true, error: Macsec(InvalidUnmodifiedShortLen) }"),
];

#[test]
fn a_fault_names_its_offset_and_its_cause() -> Result<(), Fail> {
    let rt = crate::kit::HostRuntime;
    for &(offset, closed, refusal, text, debug) in &FAULTS {
        let fault = fault_at(offset, closed, refusal);
        let shown = format!("{fault}\n{fault:?}");
        let wanted = format!("at offset {offset}: {text}\n{debug}");
        equal!(rt, text; shown.as_str() => wanted.as_str());
    }
    Ok(())
}

#[test]
fn debug_shows_kinds_starts_and_summaries() -> Result<(), Fail> {
    let rt = crate::kit::HostRuntime;
    let kinds = [
        RestKind::Start,
        RestKind::Sll(LinuxSllProtocolType::Ignored(5)),
        RestKind::Sealed,
        RestKind::AfterArp,
    ];
    let starts = [Start::Ethernet2Fcs, with_type!(5)];
    let summary = Summary {
        units: 2,
        rest_start: 18,
        rest_end: 20,
        kind: RestKind::Sealed,
        fault: None,
    };
    let feed = Feed {
        refusals: 4,
        taken: 26,
        fault: None,
    };
    let shown = format!("{:?}", (kinds, starts, summary, feed));
    equal!(rt, "kinds, starts, a summary and a feed";
        shown.as_str()
            => "([Start, Sll(Ignored(5)), Sealed, AfterArp], [Ethernet2Fcs, EtherType(0x0005)], \
Summary { units: 2, rest_start: 18, rest_end: 20, kind: Sealed, fault: None }, \
Feed { refusals: 4, taken: 26, fault: None })",
    );
    Ok(())
}

#[test]
fn debug_shows_units() -> Result<(), Fail> {
    let rt = crate::kit::HostRuntime;
    let mut peel = Peel::new(Start::Ethernet2, &TAGGED);
    peel.next();
    let tag = peel.next();
    let sec_tag = Peel::new(with_type!(0x88E5), &NAMED).next();
    let shown = format!("{tag:?}\n{sec_tag:?}");
    equal!(rt, "a tag and a SecTag";
        shown.as_str()
            => "Some(Ok(Vlan(SingleVlanSlice { header: SingleVlanHeader { pcp: VlanPcp(5), drop_eligible_indicator: true, vlan_id: VlanId(291), ether_type: 0x0800 (Internet Protocol version 4 (IPv4)) }, payload: EtherPayloadSlice { ether_type: 0x0800 (Internet Protocol version 4 (IPv4)), len_source: Slice, payload: [] } })))\n\
Some(Ok(Macsec(MacsecSlice { header: MacsecHeaderSlice { slice: [0, 6, 0, 0, 0, 1, 129, 0] }, payload: Unmodified(EtherPayloadSlice { ether_type: 0x8100 (Customer VLAN Tag (C-TAG) as defined in IEEE Std 802.1Q), len_source: MacsecShortLength, payload: [170, 187, 204, 221] }) })))",
    );
    Ok(())
}
