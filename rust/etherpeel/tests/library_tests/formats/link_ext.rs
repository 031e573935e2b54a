//! The extensions of a link, and payloads of both kinds.
use super::{Protocol, equal, ipv4, protocol_type};
use crate::test_frames::{NAMED, SEALED, TAG};
use etherpeel::{
    EtherPayloadSlice, EtherType, LenSource, LinkExtHeader, LinkExtSlice, LinuxSllPayloadSlice,
    LinuxSllProtocolType, MacsecHeader, MacsecSlice, SingleVlanHeader, SingleVlanSlice,
};
use crate::kit::Abort;
use crate::kit::Fail;

/// The extension has this header, and this payload.
fn is_ext(
    rt: &impl Abort,
    name: &str,
    view: &LinkExtSlice<'_>,
    len: usize,
    header: LinkExtHeader,
    payload: Option<EtherPayloadSlice<'_>>,
) {
    equal!(rt, name;
        view.header_len() => len,
        view.to_header() => header,
        header.header_len() => len,
        view.ether_payload() => payload,
    );
}

#[test]
fn an_extension_has_the_header_and_the_payload_of_its_tag() -> Result<(), Fail> {
    let rt = crate::kit::HostRuntime;
    let vlan = LinkExtSlice::Vlan(SingleVlanSlice::from_slice(&TAG)?);
    let header = SingleVlanHeader::from_bytes([0xB1, 0x23, 0x08, 0x00]);
    let header = LinkExtHeader::Vlan(header);
    is_ext(&rt, "a VLAN tag", &vlan, 4, header, Some(ipv4(&[0x45])));
    let named = LinkExtSlice::Macsec(MacsecSlice::from_slice(&NAMED)?);
    let header = LinkExtHeader::Macsec(MacsecHeader::from_slice(&NAMED)?);
    let payload = EtherPayloadSlice {
        ether_type: EtherType(0x8100),
        len_source: LenSource::MacsecShortLength,
        payload: &[0xAA, 0xBB, 0xCC, 0xDD],
    };
    is_ext(&rt, "a SecTag", &named, 8, header, Some(payload));
    Ok(())
}

#[test]
fn debug_shows_extensions() -> Result<(), Fail> {
    let rt = crate::kit::HostRuntime;
    let sealed = LinkExtSlice::Macsec(MacsecSlice::from_slice(&SEALED)?);
    let header = sealed.to_header();
    let shown = format!("{:?}", (header, sealed));
    equal!(rt, "an encrypted payload";
        header.header_len() => 14,
        shown.as_str()
            => "(Macsec(MacsecHeader { ptype: Encrypted, endstation_id: false, scb: false, an: MacsecAn(0), short_len: MacsecShortLen(0), packet_nr: 1, sci: Some(4822678189205111) }), \
Macsec(MacsecSlice { header: MacsecHeaderSlice { slice: [44, 192, 0, 0, 0, 1, 0, 17, 34, 51, 68, 85, 102, 119] }, payload: Modified([153]) }))",
    );
    Ok(())
}

/// A payload of cooked capture.
const fn sll(protocol_type: LinuxSllProtocolType) -> LinuxSllPayloadSlice<'static> {
    LinuxSllPayloadSlice {
        protocol_type,
        payload: &[0xAA],
    }
}

/// Payloads of cooked capture, and the ether types of those that have one.
static PAYLOADS: [(&str, Protocol, u16, Option<EtherType>); 6] = [
    (
        "the example",
        Protocol::EtherType,
        0x0800,
        Some(EtherType::IPV4),
    ),
    (
        "a VLAN tag",
        Protocol::EtherType,
        0x8100,
        Some(EtherType(0x8100)),
    ),
    (
        "a nonstandard number",
        Protocol::Dummy,
        1,
        Some(EtherType(1)),
    ),
    ("netlink", Protocol::Netlink, 1, None),
    ("GRE", Protocol::Gre, 0x0800, None),
    ("an ignored number", Protocol::Ignored, 1, None),
];

#[test]
fn payloads_of_both_kinds_convert_into_one_another() {
    let rt = crate::kit::HostRuntime;
    for &(name, protocol, number, ether_type) in &PAYLOADS {
        let payload = sll(protocol_type(protocol, number));
        let wanted = match ether_type {
            Some(ether_type) => Ok(EtherPayloadSlice {
                ether_type,
                len_source: LenSource::Slice,
                payload: [0xAA].as_slice(),
            }),
            None => Err(()),
        };
        equal!(rt, name; EtherPayloadSlice::try_from(payload) => wanted);
    }
    let named = LinuxSllPayloadSlice::from(EtherPayloadSlice {
        ether_type: EtherType(0x8100),
        len_source: LenSource::MacsecShortLength,
        payload: &[0xAA],
    });
    equal!(rt, "the source is lost";
        named => sll(LinuxSllProtocolType::EtherType(EtherType(0x8100))),
    );
}
