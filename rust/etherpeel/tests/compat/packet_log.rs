//! A program for etherparse: it describes packets.

use super::frames::{COOKED, REQUEST, SEC_TAG, TWO_TAGS};
use etherparse::*;
use std::error::Error;

/// What a packet is, on one line.
fn describe(packet: &[u8]) -> Result<String, Box<dyn Error>> {
    let value = SlicedPacket::from_ethernet(packet)?;
    let mut words = Vec::new();
    match &value.link {
        Some(LinkSlice::Ethernet2(eth)) => words.push(format!("from {:x?} to {:x?}", eth.source(), eth.destination())),
        Some(LinkSlice::LinuxSll(sll)) => words.push(format!("cooked {:?}", sll.packet_type())),
        Some(LinkSlice::EtherPayload(_)) | Some(LinkSlice::LinuxSllPayload(_)) | None => {}
    }
    for ext in &value.link_exts {
        match ext {
            LinkExtSlice::Vlan(vlan) => words.push(format!("vlan {}", vlan.vlan_identifier())),
            LinkExtSlice::Macsec(macsec) => words.push(format!("macsec packet {}", macsec.header.packet_nr())),
        }
    }
    match value.net {
        Some(NetSlice::Arp(ref arp)) => words.push(format!("arp {}", arp.operation().0)),
        _ => words.push(format!("{:?}", value.payload_ether_type())),
    }
    if let Some(transport) = &value.transport {
        words.push(format!("{transport:?}"));
    }
    Ok(words.join(", "))
}

/// What a packet is, as far as it goes.
fn describe_cut(packet: &[u8]) -> Result<String, err::LenError> {
    let value = LaxSlicedPacket::from_ethernet(packet)?;
    let mut words: Vec<String> = value
        .link_exts
        .iter()
        .map(|ext| match ext {
            LaxLinkExtSlice::Vlan(vlan) => format!("vlan {}", vlan.vlan_identifier().value()),
            LaxLinkExtSlice::Macsec(macsec) => match &macsec.payload {
                LaxMacsecPayloadSlice::Unmodified(e) => format!("macsec, incomplete: {}", e.incomplete),
                LaxMacsecPayloadSlice::Modified { incomplete, payload } => {
                    format!("sealed macsec of {} bytes, incomplete: {incomplete}", payload.len())
                }
            },
        })
        .collect();
    if let Some(LaxNetSlice::Arp(arp)) = &value.net {
        words.push(format!("arp for {:?}", arp.target_protocol_addr()));
    }
    if let Some((error, layer)) = &value.stop_err {
        words.push(match error {
            err::packet::SliceError::Len(len) => format!("{layer} needs {} bytes", len.required_len),
            error => format!("{layer}: {error}"),
        });
    }
    Ok(words.join(", "))
}

/// The texts of an error, and of each that it stems from.
fn chain(error: &dyn Error) -> Vec<String> {
    let mut texts = vec![error.to_string()];
    let mut next = error.source();
    while let Some(error) = next {
        texts.push(error.to_string());
        next = error.source();
    }
    texts
}

#[test]
fn whole_packets() -> Result<(), Box<dyn Error>> {
    let lines = [&REQUEST[..], &SEC_TAG, &TWO_TAGS].map(describe);
    let wanted = [
        "from [2, 0, 0, 0, 0, a] to [ff, ff, ff, ff, ff, ff], arp 1",
        "from [7a, d, 46, df, 99, 8d] to [d6, 9, b1, f0, 56, 63], macsec packet 2999092325, \
         Some(0x0800 (Internet Protocol version 4 (IPv4)))",
        "from [2, 0, 0, 0, 0, a] to [2, 0, 0, 0, 0, b], vlan 1000, vlan 100, \
         Some(0x0800 (Internet Protocol version 4 (IPv4)))",
    ];
    for (line, wanted) in lines.into_iter().zip(wanted) {
        assert_eq!(line?, wanted);
    }
    Ok(())
}

#[test]
fn refused_packets() {
    let error = describe(&TWO_TAGS[..20]).unwrap_err();
    let text = "VLAN Header Error: Not enough data to decode 'VLAN header'. 4 byte(s) would be required, but only 2 \
                byte(s) are available based on the slice length ('VLAN header' starts at overall parsed byte 18).";
    assert_eq!(chain(&*error), [text, text]);

    let mut version = SEC_TAG;
    version[14] |= 0x80;
    let error = describe(&version).unwrap_err();
    let text = "MACsec Header Error: Encountered '1' as MACsec version in the MACsec SecTag header (must be '0').";
    assert_eq!(chain(&*error), [text, text]);
}

#[test]
fn cut_packets() -> Result<(), err::LenError> {
    assert_eq!(describe_cut(&TWO_TAGS[..20])?, "vlan 1000, VLAN header needs 4 bytes");
    assert_eq!(describe_cut(&SEC_TAG[..50])?, "macsec, incomplete: true");
    assert_eq!(describe_cut(&SEC_TAG)?, "macsec, incomplete: false");
    assert_eq!(describe_cut(&SEC_TAG[..20])?, "MACsec header needs 16 bytes");
    assert_eq!(describe_cut(&REQUEST)?, "arp for [192, 0, 2, 11]");
    assert_eq!(describe_cut(&REQUEST[..30])?, "Address Resolution Protocol packet needs 28 bytes");
    let mut sealed = SEC_TAG;
    sealed[14] |= 0x0C;
    assert_eq!(describe_cut(&sealed[..50])?, "sealed macsec of 22 bytes, incomplete: true");
    assert_eq!(describe_cut(&REQUEST[..13]).unwrap_err().required_len, 14);
    Ok(())
}

#[test]
fn cooked_packets() -> Result<(), Box<dyn Error>> {
    let value = SlicedPacket::from_linux_sll(&COOKED)?;
    if let Some(LinkSlice::LinuxSll(sll)) = &value.link {
        assert_eq!(sll.packet_type(), LinuxSllPacketType::HOST);
        assert_eq!(sll.sender_address(), [2, 0, 0, 0, 0, 10]);
    } else {
        panic!("{:?}", value.link);
    }
    assert_eq!(value.payload_ether_type(), Some(EtherType::IPV4));
    assert_eq!(value.ether_payload().map(|it| it.payload), Some(&[0x45][..]));
    Ok(())
}
