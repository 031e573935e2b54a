//! A program for etherparse: it answers ARP requests, tagged or not (RFC 826, "Packet Reception").

use super::frames::{REPLY, REQUEST, TWO_TAGS, X, Y, Y_IP};
use etherparse::*;
use std::error::Error;

/// The answer to an ARP request for an address, if the packet is one.
fn answer(packet: &[u8], mac: [u8; 6], ipv4: [u8; 4]) -> Result<Option<Vec<u8>>, Box<dyn Error>> {
    let sliced = SlicedPacket::from_ethernet(packet)?;
    let arp = match &sliced.net {
        Some(NetSlice::Arp(arp)) => arp.to_packet(),
        _ => return Ok(None),
    };
    let request = match ArpEthIpv4Packet::try_from(arp) {
        Ok(request) if request.operation == ArpOperation::REQUEST && request.target_ipv4 == ipv4 => request,
        _ => return Ok(None),
    };
    let reply = ArpPacket::new(
        ArpHardwareId::ETHERNET,
        EtherType::IPV4,
        ArpOperation::REPLY,
        &mac,
        &ipv4,
        &request.sender_mac,
        &request.sender_ipv4,
    )?;
    let builder = PacketBuilder::ethernet2(mac, request.sender_mac);
    let builder = match sliced.vlan() {
        None => builder.arp(reply),
        Some(vlan) => builder.vlan(vlan.to_header()).arp(reply),
    };
    let mut result = Vec::<u8>::with_capacity(builder.size());
    builder.write(&mut result)?;
    Ok(Some(result))
}

#[test]
fn request_and_reply() -> Result<(), Box<dyn Error>> {
    assert_eq!(answer(&REQUEST, Y, Y_IP)?.as_deref(), Some(&REPLY[..]));
    // The reply is no request, and nobody else is asked.
    assert_eq!(answer(&REPLY, X, [192, 0, 2, 10])?, None);
    assert_eq!(answer(&REQUEST, Y, [192, 0, 2, 12])?, None);
    assert_eq!(answer(&TWO_TAGS, Y, Y_IP)?, None);
    assert!(answer(&REQUEST[..41], Y, Y_IP).is_err());
    Ok(())
}

/// The request with tags before its ether type.
fn tagged(tags: &[u8]) -> Vec<u8> {
    [&REQUEST[..12], tags, &REQUEST[12..]].concat()
}

#[test]
fn with_tags() -> Result<(), Box<dyn Error>> {
    let one = [0x81, 0x00, 0x60, 0x64];
    let two = [0x88, 0xA8, 0x03, 0xE8, 0x81, 0x00, 0x00, 0x64];
    for tags in [&one[..], &two] {
        let wanted = [&REPLY[..12], tags, &REPLY[12..]].concat();
        assert_eq!(answer(&tagged(tags), Y, Y_IP)?, Some(wanted));
    }
    Ok(())
}

/// A gratuitous request, by the chain alone.
#[test]
fn announced() -> Result<(), Box<dyn Error>> {
    let announcement =
        ArpPacket::new(ArpHardwareId::ETHERNET, EtherType::IPV4, ArpOperation(1), &X, &Y_IP, &[0; 6], &Y_IP)?;
    let mut result = Vec::new();
    PacketBuilder::ethernet2(X, [0xFF; 6]).single_vlan(100u16.try_into()?).arp(announcement).write(&mut result)?;
    assert_eq!(result[12..18], [0x81, 0x00, 0x00, 0x64, 0x08, 0x06]);
    assert_eq!(result[18..40], [0, 1, 8, 0, 6, 4, 0, 1, 2, 0, 0, 0, 0, 10, 192, 0, 2, 11, 0, 0, 0, 0]);
    assert_eq!(result.len(), 14 + 4 + 28);
    Ok(())
}
