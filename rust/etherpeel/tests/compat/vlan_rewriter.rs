//! A program for etherparse: it reads the headers of packets from a reader, changes their VLAN tags, and writes them.

use super::frames::{REQUEST, SEC_TAG, TWO_TAGS};
use etherparse::err::ReadError;
use etherparse::*;
use std::io::{Cursor, Read, Write};

/// Copies a packet, with another identifier in its outermost VLAN tag, or with a tag put in.
fn set_vlan<R: Read + std::io::Seek, W: Write>(reader: &mut R, writer: &mut W, id: VlanId) -> Result<(), ReadError> {
    let mut link = Ethernet2Header::read(reader)?;
    let tag = if VlanHeader::VLAN_ETHER_TYPES.contains(&link.ether_type) {
        let mut tag = SingleVlanHeader::read(reader)?;
        tag.vlan_id = id;
        tag
    } else {
        let ether_type = link.ether_type;
        link.ether_type = ether_type::VLAN_TAGGED_FRAME;
        SingleVlanHeader { pcp: VlanPcp::ZERO, drop_eligible_indicator: false, vlan_id: id, ether_type }
    };
    link.write(writer)?;
    tag.write(writer)?;
    std::io::copy(reader, writer)?;
    Ok(())
}

/// The packet without its VLAN tags.
fn untagged(packet: &[u8]) -> Result<Vec<u8>, err::FromSliceError> {
    let (mut link, mut rest) = Ethernet2Header::from_slice(packet)?;
    while VlanHeader::VLAN_ETHER_TYPES.contains(&link.ether_type) {
        let (tag, after) = SingleVlanHeader::from_slice(rest)?;
        link.ether_type = tag.ether_type;
        rest = after;
    }
    let mut result = Vec::with_capacity(packet.len());
    link.write(&mut result).unwrap();
    result.extend_from_slice(rest);
    Ok(result)
}

/// The packet number and the association number of a packet's SecTag.
fn sec_tag<R: Read + std::io::Seek>(reader: &mut R) -> Result<(u32, MacsecAn), ReadError> {
    let link = Ethernet2Header::read(reader)?;
    assert_eq!(EtherType::MACSEC, link.ether_type);
    match MacsecHeader::read(reader) {
        Ok(tag) => Ok((tag.packet_nr, tag.an)),
        Err(err::macsec::HeaderReadError::Io(error)) => Err(ReadError::Io(error)),
        Err(err::macsec::HeaderReadError::Content(error)) => Err(ReadError::Macsec(error)),
    }
}

#[test]
fn changed_and_added() -> Result<(), ReadError> {
    // SAFETY: 300 is below 4096. The call is safe here, where it checks.
    #[allow(unused_unsafe)]
    let id = unsafe { VlanId::new_unchecked(300) };
    let mut result = Vec::new();
    set_vlan(&mut Cursor::new(&TWO_TAGS[..]), &mut result, id)?;
    assert_eq!(result[..14], TWO_TAGS[..14]);
    assert_eq!(result[14..18], [0xD1, 0x2C, 0x81, 0x00]);
    assert_eq!(result[18..], TWO_TAGS[18..]);

    let mut result = Vec::new();
    set_vlan(&mut Cursor::new(&REQUEST[..]), &mut result, id)?;
    assert_eq!(result[..12], REQUEST[..12]);
    assert_eq!(result[12..18], [0x81, 0x00, 0x01, 0x2C, 0x08, 0x06]);
    assert_eq!(result[18..], REQUEST[14..]);
    Ok(())
}

#[test]
fn taken_off() -> Result<(), err::FromSliceError> {
    assert_eq!(untagged(&TWO_TAGS)?, [&TWO_TAGS[..12], &[0x08, 0x00, 0x45, 0x00]].concat());
    assert_eq!(untagged(&REQUEST)?, REQUEST);
    let error = untagged(&TWO_TAGS[..20]).unwrap_err();
    assert_eq!(error.len().map(|it| (it.required_len, it.len)), Some((4, 2)));
    Ok(())
}

#[test]
fn of_a_sec_tag() -> Result<(), ReadError> {
    assert_eq!(sec_tag(&mut Cursor::new(&SEC_TAG[..]))?, (0xB2C2_8465, MacsecAn::try_new(2).unwrap()));
    let error = sec_tag(&mut Cursor::new(&SEC_TAG[..29])).unwrap_err();
    assert_eq!(error.io().map(|it| it.kind()), Some(std::io::ErrorKind::UnexpectedEof));
    Ok(())
}

#[test]
fn cut_short() {
    let mut result = Vec::new();
    let error = set_vlan(&mut Cursor::new(&TWO_TAGS[..17]), &mut result, VlanId::ZERO).unwrap_err();
    assert_eq!(error.io().map(|it| it.kind()), Some(std::io::ErrorKind::UnexpectedEof));
    assert!(result.is_empty());
}
