//! `read` and `write`.

use super::frames::{COOKED, REQUEST, SEC_TAG, TWO_TAGS};
use etherpeel::err::macsec::{HeaderError, HeaderReadError};
use etherpeel::err::{ReadError, linux_sll};
use etherpeel::{ArpPacket, Ethernet2Header, LinkHeader, LinuxSllHeader, MacsecHeader, SingleVlanHeader};
use std::io::{self, ErrorKind};

/// What `write` has written.
fn written(write: impl FnOnce(&mut Vec<u8>) -> io::Result<()>) -> Vec<u8> {
    let mut bytes = Vec::new();
    write(&mut bytes).unwrap();
    bytes
}

/// Reads nothing after the header, refuses each cut of it, and writes what was read.
#[test]
fn ethernet_and_vlan() {
    let mut reader = &TWO_TAGS[..];
    let link = Ethernet2Header::read(&mut reader).unwrap();
    let tag = SingleVlanHeader::read(&mut reader).unwrap();
    assert_eq!(reader, &TWO_TAGS[18..]);
    assert_eq!(link, Ethernet2Header::from_slice(&TWO_TAGS).unwrap().0);
    assert_eq!((tag.vlan_id.value(), tag.pcp.value(), tag.drop_eligible_indicator), (1000, 6, true));
    assert_eq!(written(|it| link.write(it)), TWO_TAGS[..14]);
    assert_eq!(written(|it| LinkHeader::Ethernet2(link).write(it)), TWO_TAGS[..14]);
    assert_eq!(written(|it| tag.write(it)), TWO_TAGS[14..18]);
    for len in 0..14 {
        let error = Ethernet2Header::read(&mut &TWO_TAGS[..len]).unwrap_err();
        assert_eq!(error.kind(), ErrorKind::UnexpectedEof);
    }
    assert_eq!(SingleVlanHeader::read(&mut &[0; 3][..]).unwrap_err().kind(), ErrorKind::UnexpectedEof);
    assert_eq!(link.write(&mut &mut [0; 13][..]).unwrap_err().kind(), ErrorKind::WriteZero);
    assert_eq!(tag.write(&mut &mut [0; 3][..]).unwrap_err().kind(), ErrorKind::WriteZero);
}

#[test]
fn cooked_capture() {
    let mut reader = &COOKED[..];
    let link = LinuxSllHeader::read(&mut reader).unwrap();
    assert_eq!(reader, [0x45]);
    assert_eq!(link, LinuxSllHeader::from_slice(&COOKED).unwrap().0);
    assert_eq!(written(|it| link.write(it)), COOKED[..16]);
    assert_eq!(written(|it| LinkHeader::LinuxSll(link).write(it)), COOKED[..16]);
    let error = LinuxSllHeader::read(&mut &COOKED[..15]).unwrap_err();
    assert_eq!(error.io().map(|it| it.kind()), Some(ErrorKind::UnexpectedEof));
    let mut hardware = COOKED;
    hardware[2..4].copy_from_slice(&[1, 1]);
    let error = LinuxSllHeader::read(&mut &hardware[..]).unwrap_err();
    assert!(matches!(error, ReadError::LinuxSll(linux_sll::HeaderError::UnsupportedArpHardwareId { .. })));
}

/// A SecTag of each length: 6, 8, 14 and 16 bytes.
#[test]
fn sec_tags() {
    for (control, header_len) in [(0x0C, 6), (0x00, 8), (0x2C, 14), (0x22, 16)] {
        let mut bytes = SEC_TAG[14..].to_vec();
        bytes[0] = control;
        let mut reader = &bytes[..];
        let tag = MacsecHeader::read(&mut reader).unwrap();
        assert_eq!(reader, &bytes[header_len..]);
        assert_eq!(tag, MacsecHeader::from_slice(&bytes).unwrap());
        assert_eq!(written(|it| tag.write(it)), bytes[..header_len]);
        for len in 0..header_len {
            let error = MacsecHeader::read(&mut &bytes[..len]).unwrap_err();
            assert_eq!(error.io_error().map(|it| it.kind()), Some(ErrorKind::UnexpectedEof));
        }
    }
}

#[test]
fn refused_sec_tags() {
    let version = MacsecHeader::read(&mut &[0x80, 0, 0, 0, 0, 0][..]).unwrap_err();
    assert!(matches!(&version, HeaderReadError::Content(HeaderError::UnexpectedVersion)));
    assert_eq!(version.content_error(), Some(HeaderError::UnexpectedVersion));
    let short_len = MacsecHeader::read(&mut &[0x00, 1, 0, 0, 0, 0][..]).unwrap_err();
    assert_eq!(short_len.content_error(), Some(HeaderError::InvalidUnmodifiedShortLen));
    let cut = MacsecHeader::read(&mut &[0x80][..]).unwrap_err();
    assert!(cut.content_error().is_none());
    let version = MacsecHeader::read(&mut &[0x80, 0, 0, 0, 0, 0][..]).unwrap_err();
    assert!(version.io_error().is_none());
}

#[test]
fn arp() {
    let mut reader = &REQUEST[14..];
    let packet = ArpPacket::read(&mut reader).unwrap();
    assert_eq!(reader, [0; 18]);
    assert_eq!(packet, ArpPacket::from_slice(&REQUEST[14..]).unwrap());
    assert_eq!(written(|it| packet.write(it)), REQUEST[14..42]);
    for len in 0..28 {
        let error = ArpPacket::read(&mut &REQUEST[14..14 + len]).unwrap_err();
        assert_eq!(error.kind(), ErrorKind::UnexpectedEof);
    }
    let mut longest = vec![0xFF; 1028];
    assert_eq!(ArpPacket::read(&mut &longest[..]).unwrap().packet_len(), 1028);
    longest[4..6].copy_from_slice(&[0, 0]);
    let mut reader = &longest[..];
    assert_eq!(ArpPacket::read(&mut reader).unwrap().packet_len(), 8);
    assert_eq!(reader.len(), 1020);
}
