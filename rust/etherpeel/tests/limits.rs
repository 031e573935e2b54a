//! What is just within a limit is taken, and what is just beyond is not. Written by hand, for `rust/faults.py`: in the
//! sources proofs say it.
use arrayvec::ArrayVec;
use etherpeel::err::arp::{ArpHwAddrError, ArpProtoAddrError};
use etherpeel::ether_filter::Filter;
use etherpeel::ether_pcap::{CaptureInterface, CapturePackets, CaptureReader, PcapRecord};
use etherpeel::{ArpHardwareId, ArpOperation, ArpPacket, EtherType};

#[test]
fn addresses_of_an_arp_packet() {
    let (most, more, short) = ([7; 255], [7; 256], [1, 2, 3, 4]);
    let new = |hw: &[u8], proto: &[u8]| {
        ArpPacket::new(ArpHardwareId::ETHERNET, EtherType::IPV4, ArpOperation::REQUEST, hw, proto, hw, proto)
    };
    assert!(new(&most, &most).is_ok() && new(&more, &short).is_err() && new(&short, &more).is_err());
    let mut packet = new(&short, &short).unwrap();
    assert_eq!(packet.set_hw_addrs(&most, &most), Ok(()));
    assert_eq!(packet.set_protocol_addrs(&most, &most), Ok(()));
    assert_eq!(Ok(packet.clone()), new(&most, &most).map_err(|_| ()));
    assert_eq!(packet.set_hw_addrs(&more, &more), Err(ArpHwAddrError::LenTooBig(256)));
    assert_eq!(packet.set_protocol_addrs(&more, &more), Err(ArpProtoAddrError::LenTooBig(256)));
}

#[test]
fn ethernet_addresses_of_a_filter() {
    let text = b"ether dst 01:80:c2:00:00:0e";
    assert!(Filter::parse(text).is_ok());
    for at in [12, 15, 18, 21, 24] {
        let mut other = *text;
        other[at] = b'0';
        assert!(Filter::parse(&other).is_err(), "no colon at {at}");
    }
}

#[test]
fn captured_bytes_of_an_edited_unit() {
    const MOST: usize = PcapRecord::MAX_CAPTURED_LEN as usize;
    let file = [
        0xA1, 0xB2, 0xC3, 0xD4, 0x00, 0x02, 0x00, 0x04, 0x00, 0x00, 0x00, 0x00, // file header
        0x00, 0x00, 0x00, 0x00, 0x00, 0x00, 0xFF, 0xFF, 0x00, 0x00, 0x00, 0x01, //
        0x00, 0x00, 0x00, 0x01, 0x00, 0x00, 0x00, 0x02, 0x00, 0x00, 0x00, 0x01, 0x00, 0x00, 0x00, 0x01,
        0xFF, // record
    ];
    let mut reader = CaptureReader::new(ArrayVec::<CaptureInterface, 1>::new());
    assert!(reader.read(&file).is_ok());
    let packet = vec![0; MOST + 1];
    assert!(reader.edit_unit(&file[24..], &packet[..MOST], MOST as u64).is_some());
    assert!(reader.edit_unit(&file[24..], &packet, MOST as u64 + 1).is_none());
}

/// The number is a part of the documentation: it is what a caller has on the stack.
#[cfg(target_pointer_width = "64")]
#[test]
fn size_of_the_packets_of_a_capture() {
    assert_eq!(size_of::<CapturePackets>(), 98_360);
    assert!(size_of::<CaptureReader<ArrayVec<CaptureInterface, 16>>>() < 512);
}
