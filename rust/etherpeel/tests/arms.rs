//! What an arm of a choice gives. Written by hand, for `rust/faults.py`: in the sources proofs say it.
use arrayvec::ArrayVec;
use etherpeel::ether_content::PacketEdit;
use etherpeel::ether_pcap::{CaptureInterface, CaptureReader, CapturedPacket, CopyMode};
use etherpeel::{EtherType, LenSource, MacsecSlice, VlanId};

#[test]
fn growth_of_an_edit() {
    let (tpid, vlan_id) = (EtherType::VLAN_TAGGED_FRAME, VlanId::try_new(5).unwrap());
    assert_eq!(PacketEdit::PushVlan { tpid, vlan_id }.growth(), 4);
    for edit in [PacketEdit::CutToHeaders, PacketEdit::PopVlan, PacketEdit::SetVlan { from: vlan_id, to: vlan_id }] {
        assert_eq!(edit.growth(), 0);
    }
}

#[test]
fn source_of_the_length_of_a_sec_tag() {
    for (short_len, source) in [(0, LenSource::Slice), (3, LenSource::MacsecShortLength)] {
        let tag = [0x00, short_len, 0, 0, 0, 1, 0x08, 0x00, 0x45];
        let payload = MacsecSlice::from_slice(&tag).unwrap().ether_payload().unwrap();
        assert_eq!((payload.payload, payload.len_source), (&[0x45][..], source));
    }
}

/// A section of big-endian numbers, an interface of Ethernet, and an enhanced packet of no bytes with these options.
fn section(options: &[u8]) -> Vec<u8> {
    let total_len = (32 + options.len() as u32).to_be_bytes();
    let front = [
        0x0A, 0x0D, 0x0D, 0x0A, 0, 0, 0, 28, 0x1A, 0x2B, 0x3C, 0x4D, 0, 1, 0, 0, // section header
        0xFF, 0xFF, 0xFF, 0xFF, 0xFF, 0xFF, 0xFF, 0xFF, 0, 0, 0, 28, //
        0, 0, 0, 1, 0, 0, 0, 20, 0, 1, 0, 0, 0, 0, 0, 0, 0, 0, 0, 20, // interface description
        0, 0, 0, 6, // enhanced packet
    ];
    let fields = [0; 20]; // interface 0, time 0, no bytes of none
    [&front[..], &total_len, &fields, options, &total_len].concat()
}

/// The reader and the packet after the units of a section.
fn read(file: &[u8]) -> (CaptureReader<ArrayVec<CaptureInterface, 1>>, CapturedPacket<'_>) {
    let mut reader = CaptureReader::new(ArrayVec::new());
    assert!(reader.read(file).is_ok() && reader.read(&file[28..]).is_ok());
    let unit = reader.read(&file[48..]).unwrap();
    (reader, unit.packet.unwrap())
}

#[test]
fn packets_of_no_bytes() {
    let file = section(&[]);
    let (reader, packet) = read(&file);
    assert!(reader.copies_packet(CopyMode::Exact, &file[48..], &packet));
    assert!(reader.edit_unit(&file[48..], &[1, 2, 3, 4], 4).is_some());
}

#[test]
fn flags_of_a_packet() {
    // epb_flags (pcapng, 4.3.1) with 4 in the bits for the length of the frame check sequence, and another option
    let flags = [0, 2, 0, 4, 0, 0, 0, 0x80];
    let other = [0, 3, 0, 4, 0, 0, 0, 0x80];
    assert_eq!(read(&section(&flags)).1.fcs_len, Some(4));
    assert_eq!(read(&section(&other)).1.fcs_len, None);
}
