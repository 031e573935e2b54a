//! Blocks of pcapng that are written are read back, for each length of a packet, in both byte orders. Written by hand,
//! for `rust/faults.py`: in the sources a proof says it.
use etherpeel::ether_pcap::{ByteOrder, EnhancedPacket, InterfaceDescription, LinkType, PcapngBlock, SectionHeader};

const BYTES: [u8; 24] = [1, 2, 3, 4, 5, 6, 7, 8, 9, 10, 11, 12, 13, 14, 15, 16, 17, 18, 19, 20, 21, 22, 23, 24];
/// A comment, and the end of the options.
const OPTIONS: [u8; 12] = [0, 1, 0, 2, 0x41, 0x42, 0, 0, 0, 0, 0, 0];

#[test]
fn enhanced_packets() {
    for byte_order in [ByteOrder::BigEndian, ByteOrder::LittleEndian] {
        for len in 0..BYTES.len() {
            for options in [&[][..], &OPTIONS] {
                let packet = EnhancedPacket {
                    interface: 0x0102_0304,
                    time: 0x1112_1314_2122_2324,
                    original_len: 0x3132_3334,
                    packet: &BYTES[..len],
                    options,
                };
                let padding = &[0; 3][..packet.padding_len()];
                let header = packet.header_to_bytes(byte_order);
                let trailer = packet.trailer_to_bytes(byte_order);
                let written = [&header[..], packet.packet, padding, options, &trailer].concat();
                let block = PcapngBlock::from_slice(byte_order, &written).unwrap();
                assert_eq!((block.block_len(), block.block_type), (written.len(), 6));
                assert_eq!(EnhancedPacket::from_body(byte_order, block.body), Ok(packet));
            }
        }
    }
}

#[test]
fn sections_and_interfaces() {
    for byte_order in [ByteOrder::BigEndian, ByteOrder::LittleEndian] {
        let section = SectionHeader::to_bytes(byte_order);
        let read = SectionHeader::from_slice(&section).unwrap();
        assert_eq!((read.byte_order, read.block.block_len()), (byte_order, section.len()));
        for options in [&[][..], &OPTIONS] {
            let interface =
                InterfaceDescription { byte_order, link_type: LinkType::ETHERNET, snap_len: 0x0102_0304, options };
            let written = [&interface.header_to_bytes()[..], options, &interface.trailer_to_bytes()].concat();
            let block = PcapngBlock::from_slice(byte_order, &written).unwrap();
            assert_eq!((block.block_len(), block.block_type), (written.len(), 1));
            assert_eq!(InterfaceDescription::from_body(byte_order, block.body), Ok(interface));
        }
    }
}
