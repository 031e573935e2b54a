//! Of captures.
use super::Returned;
use crate::text::Text;
use etherpeel::ether_content::{Content, CookedHeader, EditedPacket, NoRoom, PacketEdit};
use etherpeel::ether_pcap::{
    BlockError, BodyError, ByteOrder, CaptureError, CaptureFault, CaptureInterface, CaptureUnit,
    CapturedPacket, CopiedUnit, CopyMode, Direction, EditedUnit, EnhancedPacket, FileHeader,
    FileHeaderError, InterfaceDescription, LinkType, PcapRecord, PcapngBlock, RecordError,
    RecordFault, SectionError, SectionHeader, SimplePacket, Timestamp, TimestampResolution,
};

fields! {
    CaptureFault { offset, error }
    CaptureInterface { link_type, snap_len, fcs_len, time_resolution, time_offset }
    CaptureUnit<'_> { len, packet }
    CapturedPacket<'_> {
        time, interface, direction, comment, original_len, link_type, snap_len, fcs_len, packet,
    }
    Timestamp { seconds, nanoseconds }
    FileHeader { byte_order, resolution, snap_len, link_type, fcs_len }
    PcapRecord<'_> { seconds, fraction, original_len, packet }
    RecordFault { offset, error }
    LinkType { 0 }
    EnhancedPacket<'_> { interface, time, original_len, packet, options }
    InterfaceDescription<'_> { byte_order, link_type, snap_len, options }
    PcapngBlock<'_> { block_type, body }
    SectionHeader<'_> { byte_order, block }
    SimplePacket<'_> { original_len, packet }
    CookedHeader { packet_type, hardware_type, address_len, address, protocol }
    EditedPacket { start, end, original_len }
}

variants! {
    ByteOrder { 0 BigEndian, 1 LittleEndian }
    Direction { 0 Inbound, 1 Outbound }
    CaptureError {
        0 File(it), 1 Record(it), 2 Section(it), 3 Block(it), 4 Body(it), 5 NoInterface(it),
        6 TooManyInterfaces,
    }
    CopiedUnit<'_> {
        0 Same(it), 1 LeftOut, 2 SnapLen { front, snap_len, rest }, 3 SectionLen { front, rest },
    }
    CopyMode { 0 Exact, 1 Changed { raise } }
    EditedUnit<'_> {
        0 Record { header, packet }, 1 Block { header, packet, padding_len, options, trailer },
    }
    FileHeaderError { 0 Len { required_len, len }, 1 Magic(it), 2 Version { major, minor } }
    RecordError { 0 Len { required_len, len }, 1 CapturedLen(it) }
    TimestampResolution { 0 Microseconds, 1 Nanoseconds }
    BlockError { 0 Len { required_len, len }, 1 TotalLen(it), 2 Trailer { total_len, trailer } }
    BodyError { 0 Len { required_len, len }, 1 CapturedLen(it) }
    SectionError {
        0 Len { required_len, len }, 1 BlockType(it), 2 Magic(it), 3 Block(it),
        4 Body { required_len, len }, 5 Version { major, minor },
    }
    Content<'_> { 0 Frame(a, b), 1 LinuxSll(a, b), 2 LinuxSll2(it), 3 Unknown }
    PacketEdit { 0 CutToHeaders, 1 PopVlan, 2 PushVlan { tpid, vlan_id }, 3 SetVlan { from, to } }
}

impl Returned for NoRoom {
    fn add_to(&self, text: &mut Text) {
        text.number(0);
    }
}
