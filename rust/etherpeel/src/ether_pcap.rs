//! Reads, edits and writes capture files of the classic pcap format and of pcapng, unit by unit. No call allocates
//! memory.

mod byte_order;
pub mod capture;
pub mod classic;
mod hex_digits;
mod link_type;
pub mod pcapng;
mod word_bytes;

pub use byte_order::ByteOrder;
pub use capture::{
    CaptureError, CaptureFault, CaptureInterface, CapturePackets, CaptureReader, CaptureUnit,
    CapturedPacket, CopiedUnit, CopyMode, DescribedInterfaces, Direction, EditedUnit,
    InterfaceSlice, InterfaceTable, ReadUnit, ReaderState, Timestamp, UnitContent,
};
pub use classic::{
    FileHeader, FileHeaderError, PcapRecord, PcapRecords, RecordError, RecordFault,
    TimestampResolution,
};
pub use link_type::LinkType;
pub use pcapng::{
    BlockError, BodyError, EnhancedPacket, InterfaceDescription, PcapngBlock, PcapngOption,
    PcapngOptions, SectionError, SectionHeader, SimplePacket,
};
