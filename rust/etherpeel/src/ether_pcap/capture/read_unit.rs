//! What a unit of a capture file says.
use crate::ether_pcap::capture::capture_interface::CaptureInterface;
use crate::ether_pcap::{ByteOrder, CapturedPacket, FileHeader};

/// A unit of a capture file, and what it says.
#[derive(Clone, Copy, PartialEq, Eq, Debug)]
pub struct ReadUnit<'a> {
    /// The length of the unit in bytes. The next unit begins after it.
    pub len: usize,
    /// What the unit says.
    pub content: UnitContent<'a>,
}

/// What a unit of a capture file says.
#[derive(Clone, Copy, PartialEq, Eq, Debug)]
pub enum UnitContent<'a> {
    /// How the records of a classic file are to be read.
    FileHeader(FileHeader),
    /// A section of a pcapng file begins, in this byte order.
    Section(ByteOrder),
    /// The section has this interface, after those that it has described before.
    Interface(CaptureInterface),
    /// A packet was captured.
    Packet(CapturedPacket<'a>),
    /// The block is of another type.
    Other,
}
