//! Bytes of a capture that are read at once. Written by hand, not proved.
use super::later::{Later, asked};
use super::piece::Interfaces;
use crate::ether_stream::NoMemory;
use crate::ether_text::{InputFault, Source};
use etherpeel::ether_pcap::{CaptureReader, CaptureUnit, CapturedPacket};

/// How many bytes are read at once.
const ROOM: usize = 98_304;

/// How many bytes of a unit that began before a block have room before it.
const FRONT: usize = 16_384;

/// How many records have to follow each other.
const RECORDS: usize = 4;

/// How many seconds are at most between packets of the same capture, in most captures.
const NEAR: u64 = 4_000_000;

/// How many bytes the memory of a block has at least.
pub const MEMORY: usize = FRONT + ROOM;

/// Bytes of a capture.
pub struct Block {
    /// The bytes, with room before them and after them.
    pub bytes: Vec<u8>,
    /// Where they begin.
    pub start: usize,
    /// Where they end.
    pub end: usize,
    later: Option<Later>,
    /// Whether all of them were read.
    pub is_read: bool,
    /// How its records are read, if they are to be looked for.
    pub records: Option<Records>,
    /// The records that were found.
    pub units: Option<Units>,
}

/// Units that follow each other. Where they begin is a guess.
pub struct Units {
    /// Where the first of them begins.
    pub start: usize,
    /// Where the last of them ends.
    pub end: usize,
    /// How many packets they have.
    pub packets: usize,
}

impl Block {
    /// A block without bytes, in memory that is spare.
    pub fn new(spare: Option<Vec<u8>>) -> Result<Block, NoMemory> {
        let mut bytes = spare.unwrap_or_default();
        let more = MEMORY.saturating_sub(bytes.len());
        bytes.try_reserve_exact(more).map_err(|_| NoMemory)?;
        bytes.resize(bytes.len() + more, 0);
        Ok(Block { bytes, start: FRONT, end: FRONT, later: None, is_read: true, records: None, units: None })
    }

    /// Reads the next bytes of a capture, and returns their number: 0 at its end. They may be left to another thread.
    pub fn read_from<R: Source>(&mut self, reader: &mut R, may_leave: bool) -> Result<usize, InputFault> {
        let room = &mut self.bytes[FRONT..FRONT + ROOM];
        let (count, later) =
            if may_leave { asked(room, |room| reader.read_some(room)) } else { (reader.read_some(room), None) };
        let count = count?;
        self.end = FRONT + count;
        self.is_read = later.is_none();
        self.later = later;
        Ok(count)
    }

    /// Reads the bytes that were left, and looks for the records among them.
    pub fn read_left(&mut self) {
        let room = &mut self.bytes[self.start..self.end];
        self.is_read = self.later.as_ref().is_some_and(|later| later.read(room));
        if let Some(records) = self.records.take().filter(|_| self.is_read) {
            self.units = self.find(records);
        }
    }

    /// The records from the first place on where some that follow each other seem to be.
    fn find(&self, mut records: Records) -> Option<Units> {
        let bytes = &self.bytes[..self.end];
        let last = self.end.min(self.start + FRONT);
        let start = (self.start..last).find(|place| records.seem_to_begin(&bytes[*place..]))?;
        let (mut end, mut packets) = (start, 0);
        while let Ok(unit) = records.reader.read(&bytes[end..]) {
            end += unit.len;
            packets += 1;
        }
        Some(Units { start, end, packets })
    }

    /// Lets the reader of the capture read these bytes again.
    pub fn give_back(&self) {
        if let Some(later) = &self.later {
            later.give_back();
        }
    }
}

/// How the records of a classic capture are read: each of them alone.
#[derive(Clone)]
pub struct Records {
    /// The reader after the file header.
    pub reader: CaptureReader<Interfaces>,
    /// When a packet was captured, in seconds.
    pub seconds: u64,
}

impl Records {
    /// Tests that some records seem to follow each other: each has no more bytes than its packet had, and a time that is
    /// not far from others.
    fn seem_to_begin(&mut self, bytes: &[u8]) -> bool {
        let mut rest = bytes;
        for _ in 0..RECORDS {
            match self.reader.read(rest) {
                Ok(CaptureUnit { len, packet: Some(packet) }) if self.is_likely(&packet) => rest = &rest[len..],
                _ => return false,
            }
        }
        true
    }

    /// Tests that a packet is likely one of the capture.
    fn is_likely(&self, packet: &CapturedPacket<'_>) -> bool {
        let is_near = packet.time.is_some_and(|time| time.seconds.abs_diff(self.seconds) <= NEAR);
        is_near && packet.packet.len() <= packet.original_len as usize
    }
}
