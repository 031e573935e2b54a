//! Cuts a capture into pieces. Written by hand, not proved.
use super::block::{Block, Records, Units};
use super::piece::{Interfaces, Piece};
use crate::ether_stream::{NoMemory, RunFault};
use etherpeel::ether_pcap::{CaptureError, CaptureFault, CaptureReader, FileHeader};
use std::mem;

/// The bytes of a capture that are read and not handed out, and how far they are cut into units.
pub struct Cutter {
    reader: CaptureReader<Interfaces>,
    begin: CaptureReader<Interfaces>,
    before: usize,
    packets: usize,
    offset: usize,
    bytes: Vec<u8>,
    start: usize,
    cut: usize,
    end: usize,
    units: Option<Units>,
    is_classic: bool,
    seconds: u64,
}

impl Cutter {
    /// The begin of a capture that follows others with this number of packets.
    pub fn new(before: usize) -> Cutter {
        let reader = CaptureReader::new(Interfaces::default());
        let begin = reader.clone();
        Cutter {
            reader,
            begin,
            before,
            packets: before,
            offset: 0,
            bytes: Vec::new(),
            start: 0,
            cut: 0,
            end: 0,
            units: None,
            is_classic: false,
            seconds: 0,
        }
    }

    /// Cuts the bytes into units. Returns why those that are left do not begin with a unit. Units that another thread has
    /// found are not looked at, if they begin where a unit does.
    pub fn cut(&mut self) -> CaptureError {
        loop {
            if let Some(found) = self.units.take_if(|units| units.start == self.cut) {
                self.packets = self.packets.saturating_add(found.packets);
                self.offset = self.offset.saturating_add(found.end - found.start);
                self.cut = found.end;
            }
            match self.reader.read(&self.bytes[self.cut..self.end]) {
                Ok(unit) => {
                    self.is_classic |= self.offset == 0 && unit.len == FileHeader::LEN;
                    self.packets = self.packets.saturating_add(usize::from(unit.packet.is_some()));
                    self.seconds = unit.packet.and_then(|packet| packet.time).map_or(self.seconds, |time| time.seconds);
                    self.cut += unit.len;
                    self.offset = self.offset.saturating_add(unit.len);
                }
                Err(error) => return error,
            }
        }
    }

    /// Takes the units as a piece, if there are any.
    pub fn take_piece(&mut self) -> Option<Piece> {
        if self.start == self.cut {
            return None;
        }
        let left = self.bytes[self.cut..self.end].to_vec();
        self.end = left.len();
        let piece = Piece {
            reader: mem::replace(&mut self.begin, self.reader.clone()),
            before: mem::replace(&mut self.before, self.packets),
            bytes: mem::replace(&mut self.bytes, left),
            units: self.start..self.cut,
            ..Piece::new()
        };
        (self.start, self.cut) = (0, 0);
        Some(piece)
    }

    /// How the records of the capture are read, if it is a classic one.
    pub fn records(&self) -> Option<Records> {
        if self.is_classic { Some(Records { reader: self.reader.clone(), seconds: self.seconds }) } else { None }
    }

    /// Appends a block to the bytes that are left. Returns memory that is spare.
    pub fn append(&mut self, mut block: Block) -> Result<Vec<u8>, NoMemory> {
        let left = &self.bytes[self.start..self.end];
        self.units = block.units.take();
        if left.len() <= block.start {
            self.start = block.start - left.len();
            block.bytes[self.start..block.start].copy_from_slice(left);
            (self.cut, self.end) = (self.start, block.end);
            return Ok(mem::replace(&mut self.bytes, block.bytes));
        }
        self.units = None;
        self.bytes.truncate(self.end);
        let more = &block.bytes[block.start..block.end];
        self.bytes.try_reserve(more.len()).map_err(|_| NoMemory)?;
        self.bytes.extend_from_slice(more);
        self.end = self.bytes.len();
        Ok(block.bytes)
    }

    /// Why the run stops if the bytes that are left do not begin with a unit.
    pub fn fault(&self, error: CaptureError) -> RunFault {
        RunFault::Capture(CaptureFault { offset: self.offset, error })
    }

    /// Tests that the capture has begun, and that no bytes are left.
    pub fn is_over(&self) -> bool {
        self.reader.has_begun() && self.cut == self.end
    }
}
