//! A piece of a capture, and its lines. Written by hand, not proved.
use crate::ether_stream::{LineOptions, MAX_INTERFACES, PacketCounts, Task, write_lines};
use crate::ether_text::Verdict;
use etherpeel::ether_content::Content;
use etherpeel::ether_output::{OutputBuffer, OutputFault, Sink};
use etherpeel::ether_pcap::{CaptureInterface, CaptureReader, CapturedPacket, InterfaceTable};
use std::mem;
use std::ops::Range;
use std::sync::Arc;

/// How many bytes of lines are expected for a byte of a piece.
const EXPECTED: usize = 2;

/// The interfaces of a section. A clone has the same memory, until one of the two changes.
#[derive(Clone, Default)]
pub struct Interfaces {
    described: Arc<Vec<CaptureInterface>>,
}

impl InterfaceTable for Interfaces {
    fn interfaces(&self) -> &[CaptureInterface] {
        &self.described
    }

    fn add(&mut self, interface: CaptureInterface) -> bool {
        let has_room = self.described.len() < MAX_INTERFACES;
        if has_room {
            Arc::make_mut(&mut self.described).push(interface);
        }
        has_room
    }

    fn remove_all(&mut self) {
        self.described = Arc::default();
    }
}

/// Whole units of a capture, and the lines of their packets.
pub struct Piece {
    /// The reader before the first of its units.
    pub reader: CaptureReader<Interfaces>,
    /// How many packets there are before it, also in the captures before this one.
    pub before: usize,
    /// How many chosen packets are asked for, if their number is limited.
    pub asked_for: Option<usize>,
    /// Memory that has its units, and other bytes.
    pub bytes: Vec<u8>,
    /// Where its units are.
    pub units: Range<usize>,
    /// What is made of it.
    pub made: Made,
}

impl Piece {
    /// A piece without units.
    pub fn new() -> Piece {
        Piece {
            reader: CaptureReader::new(Interfaces::default()),
            before: 0,
            asked_for: None,
            bytes: Vec::new(),
            units: 0..0,
            made: Made::new(0, None),
        }
    }

    /// Makes the lines of its packets, up to the last one that is asked for.
    pub fn make(&mut self, task: &Task<'_>, options: &LineOptions) {
        self.made.begin(self.before, self.asked_for);
        let mut reader = self.reader.clone();
        let mut text = mem::take(&mut self.made.text);
        let _ = text.bytes.try_reserve(EXPECTED * self.units.len());
        let mut out = OutputBuffer::new(&mut text);
        let mut rest = &self.bytes[self.units.clone()];
        while let (false, Ok(unit)) = (self.made.counts.left == Some(0), reader.read(rest)) {
            rest = &rest[unit.len..];
            if let Some(packet) = &unit.packet {
                self.made.take(task, options, packet, &mut out);
            }
        }
        self.made.has_failed = out.flush().is_err();
        self.made.text = text;
    }

    /// How many chosen packets it has up to the last one that is asked for; 0 if their number is not limited.
    pub fn chosen(&self) -> usize {
        self.asked_for.unwrap_or(0).saturating_sub(self.made.counts.left.unwrap_or(0))
    }
}

/// What is made of a piece.
pub struct Made {
    /// The lines.
    pub text: Text,
    /// The number of the last packet, and the counts of this piece alone.
    pub counts: PacketCounts,
    /// Whether all of its packets are accepted.
    pub verdict: Verdict,
    /// Whether memory for the lines was refused.
    pub has_failed: bool,
}

impl Made {
    /// Nothing, after this number of packets.
    fn new(number: usize, left: Option<usize>) -> Made {
        let counts = PacketCounts { number, skipped: 0, undecided: 0, left };
        Made { text: Text::default(), counts, verdict: Verdict::AllAccepted, has_failed: false }
    }

    /// The same, in the memory that it has.
    fn begin(&mut self, number: usize, left: Option<usize>) {
        let mut text = mem::take(&mut self.text);
        text.bytes.clear();
        *self = Made { text, ..Made::new(number, left) };
    }

    /// Makes the lines of a packet, if it is chosen, and counts it.
    fn take<W: Sink>(
        &mut self,
        task: &Task<'_>,
        options: &LineOptions<'_>,
        packet: &CapturedPacket<'_>,
        out: &mut OutputBuffer<'_, W>,
    ) {
        let counts = &mut self.counts;
        if task.chooses(packet) {
            self.verdict = self.verdict.with(write_lines(options, &counts.number, packet, out));
            counts.left = counts.left.map(|left| left.saturating_sub(1));
        }
        counts.number = counts.number.saturating_add(1);
        counts.skipped += usize::from(Content::of(packet).is_unknown());
        counts.undecided += usize::from(task.leaves_open(packet));
    }
}

/// Text that is kept in memory.
#[derive(Default)]
pub struct Text {
    /// The text.
    pub bytes: Vec<u8>,
}

impl Sink for Text {
    fn put(&mut self, bytes: &[u8]) -> Result<(), OutputFault> {
        self.bytes.try_reserve(bytes.len()).map_err(|_| OutputFault)?;
        self.bytes.extend_from_slice(bytes);
        Ok(())
    }

    fn flush_all(&mut self) -> Result<(), OutputFault> {
        Ok(())
    }
}
