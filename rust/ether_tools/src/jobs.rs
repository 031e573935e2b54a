//! The lines of a capture, made by several threads. Written by hand, not proved.
//!
//! The thread of the program reads the capture, cuts it into pieces between its packets, and writes their lines, piece by
//! piece in order. Other threads make the lines, and read the blocks of regular files. What is written, and how the run
//! ends, is as with one thread: only how far the capture is read ahead differs.
pub mod bell;
mod block;
mod crew;
mod cutter;
pub mod later;
mod piece;
mod window;

use crate::ether_stream::{LineOptions, NoMemory, PacketCounts, RunFault, Task, write_totals};
use crate::ether_text::{Source, Verdict};
use bell::Bell;
use block::Block;
use crew::{Crew, Work};
use cutter::Cutter;
use etherpeel::ether_output::{OutputBuffer, Sink};
use piece::Piece;
use std::thread;

/// What a read has brought.
enum Found {
    /// Bytes.
    Bytes,
    /// The end of the capture.
    End,
    /// A fault.
    Fault(RunFault),
    /// Nothing: the requested number of packets was reached before it.
    Enough,
}

/// How blocks are read.
#[derive(Clone, Copy, PartialEq, Eq)]
enum Way {
    /// The first one, which shows how the capture is packed, is read here.
    First,
    /// A read may be left to other threads.
    Open,
    /// The last read was left to other threads. So the next one does not wait.
    Left,
    /// All are read here.
    Here,
}

/// Writes the lines of a capture, made by this number of threads. Returns how the run ended and how many packets were
/// read, or `None` if the system lacks what it takes: then nothing was read.
pub fn run_lines<R: Source, W: Sink>(
    task: &Task<'_>,
    options: &LineOptions<'_>,
    threads: usize,
    reader: &mut R,
    writer: &mut W,
) -> Option<(Result<Verdict, RunFault>, PacketCounts)> {
    let bell = Bell::hung().ok()?;
    let work = Work { task, options, bell: &bell };
    let outcome = thread::scope(|scope| {
        let mut run = Run {
            task,
            options,
            cutter: Cutter::new(task.packets_before()),
            crew: Crew::new(scope, work, threads),
            way: Way::First,
            end: None,
            counts: PacketCounts::none(task),
            verdict: Verdict::AllAccepted,
            writer,
        };
        let end = run.answer(reader);
        (end, run.counts)
    });
    Some(outcome)
}

/// A run, and the counts and the verdict of the packets whose lines are written.
struct Run<'a, 'scope, 'env, W> {
    task: &'a Task<'a>,
    options: &'a LineOptions<'a>,
    cutter: Cutter,
    crew: Crew<'scope, 'env>,
    way: Way,
    end: Option<Found>,
    counts: PacketCounts,
    verdict: Verdict,
    writer: &'a mut W,
}

impl<W: Sink> Run<'_, '_, '_, W> {
    /// Reads the capture to its end, and writes its lines. Before a fault of the capture all lines are written.
    fn answer<R: Source>(&mut self, reader: &mut R) -> Result<Verdict, RunFault> {
        let fault = self.read_capture(reader)?;
        self.write_all()?;
        match fault.filter(|_| !self.is_done()) {
            None => self.finish(),
            Some(RunFault::Input) => Err(RunFault::Input),
            Some(fault) => {
                self.writer.flush_all()?;
                Err(fault)
            }
        }
    }

    /// Reads the capture to its end, and hands out its pieces. Returns why it was not read to its end, if it was not.
    fn read_capture<R: Source>(&mut self, reader: &mut R) -> Result<Option<RunFault>, RunFault> {
        loop {
            let error = self.cutter.cut();
            self.hand_out()?;
            if error.required_len().is_none() {
                return Ok(Some(self.cutter.fault(error)));
            }
            match self.read(reader)? {
                Found::Bytes => {}
                Found::End if !self.cutter.is_over() => return Ok(Some(self.cutter.fault(error))),
                Found::End | Found::Enough => return Ok(None),
                Found::Fault(fault) => return Ok(Some(fault)),
            }
        }
    }

    /// Hands out the piece that was cut, if there is one. If there are many already, waits for the first of them.
    fn hand_out(&mut self) -> Result<(), RunFault> {
        self.write_made()?;
        while !self.crew.has_room() {
            self.crew.wait();
            self.write_made()?;
        }
        if let Some(mut piece) = self.cutter.take_piece() {
            piece.asked_for = self.counts.left;
            self.crew.give_piece(piece);
        }
        Ok(())
    }

    /// Writes what is made, and reads on: a block, or as many as may be left to other threads. While lines are still being
    /// made, the read of a stream does not wait longer than they take.
    fn read<R: Source>(&mut self, reader: &mut R) -> Result<Found, RunFault> {
        loop {
            self.write_made()?;
            if self.is_done() {
                return Ok(Found::Enough);
            }
            match self.crew.next_read() {
                Some(block) if block.is_read => return Ok(self.append(block)),
                Some(block) => self.read_again(&block),
                None => {}
            }
            let may_read = !self.crew.is_reading() || self.way == Way::Left && self.crew.may_read();
            if self.end.is_none() && may_read {
                self.read_block(reader);
            } else if self.crew.is_reading() {
                self.crew.wait();
            } else if let Some(end) = self.end.take() {
                return Ok(end);
            }
        }
    }

    /// Reads the next block, or lets another thread do so, if that can be.
    fn read_block<R: Source>(&mut self, reader: &mut R) {
        let spare = self.crew.spare();
        let Ok(mut block) = Block::new(spare) else {
            self.end = Some(Found::Fault(RunFault::Memory));
            return;
        };
        let may_leave = matches!(self.way, Way::Open | Way::Left) && self.crew.is_worth();
        match block.read_from(reader, may_leave) {
            Ok(0) => self.end = Some(Found::End),
            Ok(_) => {
                self.way = match self.way {
                    Way::Here => Way::Here,
                    _ if block.is_read => Way::Open,
                    _ => Way::Left,
                };
                block.records = self.cutter.records();
                self.crew.give_block(block);
            }
            Err(_) if bell::has_rung() => self.crew.keep(block.bytes),
            Err(_) => self.end = Some(Found::Fault(RunFault::Input)),
        }
    }

    /// Reads a block again, and those after it, which another thread could not read: this shows why.
    fn read_again(&mut self, block: &Block) {
        block.give_back();
        self.crew.forget_blocks();
        (self.way, self.end) = (Way::Here, None);
    }

    /// Appends a block to the bytes that are to be cut.
    fn append(&mut self, block: Block) -> Found {
        match self.cutter.append(block) {
            Ok(bytes) => {
                self.crew.keep(bytes);
                Found::Bytes
            }
            Err(NoMemory) => Found::Fault(RunFault::Memory),
        }
    }

    /// Writes the lines of all pieces that were handed out.
    fn write_all(&mut self) -> Result<(), RunFault> {
        self.write_made()?;
        while !self.crew.is_idle() && !self.is_done() {
            self.crew.wait();
            self.write_made()?;
        }
        Ok(())
    }

    /// Writes the lines of the pieces that are made, as far as those before them are, too.
    fn write_made(&mut self) -> Result<(), RunFault> {
        self.crew.gather();
        while let Some(piece) = self.crew.next_made() {
            self.write_piece(piece)?;
        }
        Ok(())
    }

    /// Writes the lines of a piece, and counts its packets. If it has more of the requested packets than are left, its
    /// lines are made again, up to the last of these.
    fn write_piece(&mut self, mut piece: Piece) -> Result<(), RunFault> {
        if self.is_done() {
            return Ok(());
        }
        if self.counts.left.is_some_and(|left| piece.chosen() > left) {
            piece.asked_for = self.counts.left;
            piece.make(self.task, self.options);
        }
        let (made, chosen) = (&piece.made, piece.chosen());
        if made.has_failed {
            return Err(RunFault::Memory);
        }
        self.writer.put(&made.text.bytes)?;
        self.counts.number = made.counts.number;
        self.counts.skipped = self.counts.skipped.saturating_add(made.counts.skipped);
        self.counts.undecided = self.counts.undecided.saturating_add(made.counts.undecided);
        self.counts.left = self.counts.left.map(|left| left.saturating_sub(chosen));
        self.verdict = self.verdict.with(made.verdict == Verdict::AllAccepted);
        self.crew.keep_piece(piece);
        Ok(())
    }

    /// Tests that the requested number of packets was reached.
    fn is_done(&self) -> bool {
        self.counts.left == Some(0)
    }

    /// Writes the line of the totals, if there is to be one, and returns the verdict.
    fn finish(&mut self) -> Result<Verdict, RunFault> {
        let mut out = OutputBuffer::new(self.writer);
        if self.options.before.is_none() {
            let undecided = self.task.if_selected(self.counts.undecided);
            write_totals(self.options.is_plain, self.counts.number, self.counts.skipped, undecided, &mut out);
        }
        out.flush()?;
        Ok(self.verdict)
    }
}
