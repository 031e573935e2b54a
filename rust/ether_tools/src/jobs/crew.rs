//! The threads, and what they have to do. Written by hand, not proved.
use super::bell::Bell;
use super::block::{Block, MEMORY};
use super::piece::{Piece, Text};
use super::window::Window;
use crate::ether_stream::{LineOptions, Task};
use std::sync::mpsc::{Receiver, Sender, channel};
use std::sync::{Arc, Mutex};
use std::thread::{Builder, Scope};

/// How many threads there are at most, whatever is asked for.
const MOST_THREADS: usize = 64;

/// How many pieces are under way for each thread, and how many blocks.
const EACH: usize = 2;

/// A piece with fewer bytes is not worth a thread, if no other one is under way.
const SHORT: usize = 16_384;

/// How many pieces are made before threads are worth their start.
const FIRST: usize = 2;

/// How many bytes memory may have that is used again.
const MOST_BYTES: usize = 4_194_304;

/// What threads make of pieces.
#[derive(Clone, Copy)]
pub struct Work<'a> {
    /// Which packets are chosen.
    pub task: &'a Task<'a>,
    /// Which lines a packet has.
    pub options: &'a LineOptions<'a>,
    /// What a thread rings whenever something is done.
    pub bell: &'a Bell,
}

/// What one thread does at once, with its number.
enum Job {
    /// To read a block.
    Read(usize, Block),
    /// To make the lines of a piece.
    Make(usize, Piece),
}

/// Threads, which are started as they are needed, and what is under way.
pub struct Crew<'scope, 'env> {
    scope: &'scope Scope<'scope, 'env>,
    work: Work<'env>,
    most: usize,
    threads: usize,
    to_do: Sender<Job>,
    waiting: Arc<Mutex<Receiver<Job>>>,
    done: Sender<Job>,
    gathered: Receiver<Job>,
    given: usize,
    pieces: Window<Piece>,
    blocks: Window<Block>,
    spare: Vec<Vec<u8>>,
    texts: Vec<Text>,
}

impl<'scope, 'env> Crew<'scope, 'env> {
    /// A crew of this many threads at most. None is started yet.
    pub fn new(scope: &'scope Scope<'scope, 'env>, work: Work<'env>, threads: usize) -> Self {
        let ((to_do, waiting), (done, gathered)) = (channel(), channel());
        Crew {
            scope,
            work,
            most: threads.min(MOST_THREADS),
            threads: 0,
            to_do,
            waiting: Arc::new(Mutex::new(waiting)),
            done,
            gathered,
            given: 0,
            pieces: Window::new(),
            blocks: Window::new(),
            spare: Vec::new(),
            texts: Vec::new(),
        }
    }

    /// Tests that another piece may be given.
    pub fn has_room(&self) -> bool {
        self.pieces.len() < self.most * EACH
    }

    /// Tests that no piece is under way.
    pub fn is_idle(&self) -> bool {
        self.pieces.len() == 0
    }

    /// Tests that the capture is so long that threads are worth their start.
    pub fn is_worth(&self) -> bool {
        self.given >= FIRST
    }

    /// Tests that another block may be given.
    pub fn may_read(&self) -> bool {
        self.blocks.len() < self.most * EACH
    }

    /// Tests that a block is under way.
    pub fn is_reading(&self) -> bool {
        self.blocks.len() > 0
    }

    /// Gives a piece to the threads. If it is not worth one, its lines are made at once.
    pub fn give_piece(&mut self, mut piece: Piece) {
        let is_short = (piece.units.len() < SHORT || !self.is_worth()) && self.is_idle();
        self.given += 1;
        piece.made.text = self.texts.pop().unwrap_or_default();
        let number = self.pieces.begin();
        self.give(Job::Make(number, piece), is_short);
    }

    /// Gives a block to the threads, unless it was read already.
    pub fn give_block(&mut self, block: Block) {
        let (number, is_read) = (self.blocks.begin(), block.is_read);
        if is_read {
            self.blocks.put(number, block);
        } else {
            self.give(Job::Read(number, block), false);
        }
    }

    /// Gives something to the threads, unless it is done here, or there is no thread.
    fn give(&mut self, job: Job, is_done_here: bool) {
        if is_done_here || !self.has_thread() {
            let job = done(self.work, job);
            self.put(job);
        } else if let Err(refused) = self.to_do.send(job) {
            self.put(done(self.work, refused.0));
        }
    }

    /// Tests that there is a thread, and starts another one, if there are fewer than what is under way.
    fn has_thread(&mut self) -> bool {
        if self.threads < self.most.min(self.pieces.len() + self.blocks.len()) {
            let (work, waiting, done) = (self.work, Arc::clone(&self.waiting), self.done.clone());
            let started = Builder::new().spawn_scoped(self.scope, move || do_jobs(work, &waiting, &done));
            self.threads += usize::from(started.is_ok());
        }
        self.threads > 0
    }

    /// Waits until something is done.
    pub fn wait(&mut self) {
        if let Ok(job) = self.gathered.recv() {
            self.put(job);
        }
    }

    /// Gathers what is done.
    pub fn gather(&mut self) {
        while let Ok(job) = self.gathered.try_recv() {
            self.put(job);
        }
    }

    /// Puts what is done to its place.
    fn put(&mut self, job: Job) {
        match job {
            Job::Read(number, block) => self.blocks.put(number, block),
            Job::Make(number, piece) => self.pieces.put(number, piece),
        }
    }

    /// Takes the first piece that is under way, if its lines are made.
    pub fn next_made(&mut self) -> Option<Piece> {
        self.pieces.take()
    }

    /// Takes the first block that is under way, if a thread is done with it.
    pub fn next_read(&mut self) -> Option<Block> {
        self.blocks.take()
    }

    /// Forgets the blocks that are under way.
    pub fn forget_blocks(&mut self) {
        self.blocks.forget();
    }

    /// Memory for a block, if there is some to be used again.
    pub fn spare(&mut self) -> Option<Vec<u8>> {
        self.spare.pop()
    }

    /// Keeps memory for a block to be used again, unless it is much.
    pub fn keep(&mut self, bytes: Vec<u8>) {
        if (MEMORY..=MOST_BYTES).contains(&bytes.len()) {
            self.spare.push(bytes);
        }
    }

    /// Keeps the memory of a piece to be used again.
    pub fn keep_piece(&mut self, piece: Piece) {
        self.keep(piece.bytes);
        if piece.made.text.bytes.capacity() <= MOST_BYTES {
            self.texts.push(piece.made.text);
        }
    }
}

/// Does what is to do, until there is no more.
fn do_jobs(work: Work<'_>, waiting: &Mutex<Receiver<Job>>, gathered: &Sender<Job>) {
    while let Some(job) = next_job(waiting) {
        if gathered.send(done(work, job)).is_err() {
            return;
        }
        work.bell.ring();
    }
}

/// Waits for something to do. There is nothing once the run is over.
fn next_job(waiting: &Mutex<Receiver<Job>>) -> Option<Job> {
    waiting.lock().ok()?.recv().ok()
}

/// Does something.
fn done(work: Work<'_>, mut job: Job) -> Job {
    match &mut job {
        Job::Read(_, block) => block.read_left(),
        Job::Make(_, piece) => piece.make(work.task, work.options),
    }
    job
}
