//! What ends a run before its input does: SIGINT, SIGTERM and SIGHUP. Written by hand, not proved.
//!
//! The first of these signals asks the run to end: so the input is read on for at most a second, since its writer may
//! have got the signal, too, and end it. Later signals have their default effect.
use crate::jobs::{bell, later};
use arrayvec::ArrayVec;
use nix::errno::Errno;
use nix::poll::{PollFd, PollFlags, poll};
use signal_hook::consts::{SIGHUP, SIGINT, SIGTERM};
use signal_hook::{SigId, flag, low_level};
use std::cell::Cell;
use std::fs::File;
use std::io::{self, BufRead, BufReader, Error, ErrorKind, IsTerminal, Read, Write};
use std::os::fd::{AsRawFd, RawFd};
use std::os::unix::net::UnixStream;
use std::str;
use std::sync::Arc;
use std::sync::atomic::{AtomicBool, AtomicUsize, Ordering};
use std::thread;
use std::time::{Duration, Instant};

/// How long the input is read on after the signal, unless it is a regular file or a terminal.
const PATIENCE: Duration = Duration::from_secs(1);

/// How long further signals count as the first one: `timeout` sends it to its program, and then to all of the group.
const SAME: Duration = Duration::from_millis(100);

/// A run is short until it has read this many times, or has waited longer than `SHORT_WAIT` for a read. In a short run
/// each second signal has its default effect, so that no thread is needed.
const SHORT_RUN: u32 = 64;

/// How long a read waits at most in a short run.
const SHORT_WAIT: Duration = Duration::from_millis(50);

/// How many bytes the stack of the thread has that waits for the first signal.
const STACK: usize = 65_536;

/// How Linux begins the line of the signals that a process ignores.
const IGNORED: &[u8] = b"SigIgn:";

/// Whether a signal has asked the run to end, and whether a part of the input was left unread for that reason.
#[derive(Default)]
pub struct Ending {
    signal: Arc<AtomicUsize>,
    has_default: Arc<AtomicBool>,
    woken: Option<Arc<UnixStream>>,
    at_once: Cell<Vec<SigId>>,
    reads: Cell<u32>,
    deadline: Cell<Option<Instant>>,
    has_cut: Cell<bool>,
}

impl Ending {
    /// Watches the signals from here on, but for those that the process ignores: these it goes on to ignore. If they
    /// can't be watched, they keep their default effect.
    pub fn watched() -> Ending {
        let mut ending = Ending::default();
        let ignored = ignored_signals();
        let signals = [SIGHUP, SIGINT, SIGTERM].into_iter().filter(|signal| ignored >> (signal - 1) & 1 == 0);
        match ending.watch(signals) {
            Ok(woken) => ending.woken = Some(woken),
            Err(_) => ending.has_default.store(true, Ordering::SeqCst),
        }
        ending
    }

    /// Watches some signals, and returns the end of a stream that has a byte from the first of them on.
    fn watch(&self, signals: impl Iterator<Item = i32>) -> io::Result<Arc<UnixStream>> {
        let (woken, wakes) = UnixStream::pair()?;
        let woken = Arc::new(woken);
        let mut at_once = Vec::new();
        for signal in signals {
            flag::register_conditional_default(signal, Arc::clone(&self.has_default))?;
            flag::register_usize(signal, Arc::clone(&self.signal), signal as usize)?;
            low_level::pipe::register(signal, wakes.try_clone()?)?;
            at_once.push(flag::register(signal, Arc::clone(&self.has_default))?);
        }
        self.at_once.set(at_once);
        Ok(woken)
    }

    /// From here on signals soon after the first one count as the same: a thread waits for that, and then for a while. If
    /// there is none to be had, the second signal goes on to have its default effect.
    fn join_signals(&self, woken: &Arc<UnixStream>) {
        let (woken, has_default) = (Arc::clone(woken), Arc::clone(&self.has_default));
        let waiting = move || {
            while wait(&mut [readable(woken.as_raw_fd())], None) == Err(Errno::EINTR) {}
            thread::sleep(SAME);
            has_default.store(true, Ordering::SeqCst);
        };
        if thread::Builder::new().stack_size(STACK).spawn(waiting).is_ok() {
            for action in self.at_once.take() {
                low_level::unregister(action);
            }
        }
    }

    /// Counts a read, or one that waits long: then the run is no longer short.
    fn count_read(&self, waits_long: bool) {
        let before = self.reads.get();
        let reads = if waits_long { SHORT_RUN.max(before) } else { before.saturating_add(1) };
        self.reads.set(reads);
        if let (true, Some(woken)) = (before < SHORT_RUN && reads >= SHORT_RUN, &self.woken) {
            self.join_signals(woken);
        }
    }

    /// Tests that a signal has asked the run to end.
    fn is_asked(&self) -> bool {
        self.signal.load(Ordering::SeqCst) != 0
    }

    /// Tests that another input may be opened. If not, it counts as unread.
    pub fn lets_open(&self) -> bool {
        self.has_cut.set(self.has_cut.get() || self.is_asked());
        !self.has_cut.get()
    }

    /// Makes a call that may wait without end, as for the other end of a FIFO. Meanwhile the signals have their default
    /// effect.
    pub fn unwatched<T>(&self, call: impl FnOnce() -> T) -> T {
        let before = self.has_default.swap(true, Ordering::SeqCst);
        let answer = call();
        self.has_default.store(before || self.is_asked(), Ordering::SeqCst);
        answer
    }

    /// Tests that an input was left unread, or a part of one, because of a signal.
    pub fn has_cut(&self) -> bool {
        self.has_cut.get()
    }

    /// Says which signal has ended the run, and returns the exit status for that.
    pub fn tell<M: Write>(&self, program: &str, messages: &mut M) -> u8 {
        let number = self.signal.load(Ordering::SeqCst);
        let name = low_level::signal_name(number as i32).unwrap_or("a signal");
        let _ = writeln!(messages, "{program}: ended by {name}: the rest of the input was not read");
        128 + number as u8
    }

    /// The time that is left for reading, if a signal has asked the run to end.
    fn left(&self, patience: Duration) -> Option<Duration> {
        if !self.is_asked() {
            return None;
        }
        let now = Instant::now();
        let deadline = self.deadline.get().unwrap_or(now + PATIENCE);
        self.deadline.set(Some(deadline));
        Some(patience.min(deadline.saturating_duration_since(now)))
    }

    /// Tests that more may be written. What is made of a line has as long as the input after the signal; what is made already is
    /// written in any case.
    fn lets_write(&self) -> io::Result<()> {
        if !self.has_cut.get() && self.left(PATIENCE).is_some_and(|left| left.is_zero()) {
            self.has_cut.set(true);
            return Err(Error::other("a signal has ended the run"));
        }
        Ok(())
    }

    /// Tests that an input may be read, and waits until that has something to read, if it is not a regular file, or until
    /// the bell rings. The error says why it may not.
    fn lets_read(&self, input: RawFd, kind: Kind) -> io::Result<()> {
        let patience = if kind == Kind::Stream { PATIENCE } else { Duration::ZERO };
        self.count_read(false);
        loop {
            let left = self.left(patience);
            if left.is_some_and(|left| left.is_zero()) {
                self.has_cut.set(true);
                return Err(Error::other("a signal has ended the run"));
            }
            let woken = self.woken.as_ref().filter(|_| left.is_none()).map(|woken| woken.as_raw_fd());
            let others = [bell::heard(), woken];
            if kind == Kind::Regular || self.woken.is_none() && bell::heard().is_none() {
                return Ok(());
            }
            let ends = [Some(input)].into_iter().chain(others).flatten().map(readable);
            let mut ends = ends.collect::<ArrayVec<PollFd, 3>>();
            let short = Some(SHORT_WAIT).filter(|_| self.reads.get() < SHORT_RUN);
            match wait(&mut ends, left.or(short)) {
                Ok(0) if left.is_none() => self.count_read(true),
                Ok(_) if ends[0].any() == Some(false) => {
                    if bell::heard().is_some() && ends[1].any() == Some(true) {
                        return Err(bell::interruption());
                    }
                }
                Ok(_) => return Ok(()),
                Err(Errno::EINTR) => {}
                Err(_) => return Ok(()),
            }
        }
    }
}

/// What is waited for: that an end of a stream can be read.
fn readable(end: RawFd) -> PollFd {
    PollFd::new(end, PollFlags::POLLIN)
}

/// Waits until an end can be read, for some time at most, if that is given.
fn wait(ends: &mut [PollFd], time: Option<Duration>) -> nix::Result<i32> {
    poll(ends, time.map_or(-1, |time| time.as_millis() as i32 + 1))
}

/// The signals that the process ignores, one bit for each, as Linux says it; none where it does not.
fn ignored_signals() -> u64 {
    let Ok(status) = File::open("/proc/self/status") else {
        return 0;
    };
    let (mut lines, mut line) = (BufReader::new(status), Vec::new());
    while lines.read_until(b'\n', &mut line).is_ok_and(|count| count > 0) {
        if let Some(mask) = line.strip_prefix(IGNORED) {
            let mask = str::from_utf8(mask).unwrap_or_default();
            return u64::from_str_radix(mask.trim(), 16).unwrap_or(0);
        }
        line.clear();
    }
    0
}

/// What an input is, as far as it matters for a signal.
#[derive(Clone, Copy, PartialEq, Eq)]
enum Kind {
    /// A regular file: a read of it does not wait.
    Regular,
    /// A terminal: no program ends it.
    Terminal,
    /// Anything else, as a pipe.
    Stream,
}

/// A file that is not read any more once a signal has ended the run. A read that another signal interrupts is tried
/// again.
pub struct Ended<'a> {
    file: Arc<File>,
    kind: Kind,
    ending: &'a Ending,
}

impl<'a> Ended<'a> {
    /// The reader of a file.
    pub fn new(file: File, ending: &'a Ending) -> Self {
        let kind = match file.metadata() {
            Ok(metadata) if metadata.is_file() => Kind::Regular,
            _ if file.is_terminal() => Kind::Terminal,
            _ => Kind::Stream,
        };
        Ended { file: Arc::new(file), kind, ending }
    }
}

impl Read for Ended<'_> {
    fn read(&mut self, buf: &mut [u8]) -> io::Result<usize> {
        // of a file that was read to its end nothing is left unread
        let may_end = self.kind == Kind::Regular && !buf.is_empty() && self.ending.is_asked();
        if may_end && matches!(self.file.read(&mut buf[..1]), Ok(0)) {
            return Ok(0);
        }
        loop {
            self.ending.lets_read(self.file.as_raw_fd(), self.kind)?;
            let left = if self.kind == Kind::Regular { later::left(&self.file, buf) } else { None };
            if let Some(count) = left {
                return Ok(count);
            }
            match self.file.read(buf) {
                Err(error) if error.kind() == ErrorKind::Interrupted => {}
                answer => return answer,
            }
        }
    }
}

/// A writer that fails once when a signal has ended the run, unless its input has failed for that reason.
pub struct Written<'a, W> {
    writer: W,
    ending: &'a Ending,
}

impl<'a, W> Written<'a, W> {
    /// The writer.
    pub fn new(writer: W, ending: &'a Ending) -> Self {
        Written { writer, ending }
    }
}

impl<W: Write> Write for Written<'_, W> {
    fn write(&mut self, buf: &[u8]) -> io::Result<usize> {
        self.ending.lets_write()?;
        self.writer.write(buf)
    }

    fn flush(&mut self) -> io::Result<()> {
        self.writer.flush()
    }
}
