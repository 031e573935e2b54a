//! What ends the wait of a read once lines are made. Written by hand, not proved.
//!
//! A read of a stream waits for bytes, for a signal, and while a run has threads also for the bell that these ring. If it
//! rings, the read fails, and the run writes the lines and reads again.
use std::cell::{Cell, RefCell};
use std::io::{self, Error, ErrorKind, Read, Write};
use std::os::fd::{AsRawFd, RawFd};
use std::os::unix::net::UnixStream;
use std::sync::Arc;
use std::sync::atomic::{AtomicBool, Ordering};

thread_local! {
    /// The end of the bell of this thread's run that can be read once it was rung.
    static HEARD: RefCell<Option<Heard>> = const { RefCell::new(None) };

    /// Whether a read has failed since the bell was rung.
    static HAS_RUNG: Cell<bool> = const { Cell::new(false) };
}

/// What other threads ring for this one, as long as it is there.
pub struct Bell {
    rope: UnixStream,
    is_rung: Arc<AtomicBool>,
}

/// The other end.
struct Heard {
    stream: UnixStream,
    is_rung: Arc<AtomicBool>,
}

impl Bell {
    /// A bell for the reads of this thread.
    pub fn hung() -> io::Result<Bell> {
        let (stream, rope) = UnixStream::pair()?;
        let is_rung = Arc::new(AtomicBool::new(false));
        HEARD.set(Some(Heard { stream, is_rung: Arc::clone(&is_rung) }));
        Ok(Bell { rope, is_rung })
    }

    /// Rings it, unless it was rung since it was last heard. What the run is to see must be done before.
    pub fn ring(&self) {
        if !self.is_rung.swap(true, Ordering::SeqCst) {
            let _ = (&self.rope).write(&[0]);
        }
    }
}

impl Drop for Bell {
    fn drop(&mut self) {
        HEARD.take();
    }
}

/// The end of the bell that can be read once it was rung, if this thread has one.
pub fn heard() -> Option<RawFd> {
    HEARD.with_borrow(|heard| heard.as_ref().map(|heard| heard.stream.as_raw_fd()))
}

/// The error of a read that has heard the bell. From here on it can be rung again.
pub fn interruption() -> Error {
    HEARD.with_borrow_mut(|heard| {
        if let Some(heard) = heard {
            let _ = heard.stream.read(&mut [0]);
            heard.is_rung.store(false, Ordering::SeqCst);
        }
    });
    HAS_RUNG.set(true);
    ErrorKind::WouldBlock.into()
}

/// Tests that an error is that of a read that has heard the bell. Those of the system have a number.
pub fn is_interruption(error: &Error) -> bool {
    error.kind() == ErrorKind::WouldBlock && error.raw_os_error().is_none()
}

/// Tests that the last read has failed for the bell. It is asked once for each.
pub fn has_rung() -> bool {
    HAS_RUNG.take()
}
