//! Reads of a regular file that are left to other threads. Written by hand, not proved.
//!
//! A run asks for that with a room of its own for the bytes. If its reader hands on this very room to the read of a
//! regular file, that read only moves on in the file, and leaves the bytes to be read at their place.
use std::cell::{Cell, RefCell};
use std::fs::File;
use std::io::{Seek, SeekFrom};
use std::os::unix::fs::FileExt;
use std::sync::Arc;

thread_local! {
    /// The room for which this thread's run has asked.
    static ASKED: Cell<Option<(*const u8, usize)>> = const { Cell::new(None) };

    /// What was left to be read into it.
    static LEFT: RefCell<Option<Later>> = const { RefCell::new(None) };
}

/// Bytes of a regular file that are still to be read.
pub struct Later {
    file: Arc<File>,
    place: u64,
    len: usize,
}

impl Later {
    /// Reads the bytes to the front of a room, and tests that all of them were read.
    pub fn read(&self, room: &mut [u8]) -> bool {
        self.file.read_exact_at(&mut room[..self.len], self.place).is_ok()
    }

    /// Moves the file back to their place, so that they are read by its reader.
    pub fn give_back(&self) {
        let _ = (&*self.file).seek(SeekFrom::Start(self.place));
    }
}

/// Makes a read of a reader into a room that may be left, and returns its answer, and what was left.
pub fn asked<T>(room: &mut [u8], read: impl FnOnce(&mut [u8]) -> T) -> (T, Option<Later>) {
    ASKED.set(Some((room.as_ptr(), room.len())));
    let answer = read(room);
    ASKED.set(None);
    (answer, LEFT.take())
}

/// Leaves a read of a regular file into a room, if that was asked for, and if the file has bytes for all of it. Returns
/// their number.
pub fn left(file: &Arc<File>, room: &[u8]) -> Option<usize> {
    if ASKED.get() != Some((room.as_ptr(), room.len())) {
        return None;
    }
    let place = (&**file).stream_position().ok()?;
    let len = room.len();
    if file.metadata().ok()?.len().saturating_sub(place) < len as u64 {
        return None;
    }
    (&**file).seek(SeekFrom::Start(place + len as u64)).ok()?;
    LEFT.set(Some(Later { file: Arc::clone(file), place, len }));
    Some(len)
}
