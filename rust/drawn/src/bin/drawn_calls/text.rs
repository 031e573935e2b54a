//! What the calls of an input return: as text, or as the digest of its numbers.
use crate::returned::Returned;
use std::fmt::{self, Write};

/// How much of a text is kept.
const ROOM: usize = 1 << 16;

/// What a digest begins with.
const BEGIN: u64 = 0xCBF2_9CE4_8422_2325;

/// What an input's calls return: its digest, and if it is text the front of that.
pub(crate) struct Text {
    is_text: bool,
    digest: u64,
    len: usize,
    front: [u8; ROOM],
}

impl Text {
    pub(crate) fn new() -> Text {
        Text {
            is_text: false,
            digest: BEGIN,
            len: 0,
            front: [0; ROOM],
        }
    }

    /// Says whether text is added from now on, or numbers are.
    pub(crate) fn set_form(&mut self, is_text: bool) {
        self.is_text = is_text;
    }

    pub(crate) fn clear(&mut self) {
        self.digest = BEGIN;
        self.len = 0;
    }

    /// The digest of all that was added.
    pub(crate) fn digest(&self) -> u64 {
        self.digest
    }

    /// The front of the text.
    pub(crate) fn front(&self) -> &str {
        match std::str::from_utf8(&self.front[..self.len]) {
            Ok(text) => text,
            Err(_) => "",
        }
    }

    /// Adds what a call returns.
    pub(crate) fn add<T: Returned + fmt::Debug>(&mut self, value: &T) -> fmt::Result {
        if self.is_text {
            return writeln!(self, "{value:?}");
        }
        value.add_to(self);
        Ok(())
    }

    /// Adds a number to the digest.
    pub(crate) fn number(&mut self, number: u64) {
        self.digest = (self.digest.rotate_left(5) ^ number).wrapping_mul(0x517C_C1B7_2722_0A95);
    }
}

impl fmt::Write for Text {
    fn write_str(&mut self, s: &str) -> fmt::Result {
        for byte in s.as_bytes() {
            self.number(u64::from(*byte));
            if self.len < ROOM {
                self.front[self.len] = *byte;
                self.len += 1;
            }
        }
        Ok(())
    }
}

/// A value that has a text besides.
pub(crate) struct WithText<'a, T>(pub(crate) &'a T);

impl<T: fmt::Debug + fmt::Display> fmt::Debug for WithText<'_, T> {
    fn fmt(&self, f: &mut fmt::Formatter<'_>) -> fmt::Result {
        write!(f, "{:?} {}", self.0, self.0)
    }
}

impl<T: Returned> Returned for WithText<'_, T> {
    fn add_to(&self, text: &mut Text) {
        self.0.add_to(text);
    }
}
