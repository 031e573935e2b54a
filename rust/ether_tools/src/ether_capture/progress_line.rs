//! The line of `--progress`, which shows how far captures are read. Written by hand, not proved.
use std::cell::Cell;
use std::io::{self, Read, Write};
use std::time::{Duration, Instant};

/// The least time between two changes of the line.
const PAUSE: Duration = Duration::from_millis(200);

/// One line, which each change overwrites.
#[derive(Default)]
pub struct Gauge {
    is_on: Cell<bool>,
    is_shown: Cell<bool>,
}

impl Gauge {
    /// From here on the line is shown as bytes are read.
    pub fn show(&self) {
        self.is_on.set(true);
    }

    /// Ends the line, if it is shown.
    pub fn end_line(&self) {
        if self.is_shown.replace(false) {
            let _ = io::stderr().write_all(b"\n");
        }
    }

    /// Shows how many bytes were read, how many there are, if that is known, and how many thousands were read a second.
    fn tell(&self, read: u64, size: Option<u64>, rate: u64) {
        self.is_shown.set(true);
        let of = size.map_or(String::new(), |size| format!(" of {size}"));
        let _ = write!(io::stderr(), "\r{read}{of} bytes, {rate} kB/s  ");
    }
}

/// A reader, and how many of its bytes were read.
pub struct Meter<'a, R> {
    stream: R,
    gauge: &'a Gauge,
    size: Option<u64>,
    read: u64,
    times: Option<(Instant, Instant)>,
}

impl<'a, R> Meter<'a, R> {
    /// A reader, with the number of its bytes, if that is known.
    pub fn new(stream: R, size: Option<u64>, gauge: &'a Gauge) -> Self {
        Meter { stream, gauge, size, read: 0, times: None }
    }

    /// Adds the number of bytes that a read returned. Changes the line if the last change is long enough ago, and at
    /// the end.
    fn add(&mut self, count: usize) {
        let now = Instant::now();
        let (started, told) = *self.times.get_or_insert((now, now));
        self.read += count as u64;
        if count > 0 && now - told < PAUSE {
            return;
        }
        self.times = Some((started, now));
        let milliseconds = (now - started).as_millis() as u64;
        self.gauge.tell(self.read, self.size, self.read.checked_div(milliseconds).unwrap_or(self.read));
    }
}

impl<R: Read> Read for Meter<'_, R> {
    fn read(&mut self, buf: &mut [u8]) -> io::Result<usize> {
        let count = self.stream.read(buf)?;
        if self.gauge.is_on.get() {
            self.add(count);
        }
        Ok(count)
    }
}
