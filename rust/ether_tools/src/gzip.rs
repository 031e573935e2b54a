//! Captures that gzip has packed. Written by hand, not proved.
use flate2::bufread::MultiGzDecoder;
use std::io::{self, BufRead, BufReader, Chain, Cursor, Error, ErrorKind, Read};

/// How the bytes of gzip begin.
const MAGIC: [u8; 2] = [0x1F, 0x8B];

/// How many packed bytes are read at once.
const ROOM: usize = 65_536;

/// How many packed bytes are unpacked at once. If they are damaged, what they would give is lost.
const PIECE: usize = 512;

/// A reader whose bytes are unpacked, if they begin as those of gzip.
pub struct Unpacked<R> {
    state: State<R>,
}

enum State<R> {
    /// Nothing was read yet.
    New(Option<R>),
    /// The bytes are handed on as they are.
    Plain(R),
    /// The bytes are unpacked.
    Packed(Box<Unpacker<R>>),
}

impl<R: Read> Unpacked<R> {
    /// A reader that was not read yet. Its first read must have room for two bytes at least.
    pub fn new(stream: R) -> Self {
        Unpacked { state: State::New(Some(stream)) }
    }

    /// Reads for the first time.
    fn begin(&mut self, buf: &mut [u8]) -> io::Result<usize> {
        let State::New(unread) = &mut self.state else {
            return Ok(0);
        };
        let Some(mut stream) = unread.take() else {
            return Ok(0);
        };
        let count = match read_front(&mut stream, buf) {
            Ok(count) => count,
            Err(error) => {
                *unread = Some(stream);
                return Err(error);
            }
        };
        if !buf[..count].starts_with(&MAGIC) {
            self.state = State::Plain(stream);
            return Ok(count);
        }
        self.state = State::Packed(Box::new(Unpacker::new(buf[..count].to_vec(), stream)));
        self.read(buf)
    }
}

/// Reads some bytes, and more than one if the first may be that of gzip.
fn read_front<R: Read>(stream: &mut R, buf: &mut [u8]) -> io::Result<usize> {
    let count = stream.read(buf)?;
    if count == 1 && buf[0] == MAGIC[0] { Ok(1 + stream.read(&mut buf[1..]).unwrap_or(0)) } else { Ok(count) }
}

impl<R: Read> Read for Unpacked<R> {
    fn read(&mut self, buf: &mut [u8]) -> io::Result<usize> {
        match &mut self.state {
            State::New(_) => self.begin(buf),
            State::Plain(stream) => stream.read(buf),
            State::Packed(unpacker) => unpacker.read(buf),
        }
    }
}

/// What unpacks bytes, and why it can't go on, if bytes that came before are still to be handed on.
struct Unpacker<R> {
    decoder: MultiGzDecoder<Pieces<R>>,
    fault: Option<Error>,
}

impl<R: Read> Unpacker<R> {
    /// Unpacks the bytes that were read first, and those that a reader has after them.
    fn new(front: Vec<u8>, stream: R) -> Self {
        let stream = BufReader::with_capacity(ROOM, Cursor::new(front).chain(stream));
        Unpacker { decoder: MultiGzDecoder::new(Pieces { stream, may_wait: true, is_over: false }), fault: None }
    }

    /// Unpacks bytes until there is no room, or until it would have to wait for more.
    fn read(&mut self, buf: &mut [u8]) -> io::Result<usize> {
        if let Some(fault) = self.fault.take() {
            return Err(fault);
        }
        let mut count = 0;
        while count < buf.len() {
            self.decoder.get_mut().may_wait = count == 0;
            match self.decoder.read(&mut buf[count..]) {
                Ok(0) => break,
                Ok(more) => count += more,
                Err(error) if count > 0 && error.kind() == ErrorKind::WouldBlock => break,
                Err(error) => {
                    let fault = self.told(error);
                    if count == 0 {
                        return Err(fault);
                    }
                    self.fault = Some(fault);
                    break;
                }
            }
        }
        Ok(count)
    }

    /// An error of the decoder, in words that no version of it changes; another error is returned as it is.
    fn told(&self, error: Error) -> Error {
        match error.kind() {
            _ if error.raw_os_error().is_some() => error,
            ErrorKind::UnexpectedEof | ErrorKind::InvalidInput | ErrorKind::InvalidData => {
                let how = if self.decoder.get_ref().is_over { "cut" } else { "damaged" };
                Error::new(ErrorKind::InvalidData, format!("the gzip data is {how}"))
            }
            _ => error,
        }
    }
}

/// Packed bytes, some at a time. If it may not wait, it has no more than those that were read already. It is over once no
/// byte was left.
struct Pieces<R> {
    stream: BufReader<Chain<Cursor<Vec<u8>>, R>>,
    may_wait: bool,
    is_over: bool,
}

impl<R: Read> BufRead for Pieces<R> {
    fn fill_buf(&mut self) -> io::Result<&[u8]> {
        if !self.may_wait && self.stream.buffer().is_empty() {
            return Err(ErrorKind::WouldBlock.into());
        }
        let bytes = self.stream.fill_buf()?;
        self.is_over = bytes.is_empty();
        Ok(&bytes[..bytes.len().min(PIECE)])
    }

    fn consume(&mut self, count: usize) {
        self.stream.consume(count);
    }
}

impl<R: Read> Read for Pieces<R> {
    fn read(&mut self, buf: &mut [u8]) -> io::Result<usize> {
        let count = self.fill_buf()?.read(buf)?;
        self.consume(count);
        Ok(count)
    }
}
