"""The bytes of a capture file: where they come from, and what is compressed in them."""
import importlib
import io
import mmap
import os
import sys

_CHUNK = 65_536
_SMALL = 1_024
# how a compressed file begins, what made it, and what unpacks it
_FORMS = [
    (b"\x1f\x8b", "gzip", lambda: importlib.import_module("zlib").decompressobj(31)),
    (b"BZh", "bzip2", lambda: importlib.import_module("bz2").BZ2Decompressor()),
    (b"\xfd7zXZ\0", "xz", lambda: importlib.import_module("lzma").LZMADecompressor()),
    (b"\x5d\0\0", "lzma", lambda: importlib.import_module("lzma").LZMADecompressor()),
    (b"\x28\xb5\x2f\xfd", "zstd", lambda: importlib.import_module("compression.zstd").ZstdDecompressor()),
]


def content_of(source):
    """A view of the bytes of a capture file, unpacked if they are compressed; and why they can't be unpacked further,
    or None."""
    view = _memory(source)
    if not any(view[:len(magic)] == magic for magic, *_ in _FORMS):
        return view, None
    stream = Stream(view)
    return memoryview(b"".join(iter(lambda: stream.read(_CHUNK), b""))), stream.why


def _opened(source):
    """The file of a source, or a view of its bytes; and whether the file was opened here."""
    if isinstance(source, str) and source == "-":
        source = sys.stdin
    if isinstance(source, (str, os.PathLike)):
        return open(source, "rb", buffering=0), True
    if hasattr(source, "read") and not isinstance(source, mmap.mmap):
        return getattr(source, "buffer", source), False
    try:
        return memoryview(source).cast("B"), False
    except TypeError:
        raise TypeError(f"a capture is a path, an open file or bytes, not {type(source).__name__}") from None


def _memory(source):
    """A view of the bytes of a source."""
    file, is_own = _opened(source)
    if isinstance(file, memoryview):
        return file
    try:
        return _content(file)
    finally:
        if is_own:
            file.close()


def _content(file):
    """A view of the bytes of an open file from its position on. Only a plain file has the bytes that its descriptor
    names: a compressed one has a descriptor too."""
    raw = file.raw if type(file) in (io.BufferedReader, io.BufferedRandom) else file
    if type(raw) is io.FileIO:
        try:
            where = file.tell()
            return memoryview(mmap.mmap(file.fileno(), 0, access=mmap.ACCESS_READ))[where:]
        except (OSError, ValueError):
            pass  # a pipe, or an empty file
    return memoryview(_bytes(file.read()))


def _bytes(content):
    """What a file has returned, if it is open for bytes."""
    if isinstance(content, str):
        raise TypeError("a capture is read from a file that is open for bytes, not for text")
    if content is None:
        raise BlockingIOError("the file has no bytes yet")
    return content


class Stream:
    """The bytes of a source as they come, unpacked if they are compressed."""

    def __init__(self, source):
        self._file, self._is_own = _opened(source)
        self._take = _taking(self._file)
        self._front, self._is_known = b"", False  # the first bytes, and whether they are enough to tell the form
        self._form, self._unpacker, self._pieces, self._is_at_end = None, None, iter(()), False
        self.why = None  # why the bytes can't be unpacked further

    def read(self, least):
        """Further bytes: at least one, or none at the end. Of a file that can't say which bytes are there, and is not
        compressed, at most `least`."""
        if not self._is_known:
            self._find_form(least)
            if self._form is None:
                return self._front
            self._pieces = self._unpacked(self._front)
        if self._form is None:
            return self._take(least)
        piece = next(self._pieces, b"")
        while not piece and not self._is_at_end:
            packed = self._take(_CHUNK)
            if packed:
                self._pieces = self._unpacked(packed)
                piece = next(self._pieces, b"")
            else:
                self._end(self._why_not("it ends too early") if self._unpacker else None)
        return piece

    def close(self):
        """Closes the file, if it was opened here, and forgets the source."""
        if self._is_own:
            self._file.close()
        self._file, self._is_own, self._take = None, False, None

    def _find_form(self, least):
        """Reads the first bytes, until they tell whether the source is compressed, and how."""
        while any(magic.startswith(self._front) for magic, *_ in _FORMS):
            more = self._take(least)
            if not more:
                break
            self._front += more
        self._is_known = True
        self._form = next((form for form in _FORMS if self._front.startswith(form[0])), None)

    def _unpacked(self, packed):
        """What is unpacked of further bytes of the source, in pieces."""
        try:
            while packed:
                if self._unpacker is None:
                    packed = packed.lstrip(b"\0")  # some programs append zeros to a stream
                    if not packed:
                        break
                    self._unpacker = self._form[2]()
                yield from _pieces(self._unpacker, packed)
                if not self._unpacker.eof:
                    break
                packed, self._unpacker = self._unpacker.unused_data, None
        except ImportError:
            self._end(f"this Python cannot unpack {self._form[1]}")
        except Exception as error:  # each form has errors of its own
            self._end(self._why_not(error))

    def _why_not(self, error):
        return f"the file cannot be unpacked further ({self._form[1]}): {error}"

    def _end(self, why):
        self._is_at_end, self.why = True, why


def _taking(file):
    """A call for further bytes of a file. It takes the bytes that are there; or as many as it is passed, if the file
    can't say which are there."""
    if isinstance(file, memoryview):
        pieces = (bytes(file[at:at + _CHUNK]) for at in range(0, len(file), _CHUNK))
        return lambda least: next(pieces, b"")
    if hasattr(file, "read1"):
        return lambda least: bytes(_bytes(file.read1(_CHUNK)))
    is_raw = isinstance(file, io.RawIOBase)
    return lambda least: bytes(_bytes(file.read(_CHUNK if is_raw else least)))


def _pieces(unpacker, packed):
    """What is unpacked of some bytes, in pieces. Up to 1 KiB before an error can be lost, but nothing of gzip."""
    while not unpacker.eof:
        kept = unpacker.copy() if hasattr(unpacker, "copy") else None
        most = _CHUNK if kept else _SMALL
        try:
            piece = unpacker.decompress(packed, most)
        except Exception:
            yield from filter(None, [_before_error(kept, packed)])
            raise
        packed = getattr(unpacker, "unconsumed_tail", b"")
        if piece:
            yield piece
        if len(piece) < most and not packed:
            break


def _before_error(unpacker, packed):
    """What an unpacker of gzip makes of some bytes before the one that can't be unpacked."""
    parts = []
    try:
        for at in range(len(packed) if unpacker else 0):
            parts.append(unpacker.decompress(packed[at:at + 1]))
    except Exception:
        pass  # the same error
    return b"".join(parts)
