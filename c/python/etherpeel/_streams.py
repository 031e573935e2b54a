"""Captures that are read as streams, and copied with edits."""
from __future__ import annotations

import os
import stat
from typing import Any, BinaryIO, Iterator, List, Optional, Protocol, Tuple, TypeVar, Union

from . import _header
from ._captures import Captured, CaptureError, packet_values
from ._header import ReaderState, Status
from ._library import Error, StatusError, between, lent, lib, number, written
from ._reading import Interface, Units, comments_in, texts_of
from ._sources import Stream
from ._types import Buffer
from ._writing import opened_target, write_all


class StreamSource(Protocol):
    """A file that is open for reading bytes."""

    def read(self, size: int, /) -> bytes: ...


_R = TypeVar("_R", bound="Reader")


class Reader(Iterator[Captured]):
    """Reads the packets of a classic pcap or pcapng file one after the other, as its bytes come, in constant memory.

        with etherpeel.Reader("f.pcapng") as reader:
            for packet in reader:
                print(reader.comments, packet.brief())

    The source is as for `open`: a path, `-` for standard input, a file that is open for reading, or the bytes of a
    file; each may be compressed. It can be the pipe of `tcpdump -U -w -`: each packet is returned as soon as its last
    byte is there. Packets have bytes of their own. A section has at most 65,536 interfaces.

    Raises `CaptureError` after the last packet if the file can't be read to its end, and `OSError` if the source can't
    be opened or read. A file that the reader has opened is closed at its end, at the end of a `with`, or by `close`.
    """

    def __init__(self, source: Union[str, os.PathLike[str], StreamSource, Buffer]) -> None:
        self._units, self._stream = Units(), Stream(source)
        self._is_closed = self._is_at_end = False
        self._parts: List[bytes] = []  # what was read of the source after the bytes that are kept
        self._before = 0  # the number of bytes of the file before those that are kept
        self._keep(b"")
        self._interface: Optional[Interface] = None
        self._last: Optional[Tuple[bytes, int, int, Tuple[int, int]]] = None  # the unit of the packet, in bytes

    @property
    def interfaces(self) -> List[Interface]:
        """The interfaces that the section has described so far; none in a classic file."""
        return list(self._units.interfaces)

    @property
    def interface(self) -> Optional[Interface]:
        """The interface of the packet that was read last; None in a classic file."""
        return self._interface

    @property
    def comments(self) -> Tuple[str, ...]:
        """The comments on the packet that was read last."""
        if self._last is None:
            return ()
        content, begin, end, (state, is_little_endian) = self._last
        with lent(content) as (at, _):
            kind = _header.Reader(state=state, is_little_endian=is_little_endian)
            return comments_in(texts_of(kind, at + begin, end - begin))

    def close(self) -> None:
        """Closes the file, if the reader has opened it. No packet can be read then."""
        self._is_closed = True
        self._stream.close()

    def __next__(self) -> Captured:
        while not self._reads_packet():
            pass
        return self._packet()

    def __enter__(self: _R) -> _R:
        return self

    def __exit__(self, *_: object) -> None:
        self.close()

    def __repr__(self) -> str:
        return f"<etherpeel.{type(self).__name__} at byte {self._before + self._end}>"

    def _keep(self, content: bytes) -> None:
        """Keeps bytes from which no unit was read yet. They don't move in memory while they are kept."""
        self._bytes, self._begin, self._end = content, 0, 0  # the place of the unit that was read last
        with lent(content) as (at, _):
            self._at = at

    def _reads_packet(self) -> bool:
        """Reads the next unit, and returns whether it has a packet. Raises `StopIteration` at the end of the file."""
        if self._is_closed:
            raise ValueError(f"the {type(self).__name__.lower()} is closed")
        units = self._units
        while not self._is_at_end:
            place = self._end
            status = units.read(self._at + place, len(self._bytes) - place)
            if status == Status.DONE:
                self._begin, self._end = place, place + units.len
                return units.has_packet == 1
            if status != Status.SHORT or not self._takes_more(units.needed):
                self._stop(status)
        raise StopIteration

    def _takes_more(self, needed: int) -> bool:
        """Takes bytes of the source until the next unit has as many as it needs, or there are no more. Returns whether
        there were any. If the source raises an error, those that were taken before are not lost."""
        length = len(self._bytes) - self._end
        missing = needed - length - sum(map(len, self._parts))
        while missing > 0:
            part = self._stream.read(missing)
            if not part:
                break
            self._parts.append(part)
            missing -= len(part)
        if not self._parts:
            return False
        content = b"".join([self._bytes[self._end:], *self._parts])
        self._parts.clear()
        self._before += self._end
        self._keep(content)
        return True

    def _stop(self, status: int) -> None:
        """Ends the reading, at a unit that can't be read. Raises an error if the file does not end there."""
        units, length, offset = self._units, len(self._bytes) - self._end, self._before + self._end
        self._is_at_end = True
        self._stream.close()
        is_complete = status == Status.SHORT and not length and units.state.state != ReaderState.BEGINNING
        needed = 0 if is_complete else units.needed
        if self._stream.why:
            raise CaptureError(f"At byte {offset}: {self._stream.why}", offset, needed)
        if not is_complete:
            why = units.fault_text(self._at + self._end, length)
            raise CaptureError(f"At byte {offset}: {why}", offset, needed)

    def _packet(self) -> Captured:
        """The packet of the unit that was read."""
        units = self._units
        self._last = self._bytes, self._begin, self._end, units.kind
        self._interface = units.interfaces[units.number] if units.has_interface else None
        address, length, others = packet_values(units.packet, 0)
        start = address - self._at if length else 0
        return Captured(memoryview(self._bytes[start:start + length]), *others)


class Copy(Reader):
    """Copies a classic pcap or pcapng file, while the program edits packets or leaves them out.

        arp = etherpeel.Filter("arp")
        with etherpeel.Copy("f.pcapng", "tagged.pcapng", growth=4) as copy:
            for packet in copy:
                if arp.matches(packet):
                    copy.leave_out()
                else:
                    frame = bytearray(4) + packet.packet
                    etherpeel.push_vlan(frame, etherpeel.Vlan(5))
                    copy.edit(frame)

    Everything else is copied unchanged: times, interfaces, comments, blocks that are not read. But a section header
    gives no section length, and a custom block that is not meant to be copied is left out. A copy takes the sources of
    a `Reader`, and has its attributes. The target is a path, or a file that is open for writing bytes.

    An edit may make a packet at most `growth` bytes longer; the snap lengths in the copy are raised by as many. If the
    program leaves the loop early, the copy ends with the packet that was read last. After an exception in a `with`, it
    ends with the packet before that one.

    Raises as a `Reader`; `OSError` also if the target can't be written; and `Error` at a packet that can't be copied:
    one of a simple packet block that was cut at a snap length that is raised. The block gives no captured length.
    """

    def __init__(self, source: Union[str, os.PathLike[str], StreamSource, Buffer],
                 target: Union[str, os.PathLike[str], BinaryIO], growth: int = 0) -> None:
        self._growth = number("growth", growth, 32)
        super().__init__(source)
        self._current: Optional[Captured] = None  # the packet that was read last, if it is not written yet
        self._edited: Optional[bytes] = None  # what is written in place of its unit
        try:
            if _is_same(source, target):
                raise ValueError("source and target are the same file")
            self._target, self._is_own = opened_target(target)
        except Exception:
            super().close()
            raise

    def edit(self, frame: Buffer, original_len: Optional[int] = None) -> None:
        """Replaces the captured bytes of the packet that was read last. `original_len` is its new length before it was
        cut; by default it grows or shrinks with the number of captured bytes. If `edit` and `leave_out` are called more
        than once for a packet, the last call counts.

        Raises `Error` if the frame is longer than `growth` allows, if it has more than 262,144 bytes, or if the packet
        is in a simple packet block, which gives no captured length."""
        packet = self._there()
        with lent(frame) as (at, length):
            longer = length - len(packet.packet)
            if longer > self._growth:
                raise Error(f"frame has {longer} bytes more than the packet, and growth is {self._growth}")
            if length > _MOST:
                raise Error(f"frame has {length} bytes, and a packet of a capture at most {_MOST}")
            total = max(packet.original_len + longer, 0)
            if original_len is not None:
                total = between("original_len", original_len, length, 2**32 - 1)
            words = self._units.state, *self._place(), at, length, total
            self._edited = self._made(lib.etherpeel_reader_edit, *words)

    def leave_out(self) -> None:
        """Leaves the packet that was read last out of the copy."""
        self._there()
        self._edited = b""

    def close(self) -> None:
        """Writes the packet that was read last, and closes the files that the copy has opened."""
        try:
            self._write()
        finally:
            self._shut()

    def __next__(self) -> Captured:
        self._write()
        while not self._reads_packet():
            write_all(self._target, self._copied(0))
        self._current, self._edited = self._packet(), None
        return self._current

    def __exit__(self, kind: object = None, *_: object) -> None:
        if kind is None:
            self.close()
        else:
            self._shut()

    def _there(self) -> Captured:
        if self._current is None:
            raise Error("there is no packet that was read and is not written yet")
        return self._current

    def _write(self) -> None:
        """Writes the packet that was read last."""
        if self._current is not None:
            content = self._copied(1) if self._edited is None else self._edited
            self._current = None
            write_all(self._target, content)

    def _copied(self, has_packet: int) -> bytes:
        """What the copy has for the unit that was read last, if that is not edited."""
        return self._made(lib.etherpeel_reader_copy, *self._units.begun, self._growth, has_packet, *self._place())

    def _place(self) -> Tuple[int, int]:
        """The address of the unit that was read last, and its length."""
        return self._at + self._begin, self._end - self._begin

    def _made(self, call: Any, *words: Any) -> bytes:
        """The bytes that a call writes for the unit that was read last."""
        try:
            return written(call, *words, room=self._end - self._begin)
        except StatusError as error:
            if error.status != Status.UNCOPIED:
                raise
        why = "a simple packet block gives no captured length"
        if self._current is not None and self._current.time_ns is not None:
            why = "its block would have more than 16 MiB, or its original length more than 32 bits"
        raise Error(f"At byte {self._before + self._begin}: the packet can't be edited or copied: {why}")

    def _shut(self) -> None:
        """Closes the files that the copy has opened."""
        self._current = None
        super().close()
        if self._is_own:
            self._target.close()


_MOST = 262_144  # the bytes of a packet


def _is_same(source, target):
    """Whether the target is the path of the source, which would be lost if the target were opened."""
    is_path = isinstance(source, (str, os.PathLike))
    if not isinstance(target, (str, os.PathLike)) or not is_path and not hasattr(source, "fileno"):
        return False
    try:
        found = os.stat(source if is_path else source.fileno())
        return stat.S_ISREG(found.st_mode) and os.path.samestat(found, os.stat(target))
    except OSError:
        return False
