"""Capture files, and their packets."""
from __future__ import annotations

import ctypes as C
import json
import os
from typing import Any, Dict, Iterator, List, NamedTuple, Optional, Protocol, Sequence, Union, overload

from . import _header
from ._header import Start, Status
from ._library import Error, StatusError, between, instance, lent, lib, number, reader, text
from ._reading import Interface, interfaces_of
from ._sources import content_of
from ._tables import Table, table_of
from ._types import Buffer, Field, Packet, Summary, Unit
from ._walks import fields, packet as packet_of, summary, walk


def start_of_link_type(link_type: int) -> Optional[Start]:
    """How the walk of packets of a link type of libpcap starts; None if no walk starts with such packets."""
    start = lib.etherpeel_start_of_link_type(number("link_type", link_type, 32))
    return Start(start) if start else None


class Captured(NamedTuple):
    """A packet of a capture file. It is pickled with a copy of its bytes."""

    packet: memoryview
    """The captured bytes, where they are in the file; a `Reader` copies them."""
    time_ns: Optional[int]
    """The time of the capture in nanoseconds since 1970, UTC, if it has one."""
    link_type: int
    original_len: int
    """The length of the packet in bytes before it was cut."""
    fcs_len: Optional[int]
    """The length in bytes of the frame check sequence, before the packet was cut, if the file gives it."""

    @property
    def start(self) -> Optional[Start]:
        """How the walk of the packet starts; None if no walk starts with such a packet, as for Linux cooked capture v2,
        whose payload `captured_frame` returns. An Ethernet frame that was not cut has a frame check sequence if the
        file gives it 4 bytes."""
        start = start_of_link_type(self.link_type)
        if start == Start.ETHERNET2 and self.fcs_len == 4 and len(self.packet) == self.original_len:
            return Start.ETHERNET2_FCS
        return start

    @property
    def frame(self) -> Optional[Frame]:
        """The part of the packet that is walked, as `captured_frame` returns it; None if nothing is walked."""
        return captured_frame(self)

    def json(self, number: int = 1) -> str:
        """The packet as an object of JSON, as `ether_capture --format json` prints it."""
        return _line(self, "json", number)

    def as_dict(self, number: int = 1) -> Dict[str, Any]:
        """What `json` says, as a dictionary."""
        return json.loads(self.json(number))

    def brief(self, number: int = 1) -> str:
        """The packet on one line for the eye, as `ether_capture --format brief` prints it."""
        return _line(self, "brief", number)

    def columns(self, names: str, number: int = 1) -> List[str]:
        """The columns of these names, with a comma between two, as `ether_capture --fields` prints them. A column has
        the values of all headers that have the field, with a comma between two, or is empty.

            source, vids = packet.columns("eth.src,vlan.vid")

        Raises `Error` if a name is not that of a column, or if there are more than 32."""
        if not isinstance(names, str):
            raise TypeError(f"names is a str, not {type(names).__name__}")
        if names in ("json", "brief"):
            raise _no_columns(names)
        return _line(self, names, number).split("\t")

    def __copy__(self) -> Captured:
        return self

    def __reduce__(self):
        return _unpickled, (type(self), bytes(self.packet), *self[1:])


def _unpickled(kind, content, *others):
    """A tuple that begins with a view, from a pickle that has the bytes of the view."""
    return kind(memoryview(content), *others)


class CaptureError(Error):
    """The packets of a capture file end before the file does: the text says why."""

    def __init__(self, text: str, offset: int, needed: int):
        super().__init__(text)
        self.offset = offset
        """The offset of the header, record or block that can't be read."""
        self.needed = needed
        """The minimum number of bytes that it needs, if the file ends within it; else 0."""


class Readable(Protocol):
    """A file that is open for reading bytes."""

    def read(self) -> bytes: ...


class Capture(Sequence[Captured]):
    """The packets of a capture file, in their order: a sequence, as `open` returns it.

    If the file can't be read to its end, a loop over it raises a `CaptureError` after the last packet; `fault` has the
    same error. The length, an index and a slice are about the packets before the fault, and raise nothing for it. At
    the end of a `with`, or by `close`, the capture gives its memory back; packets that were taken from it keep theirs.
    """

    def __init__(self, source: Union[str, os.PathLike[str], Readable, Buffer]) -> None:
        self._view, self._broken = content_of(source)
        with lent(self._view) as (at, length):
            count, end = C.c_size_t(), _header.CaptureEnd()
            lib.etherpeel_capture(at, length, None, 0, C.byref(count), C.byref(end))
            structs = (_header.Captured * count.value)()
            status = lib.etherpeel_capture(at, length, structs, count.value, C.byref(count), C.byref(end))
        self._at, self._structs, self._end, self._status = at, structs, end, status
        self._memory = memoryview(structs).cast("B") if len(structs) else b""
        self._described: Any = None

    @property
    def fault(self) -> Optional[CaptureError]:
        """Why the packets end before the file does; None if they don't."""
        self._all()
        if self._broken and self._status != Status.BAD_CAPTURE:
            return CaptureError(f"At byte {self._end.offset}: {self._broken}", self._end.offset, self._end.needed)
        if self._status == Status.DONE:
            return None
        with lent(self._view) as (at, length):
            return CaptureError(text(lib.etherpeel_capture_fault_text, at, length), self._end.offset, self._end.needed)

    def table(self) -> Table:
        """A table with a row of numbers for each packet: time, lengths, addresses, VLAN identifiers, ether type, fault. One call
        writes all rows.

            frame = etherpeel.open("f.pcap").table().to_pandas()
            frame.groupby("vlan_1")["original_len"].sum()
        """
        return table_of(self._all())

    @property
    def interfaces(self) -> List[Interface]:
        """The interfaces that the sections of a pcapng file describe, in the order of the file; none in a classic
        file."""
        return list(self._all_described()[0])

    def interface(self, index: int) -> Optional[Interface]:
        """The interface of the packet at an index; None in a classic file."""
        interfaces, places = self._all_described()
        place = places[index]
        return interfaces[place] if place >= 0 else None

    def close(self) -> None:
        """Gives the memory of the file back, once no packet that was taken from the capture is in use. After it the
        capture can't be used."""
        self._view = self._structs = self._memory = None

    def __len__(self) -> int:
        return len(self._all())

    def __iter__(self) -> Iterator[Captured]:
        return Packets(self)

    @overload
    def __getitem__(self, index: int) -> Captured: ...

    @overload
    def __getitem__(self, index: slice) -> List[Captured]: ...

    def __getitem__(self, index: Union[int, slice]) -> Union[Captured, List[Captured]]:
        places = range(len(self))[index]
        return self._packet(places) if isinstance(places, int) else [self._packet(at) for at in places]

    def __enter__(self) -> Capture:
        return self

    def __exit__(self, *_: object) -> None:
        self.close()

    def __repr__(self) -> str:
        if self._structs is None:
            return "<etherpeel.Capture, closed>"
        return f"<etherpeel.Capture with {len(self._structs)} packets>"

    def _all(self):
        """The packets as C wrote them, so one call can apply a filter to many; the capture keeps their bytes where they
        are."""
        if self._structs is None:
            raise ValueError("the capture is closed")
        return self._structs

    def _all_described(self):
        """The interfaces, and the place of each packet's interface among them. The file is read for them once."""
        self._all()
        if self._described is None:
            with lent(self._view) as (at, _):
                self._described = interfaces_of(at or 0, self._end.offset)
        return self._described

    def _packet(self, index):
        """The packet at an index that is not negative."""
        if self._memory is None:
            raise ValueError("the capture is closed")
        address, length, others = packet_values(self._memory, index * SIZE)
        start = address - self._at if length else 0
        return _new(Captured, (self._view[start:start + length], *others))


def packet_values(memory, offset):
    """What a struct of C in memory says of a packet: the address of its bytes, their number, and all other values of a
    `Captured`."""
    (address, packet_len, seconds, nanoseconds, original_len, link_type, has_time, has_fcs_len,
     fcs_len) = _captured(memory, offset)
    time = seconds * 10**9 + nanoseconds if has_time else None
    return address, packet_len, (time, link_type, original_len, fcs_len if has_fcs_len else None)


FIELDS = "packet packet_len seconds nanoseconds original_len link_type has_time has_fcs_len fcs_len"
_captured = reader(_header.Captured, FIELDS)
SIZE, _new = C.sizeof(_header.Captured), tuple.__new__


def open(source: Union[str, os.PathLike[str], Readable, Buffer]) -> Capture:
    """The packets of a classic pcap or pcapng file. The source is a path, `-` for standard input, a file that is open
    for reading, or the bytes of a file; each may be compressed with gzip, bzip2, xz, or, from Python 3.14 on, zstd.

        with etherpeel.open("f.pcapng.gz") as packets:
            for packet in packets:
                print(packet.brief())

    Each packet takes 40 bytes of memory. A file on disk is mapped into memory, an open one from its position on. Every
    other source is read at once by its `read()`, and what is compressed is unpacked into memory. If a mapped file is
    truncated while its packets are in use, the system kills the process (SIGBUS). So read a file that another program
    may truncate, as `tcpdump -W` does: `open(file.read())`. A `Reader` reads a file of any length in constant memory.

    Raises `OSError` if the file can't be opened or read. If its content can't be read to the end, that is the `fault`
    of the capture.
    """
    return Capture(source)


def capture(source: Union[str, os.PathLike[str], Readable, Buffer]) -> Iterator[Captured]:
    """The packets of a capture file one by one: an iterator over `open(source)`.

        for packet in etherpeel.capture("f.pcap"):
            print(packet.columns("frame.time,vlan.vid"))

    Raises `CaptureError` after the last packet if the file can't be read to its end.
    """
    return iter(open(source))


class Packets(Iterator[Captured]):
    """An iterator over a capture. A signal handler may take packets of it: between a test of `next` and the assignment
    there is no call, in which a handler could run."""

    __slots__ = ("capture", "next", "count", "is_at_end")

    def __init__(self, capture):
        self.capture, self.next, self.count, self.is_at_end = capture, 0, len(capture), False

    def __next__(self):
        index = self.next
        if index == self.count:
            self.stop()
        self.next = index + 1
        return self.capture._packet(index)

    def stop(self):
        """Raises the error, once, if there is one, and then `StopIteration`."""
        is_at_end, self.is_at_end = self.is_at_end, True
        fault = None if is_at_end else self.capture.fault
        if fault:
            raise fault
        raise StopIteration


class Frame(NamedTuple):
    """The part of a captured packet that is walked, as in `frame.walk()`. It is pickled with a copy of its bytes."""

    bytes: memoryview
    """The bytes that are walked, where they are in the packet."""
    offset: int
    """Their offset in bytes from the start of the packet."""
    start: Start
    ether_type: Optional[int]
    """The ether type that announces the frame, with `Start.ETHER_TYPE`; else None."""

    def walk(self, *, limit: Optional[int] = None) -> List[Unit]:
        """The units of the frame, as `etherpeel.walk` returns them. Offsets count from the start of the frame."""
        return walk(self.bytes, self.start, ether_type=self.ether_type, limit=limit)

    def packet(self) -> Packet:
        """All headers of the frame, as `etherpeel.packet` returns them."""
        return packet_of(self.bytes, self.start, ether_type=self.ether_type)

    def summary(self, *, limit: Optional[int] = None) -> Summary:
        """The result of the walk through the frame, as `etherpeel.summary` returns it."""
        return summary(self.bytes, self.start, ether_type=self.ether_type, limit=limit)

    def fields(self) -> List[Field]:
        """The fields of the frame's headers, as `etherpeel.fields` returns them."""
        return fields(self.bytes, self.start, ether_type=self.ether_type)

    def __copy__(self) -> Frame:
        return self

    def __reduce__(self):
        return _unpickled, (type(self), bytes(self.bytes), *self[1:])


def captured_frame(packet: Captured) -> Optional[Frame]:
    """The part of a captured packet that is walked, by its link type; None if nothing is walked.

    For Ethernet it is the packet, without its frame check sequence; that remains only if the file gives it four bytes
    and the packet was not cut. For Linux cooked capture v1 it is the packet without a frame check sequence; but it is
    the payload, after a header of 16 bytes, if the walk would refuse the header only for its hardware type, such as 772
    of the loopback device. For v2 it is the payload, after a header of 20 bytes, if the header can be read and an ether
    type announces the payload.
    """
    frame = _header.Frame()
    with lent(instance("packet", packet, Captured).packet) as (at, length):
        if lib.etherpeel_captured_frame(C.byref(told(packet, at, length)), C.byref(frame)) != Status.DONE:
            return None
    view = memoryview(packet.packet).cast("B")[frame.offset:frame.offset + frame.len]
    return Frame(view, frame.offset, Start(frame.start), frame.ether_type if frame.start == Start.ETHER_TYPE else None)


def told(packet, at, length):
    """A captured packet as a struct of C. Its bytes are lent."""
    has_time = packet.time_ns is not None
    seconds, nanoseconds = divmod(between("time_ns", packet.time_ns if has_time else 0, 0, _LAST), 10**9)
    return _header.Captured(packet=at, packet_len=length, seconds=seconds, nanoseconds=nanoseconds, has_time=has_time,
                            original_len=number("original_len", packet.original_len, 32),
                            link_type=number("link_type", packet.link_type, 16), has_fcs_len=packet.fcs_len is not None,
                            fcs_len=number("fcs_len", packet.fcs_len or 0, 8))


_LAST = 2**64 * 10**9 - 1  # the last nanosecond of a time with 64 bits of seconds


# ---- packets on one line


def _line(packet, form, count):
    """The line of a packet in a format, without the line feed at its end."""
    words = form.encode()
    with lent(packet.packet) as (at, length):
        try:
            words = words, len(words), number("number", count, 64), C.byref(told(packet, at, length))
            return text(lib.etherpeel_format, *words)[:-1]
        except StatusError as error:
            if error.status == Status.BAD_FORMAT:
                raise _no_columns(form) from None
            raise Error("the line has more than 65,536 bytes") from None


def _no_columns(names):
    return Error(f"{names!r} does not name 1 to 32 columns")
