"""Whole frames and captures that are written."""
from __future__ import annotations

import ctypes as C
import os
from typing import BinaryIO, Optional, Sequence, Tuple, Union

from ._captures import Captured, told
from ._header import Status
from ._library import lent, lib, number, required
from ._replacing import all_passed
from ._types import Buffer, BuildError, Header


def write_frame(headers: Sequence[Header], rest: Buffer = b"") -> bytes:
    """The frame of these headers as they are, outermost first, and of the bytes after them: payload or padding, integrity check value,
    frame check sequence. The headers of a frame that was read can be changed before:

        units = etherpeel.walk(frame)
        headers = [unit.header for unit in units]
        headers[1] = headers[1]._replace(vid=7)
        etherpeel.write_frame(headers, frame[units[-1].offset + units[-1].header_len:])

    The first header is of Ethernet II or cooked capture. Up to eight VLAN tags and SecTags may follow, and an ARP packet may be the
    last. No field is set by what follows it, and nothing is computed anew. Raises `BuildError` if there is no such frame.
    """
    units, addresses = all_passed(headers)
    length, content = C.c_size_t(), addresses + bytes(memoryview(rest))
    words = (units, len(units), content, len(content), len(addresses))
    status = lib.etherpeel_write_frame(*words, None, 0, C.byref(length))
    if status != Status.NO_ROOM:
        raise BuildError(Status(status), length.value)
    target = C.create_string_buffer(length.value)
    required(lib.etherpeel_write_frame(*words, target, length.value, C.byref(length)))
    return target.raw


def opened_target(target: Union[str, os.PathLike[str], BinaryIO]) -> Tuple[BinaryIO, bool]:
    """The file that a target names, and whether it was opened here."""
    if isinstance(target, (str, os.PathLike)):
        return open(target, "wb"), True
    if not hasattr(target, "write"):
        raise TypeError(f"target is a path, or a file that is open for writing, not {type(target).__name__}")
    return target, False


def write_all(file: BinaryIO, content: bytes) -> None:
    """Writes all bytes, also to a file that takes some of them at a time."""
    count = file.write(content)
    while isinstance(count, int) and count < len(content):
        content = content[count:]
        count = file.write(content)


class Writer:
    """Writes a classic capture file, which libpcap reads: little-endian, with times in nanoseconds.

        with etherpeel.Writer("f.pcap") as file:
            for packet in etherpeel.open("g.pcapng"):
                file.write(packet)

    The target is a path, or a file that is open for writing bytes. All packets have one `link_type`; longer packets were cut to
    `snap_len`, and `fcs_len` is the length in bytes of the frame check sequence of each packet, if it is known. `close`, or the end of
    a `with`, closes the file if the writer has opened it. Raises `OSError` if the file can't be written.
    """

    def __init__(self, target: Union[str, os.PathLike[str], BinaryIO], link_type: int = 1, snap_len: int = 262144,
                 fcs_len: Optional[int] = None) -> None:
        self._link_type = number("link_type", link_type, 16)
        header = (C.c_uint8 * 24)()
        length = number("fcs_len", fcs_len or 0, 8)
        if length % 2 or length > 30:
            raise ValueError(f"fcs_len is even, and at most 30, not {length}")
        required(lib.etherpeel_capture_header(self._link_type, number("snap_len", snap_len, 32), length, header))
        self._file, self._is_own = opened_target(target)
        write_all(self._file, bytes(header))

    def write(self, packet: Union[Captured, Buffer], time_ns: Optional[int] = None, original_len: Optional[int] = None) -> None:
        """Writes a packet: one of a capture, or bytes that were captured at a time in nanoseconds since 1970, of a packet that had a
        length before it was cut. A packet without a time gets the time 0.

        Raises `ValueError` if the packet has another link type, more than 262,144 bytes, or a time from the year 2106 on; nothing of
        it is written then."""
        if not isinstance(packet, Captured):
            view = memoryview(packet).cast("B")
            packet = Captured(view, time_ns, self._link_type, len(view) if original_len is None else original_len, None)
        elif packet.link_type != self._link_type:
            raise ValueError(f"link_type of the packet is {packet.link_type}, that of the file {self._link_type}")
        header = (C.c_uint8 * 16)()
        with lent(packet.packet) as (at, length):
            if lib.etherpeel_capture_record(C.byref(told(packet, at, length)), header):
                raise ValueError("the packet has more than 262144 bytes" if length > 262144 else "time_ns is above 32 bits of seconds")
        write_all(self._file, bytes(header) + packet.packet)

    def close(self) -> None:
        """Closes the file, if the writer has opened it."""
        if self._is_own:
            self._file.close()

    def __enter__(self) -> Writer:
        return self

    def __exit__(self, *_: object) -> None:
        self.close()
