"""The units of a capture file: its headers, records and blocks, read one after the other, and the interfaces that they
describe."""
from __future__ import annotations

import ctypes as C
from array import array
from itertools import chain
from typing import NamedTuple, Optional, Tuple

from . import _header
from ._header import OptionCode, Status
from ._library import filled, lib, reader, text


class Interface(NamedTuple):
    """An interface on which packets were captured, as a section of a pcapng file describes it."""

    number: int
    """Its number in the section, from 0 on."""
    name: Optional[str]
    """Its name, as "eth0"; None if the file gives none."""
    description: Optional[str]
    """What it is, as "LAN port"; None if the file does not say it."""
    comments: Tuple[str, ...]
    link_type: int
    snap_len: int
    """The length in bytes to which longer packets were cut; 0 if there was no limit."""
    fcs_len: Optional[int]
    """The length in bytes of the frame check sequence of a packet, if the file gives it."""
    time_resolution: Optional[int]
    """The unit of the times in the file: 10^-n seconds for n below 128, else 2^-(n - 128) seconds. None if the file
    gives none: then it is a microsecond."""
    time_offset: int
    """The seconds that are added to each time in the file. They may be negative."""


class Units:
    """Reads one unit after the other. After each, `len` is its length, `needed` the minimum length that it needs if it
    is cut short, `number` that of its packet's interface, and `packet` the struct of its packet."""

    def __init__(self):
        self.state, self.interfaces = _header.Reader(), []  # another list for each section that describes interfaces
        unit, packet = _header.ReadUnit(), _header.Captured()
        self.len = self.needed = self.number = self.has_packet = self.has_interface = 0
        self.kind = 0, 0  # the state of the reader, and whether the section has the lowest byte first
        self.packet, self._unit = memoryview(packet).cast("B"), memoryview(unit).cast("B")
        self._read = C.byref(packet), C.byref(unit)
        self._resize(64)

    def read(self, at, length):
        """Reads the unit at the front of bytes at an address, and returns the status."""
        if len(self.interfaces) == self._room < _MOST:
            self._resize(32 * self._room)
        status = lib.etherpeel_reader_read(*self.begun, at, length, *self._read)
        self.len, self.needed, self.number, self.has_packet, self.has_interface = _unit(self._unit)
        if status == Status.DONE and not self.has_packet:
            self._take_notice(at)
        return status

    def fault_text(self, at, length):
        """Why the unit at the front of bytes at an address can't be read."""
        return text(lib.etherpeel_reader_fault_text, *self.begun, at, length)

    def _resize(self, room):
        """Makes a table with room for so many interfaces, with those of the section."""
        old, table = self.begun[1] if self.interfaces else b"", (_header.Interface * room)()
        C.memmove(table, old, len(self.interfaces) * C.sizeof(_header.Interface))
        self._room, self.begun = room, (self.state, table, room)

    def _take_notice(self, at):
        """Takes notice of a header, or of a block that may describe an interface."""
        self.kind = self.state.state, self.state.is_little_endian
        count = self.state.interface_count
        if count < len(self.interfaces):
            self.interfaces = []
        elif count > len(self.interfaces):
            texts = texts_of(self.state, at, self.len)
            self.interfaces.append(_interface(count - 1, self.begun[1][count - 1], texts))


_MOST = 65_536  # interfaces of a section
_unit = reader(_header.ReadUnit, "len needed interface has_packet has_interface")


def _interface(number, it, texts):
    return Interface(number, _first(texts, OptionCode.INTERFACE_NAME), _first(texts, OptionCode.INTERFACE_DESCRIPTION),
                     comments_in(texts), it.link_type, it.snap_len, it.fcs_len if it.has_fcs_len else None,
                     it.time_resolution if it.has_time_resolution else None, C.c_int64(it.time_offset).value)


def texts_of(state, at, length):
    """The texts among the options of the unit at an address, with their codes."""
    options = filled(_header.Option, 8, lib.etherpeel_reader_options, state, at, length)
    return [(it.code, C.string_at(it.value, it.value_len).decode(errors="replace")) for it in options
            if it.code in _TEXTS]


_TEXTS = frozenset(OptionCode)


def comments_in(texts):
    return tuple(value for code, value in texts if code == OptionCode.COMMENT)


def _first(texts, wanted):
    return next((value for code, value in texts if code == wanted), None)


def interfaces_of(at, length):
    """The interfaces of all sections of a capture file at an address; and for each packet the index of its interface
    among them, -1 if it has none."""
    units, offset, first, places = Units(), 0, 0, array("q")
    sections = [units.interfaces]
    while units.read(at + offset, length - offset) == Status.DONE:
        offset += units.len
        if units.interfaces is not sections[-1]:
            first += len(sections[-1])
            sections.append(units.interfaces)
        if units.has_packet:
            places.append(first + units.number if units.has_interface else -1)
    return list(chain(*sections)), places
