"""VLAN tags changed in place."""
from __future__ import annotations

import ctypes as C
from typing import Optional

from . import _header
from ._header import Start, Status
from ._library import WRITE, lent, lib, number
from ._types import TagError, Vlan, WritableBuffer, begun
from ._walks import vlan_of


def _changed(status):
    if status != Status.DONE:
        raise TagError(Status(status))


def _told(tag):
    """A tag as a struct of C."""
    if not isinstance(tag, Vlan):
        raise TypeError(f"tag is a Vlan, not {type(tag).__name__}")
    return _header.Vlan(vid=_fitting("vid", tag.vid, 12), pcp=_fitting("pcp", tag.pcp, 3),
                        dei=_fitting("dei", tag.dei, 1))


def _fitting(name, value, bits):
    try:
        return number(name, value, bits)
    except ValueError as error:
        raise TagError(Status.BAD_FIELD, str(error)) from None


def pop_vlan(frame: WritableBuffer, start: Start = Start.ETHERNET2) -> Vlan:
    """Takes off the VLAN tag after the link's header, in place, and returns it. The frame is then
    `memoryview(frame)[4:]`.

    Raises `TagError` if there is no such tag, and `BufferError` if the frame can't be written to. A frame check
    sequence is unchanged, and doesn't fit the new bytes.
    """
    tag = _header.Vlan()
    with lent(frame, WRITE) as (at, length):
        _changed(lib.etherpeel_pop_vlan(Start(start), 0, at, length, C.byref(tag)))
    return vlan_of(tag)


def push_vlan(buffer: WritableBuffer, tag: Vlan, tpid: int = 0x8100, start: Start = Start.ETHERNET2) -> None:
    """Puts a VLAN tag after the link's header, in place. The frame is `memoryview(buffer)[4:]` before the call, and the
    whole buffer after it. The tag gets the ether type of the link's header, which becomes `tpid`; `tag.ether_type` is
    ignored.

    Raises `TagError` if the tag is not put in, and `BufferError` if the buffer can't be written to. A frame check
    sequence is unchanged, and doesn't fit the new bytes.
    """
    told = _told(tag)
    with lent(buffer, WRITE) as (at, length):
        _changed(lib.etherpeel_push_vlan(Start(start), 0, at, length, C.byref(told), number("tpid", tpid, 16)))


def set_vlan_id(frame: WritableBuffer, index: int, vid: int, start: Start = Start.ETHERNET2, *,
                ether_type: Optional[int] = None) -> None:
    """Sets the identifier of a VLAN tag, in place. The index counts the VLAN tags and SecTags of the frame, the
    outermost from 0.

    Raises `TagError` if there is no VLAN tag at the index, or the identifier is above 4095, and `BufferError` if the
    frame can't be written to.
    """
    words, vid = begun(start, ether_type), _fitting("vid", vid, 12)
    with lent(frame, WRITE) as (at, length):
        _changed(lib.etherpeel_set_vlan_id(*words, at, length, number("index", index, 64), vid))


def set_vlan_tag(frame: WritableBuffer, index: int, tag: Vlan, start: Start = Start.ETHERNET2, *,
                 ether_type: Optional[int] = None) -> None:
    """Sets the priority code point, the drop eligible indicator and the identifier of a VLAN tag, in place. Otherwise
    as `set_vlan_id`. The ether type after the tag is unchanged."""
    told, words = _told(tag), begun(start, ether_type)
    with lent(frame, WRITE) as (at, length):
        _changed(lib.etherpeel_set_vlan_tag(*words, at, length, number("index", index, 64), C.byref(told)))


def set_tpid(frame: WritableBuffer, index: int, tpid: int, start: Start = Start.ETHERNET2, *,
             ether_type: Optional[int] = None) -> None:
    """Sets the ether type that announces a VLAN tag, in place, to 0x8100, 0x88A8 or 0x9100. It is in the header before
    the tag. Raises `TagError` also for any other ether type, and if the frame begins with the tag; otherwise as
    `set_vlan_id`."""
    words = begun(start, ether_type)
    with lent(frame, WRITE) as (at, length):
        _changed(lib.etherpeel_set_tpid(*words, at, length, number("index", index, 64), number("tpid", tpid, 16)))
