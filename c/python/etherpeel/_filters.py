"""Filters of packets and frames."""
from __future__ import annotations

import ctypes as C
import struct
from functools import lru_cache
from typing import Any, Iterable, Iterator, List, Optional, Tuple, Type, Union

from . import _header
from ._captures import FIELDS, SIZE, Capture, Captured, Packets, told
from ._header import Decision, FilterErrorKind, Start, Status
from ._library import READ, Lent, get_buffer, lent, lib, number, release_buffer, required, text, writer
from ._types import Buffer, FilterError, begun


class Filter:
    """A filter that is read once, for many packets.

        vlan_5 = etherpeel.Filter("vlan 5 and not arp")
        for packet in etherpeel.open("f.pcap"):
            if vlan_5.matches(packet):
                print(packet.time_ns)

    The expression is in words of pcap-filter(7): a primitive, or several with `not`, `and`, `or` and parentheses.
    Primitives:

        vlan, vlan N            a VLAN tag; one with the identifier N
        outer vlan N            the first VLAN tag has the identifier N
        inner vlan N            the last of two or more VLAN tags has the identifier N
        macsec                  a MACsec SecTag
        ether proto N           the ether type N is announced; arp, ip, ip6 for 0x0806, 0x0800, 0x86DD
        ether src A, dst A      the address of the source or the destination; ether host A for either
        ether broadcast         the destination is all stations; ether multicast for any group
        refused                 a header is cut short or malformed
        cut                     fewer bytes were captured than were on the wire
        less N, greater N       at most, or at least, N bytes were on the wire
        vlan.pcp                a header has the field, which is the `column` of a `FieldName`
        vlan.pcp >= V           the same with ==, !=, <, <=, >; after & MASK only its bits count
        arp.op in {V, V}        a value of the field is in the set
        eth.src[0:3] == V       a slice of the field's bytes
        frame.time > V          the packet's time, as 2026-11-01T00:00:00Z; also frame.captured and frame.original

    The expression is about the frame that `captured_frame` returns. A packet for which that is None is never selected,
    not even by `not`.

    **Packets that were cut.** `matches` and `select` go by the captured bytes alone, as if the packet ended with them:
    `not vlan 5` holds for a packet that was cut before its tag. `decide` returns `Decision.UNDECIDED` for each packet
    for which the missing bytes count.

    A filter can be pickled and used by several threads at once. Two filters are equal if their texts are. Raises
    `FilterError` if the text is not an expression.
    """

    __slots__ = "_text", "_read"
    _text: str

    def __init__(self, text: str) -> None:
        self._text, self._read = text, _read(text)

    @property
    def text(self) -> str:
        """The expression."""
        return self._text

    def matches(self, packet: Union[Captured, Buffer], start: Start = Start.ETHERNET2, *,
                ether_type: Optional[int] = None) -> bool:
        """Whether the filter selects a packet by its captured bytes, or a frame.

        A frame that is given as bytes begins with what `start` says, was not cut, and has no time; one of cooked
        capture is read as `captured_frame` does. `start` and `ether_type` count for such a frame alone.
        """
        return self._asked(lib.etherpeel_filter_matches, packet, start, ether_type) == 1

    def decide(self, packet: Union[Captured, Buffer], start: Start = Start.ETHERNET2, *,
               ether_type: Optional[int] = None) -> Decision:
        """Whether the filter selects a packet whatever the bytes are that were cut off, up to its original length. If
        that depends on them, the packet is `Decision.UNDECIDED`. A frame that is given as bytes never is."""
        return Decision(self._asked(lib.etherpeel_filter_decide, packet, start, ether_type))

    def needed(self, packet: Union[Captured, Buffer], start: Start = Start.ETHERNET2, *,
               ether_type: Optional[int] = None, original_len: Optional[int] = None) -> Optional[int]:
        """How many bytes a decision needs at least: with fewer the filter stays undecided, whatever bytes follow those
        that are there. None if these decide. A program that reads a frame in parts can ask for as many:

            etherpeel.Filter("vlan").needed(frame[:12])   # 13: no VLAN tag follows if that byte is 0x08

        A frame that is given as bytes had `original_len` bytes before it was cut. By default its length is not known;
        `less`, `greater` and `frame.original` then take it for 4294967295, the greatest. `cut` and `frame.captured` are
        about the bytes that are given.

        For a packet of a capture the bytes are those of the packet, and the result is None where `decide` decides. The
        primitives about lengths are then about its `frame`. If the header of a cooked capture is cut, the result is the
        length of that header, whatever the filter is.
        """
        if isinstance(packet, Captured):
            return self._needed_of(packet)
        total = 2**32 - 1 if original_len is None else number("original_len", original_len, 32)
        decision, needed = C.c_uint32(), C.c_size_t()
        with lent(packet) as (at, length):
            words = self._read, *begun(start, ether_type), at, length, total
            required(lib.etherpeel_filter_frame(*words, C.byref(decision), C.byref(needed)))
        return needed.value if decision.value == Decision.UNDECIDED else None

    def select(self, packets: Iterable[Union[Captured, Buffer]]) -> List[bool]:
        """What `matches` returns for each packet; frames that are given as bytes begin with an Ethernet II header. For
        a `Capture` these are the packets before its `fault`, which raises nothing."""
        if isinstance(packets, Capture):
            return [mark == 1 for mark in marks(self._read, packets, 0, len(packets))]
        return [self.matches(packet) for packet in packets]

    def _needed_of(self, packet):
        """How many bytes of a packet of a capture decide."""
        if self.decide(packet) != Decision.UNDECIDED:
            return None
        captured_len, header_len = len(packet.packet), _HEADER_LENS.get(packet.link_type, 0)
        if captured_len < header_len:
            return header_len
        frame = packet.frame
        total = len(frame.bytes) + packet.original_len - captured_len
        needed = self.needed(frame.bytes, frame.start, ether_type=frame.ether_type, original_len=total)
        return captured_len + 1 if needed is None else frame.offset + needed

    def _asked(self, call, packet, start, ether_type):
        if not isinstance(packet, Captured):
            packet = self._captured(packet, *begun(start, ether_type))
        try:
            room = _idle.pop()
        except IndexError:
            room = _room()
        try:
            return _asked_in(room, call, self._read, packet)
        finally:
            _idle.append(room)

    def _captured(self, frame, start, ether_type):
        """A frame as a captured packet. Without a link's header it becomes one of cooked capture v2: no filter is about
        the header of that, but for its length among the captured bytes."""
        view = memoryview(frame)
        if start != Start.ETHER_TYPE:
            link_type, fcs_len = _LINKS[start]
            return Captured(view, None, link_type, view.nbytes, fcs_len)
        if "frame.captured" in self._text:
            raise ValueError("frame.captured is not defined for a frame without a link's header")
        header = struct.pack(">HHIHBB8x", ether_type, 0, 0, 1, 0, 0)
        return Captured(memoryview(header + view.tobytes()), None, 276, view.nbytes, None)

    def __reduce__(self) -> Tuple[Type[Filter], Tuple[str]]:
        return type(self), (self._text,)

    def __copy__(self) -> Filter:
        return self

    def __repr__(self) -> str:
        return f"etherpeel.Filter({self._text!r})"

    def __eq__(self, other: object) -> bool:
        return self._text == other._text if isinstance(other, Filter) else NotImplemented

    def __hash__(self) -> int:
        return hash((Filter, self._text))


_LINKS = {Start.ETHERNET2: (1, None), Start.ETHERNET2_FCS: (1, 4), Start.LINUX_SLL: (113, None)}
_HEADER_LENS = {113: 16, 276: 20}  # of cooked captures, by the link type
_WITH_GREATEST = FilterErrorKind.NUMBER, FilterErrorKind.VLAN_ID_OR_OPERATOR, FilterErrorKind.BYTES


def select(expression: Union[str, Filter], packets: Iterable[Captured]) -> Iterator[Captured]:
    """The packets that a filter selects by their captured bytes, in their order, as they are asked for.

        for packet in etherpeel.select("vlan 291 and not arp", etherpeel.open("f.pcap")):
            print(packet.time_ns)

    `Filter` says what an expression is, and what is selected of packets that were cut. Raises `FilterError`, before any
    packet is read, if the text is not an expression.
    """
    read = expression._read if isinstance(expression, Filter) else _read(expression)
    if isinstance(packets, Capture):
        packets = iter(packets)
    if isinstance(packets, Packets):
        return _selected_at_once(read, packets)
    return _selected(read, packets)


def _read(expression):
    """The filter that a text means."""
    if not isinstance(expression, str):
        raise TypeError(f"a filter is a str, not {type(expression).__name__}")
    return _parsed(expression)


@lru_cache(maxsize=64)
def _parsed(expression):
    """The filter that a text means. Calls only read it, so that threads may share it."""
    words, read, error = expression.encode(), _header.Filter(), _header.FilterError()
    if lib.etherpeel_filter_parse(words, len(words), C.byref(read), C.byref(error)) == Status.BAD_FILTER:
        kind = FilterErrorKind(error.kind)
        raise FilterError(text(lib.etherpeel_filter_error_text, words, len(words)), error.offset, kind,
                          error.greatest if kind in _WITH_GREATEST else None)
    return read


def marks(read, capture, first, count):
    """For `count` packets of a capture, from the index `first` on, 1 if a filter selects the packet, else 0."""
    if not count:
        return b""
    found = (C.c_uint8 * count)()
    packets = C.cast(C.byref(capture._all(), first * SIZE), C.POINTER(_header.Captured))
    required(lib.etherpeel_filter_select(read, packets, count, found, count))
    return bytes(found)


def _selected_at_once(read, packets):
    """The remaining packets of an iterator over a capture that a filter selects."""
    while packets.next < packets.count:
        first = packets.next
        count = min(_AT_ONCE, packets.count - first)
        found = marks(read, packets.capture, first, count)
        at = found.find(1)
        while at >= 0:
            index = first + at
            if packets.next <= index:  # else others took it meanwhile
                packets.next = index + 1
                yield packets.capture._packet(index)
            at = found.find(1, packets.next - first)
        if packets.next < first + count:
            packets.next = first + count
    try:
        packets.stop()
    except StopIteration:
        return


_AT_ONCE = 4096  # packets that a filter is asked of in one call


def _selected(read, packets):
    """The packets of any iterable that a filter selects. All share one room."""
    room, matches = _room(), lib.etherpeel_filter_matches
    for packet in packets:
        if _asked_in(room, matches, read, packet):
            yield packet


# A packet is passed in memory that is kept for a later one. No two calls have the same at a time: neither those of
# other threads, nor one that a signal handler makes while another is being made.
_idle: List[Any] = []  # what no call has: `pop` and `append` are atomic


def _room():
    """A struct for a packet, and its bytes; and a loan."""
    one, loan = _header.Captured(), Lent()
    return C.byref(one), memoryview(one).cast("B"), loan, C.byref(loan)


def _asked_in(room, call, read, packet):
    """What a call returns of a packet, which is written to a struct at once."""
    passed, memory, loan, lends = room
    get_buffer(_bytes_of(packet), lends, READ)
    try:
        time, fcs_len = packet.time_ns, packet.fcs_len
        _pack(memory, 0, loan.buf or 0, loan.len, *(_NO_TIME if time is None else divmod(time, 10**9)),
              packet.original_len, packet.link_type, time is not None, fcs_len is not None, fcs_len or 0)
        return call(read, passed)
    except struct.error:
        told(packet, loan.buf, loan.len)  # says which number has too many bits
        raise
    finally:
        release_buffer(lends)


def _bytes_of(packet):
    try:
        return packet.packet
    except AttributeError:
        raise TypeError(f"a packet is a Captured, not {type(packet).__name__}") from None


_pack = writer(_header.Captured, FIELDS)
_NO_TIME = 0, 0
