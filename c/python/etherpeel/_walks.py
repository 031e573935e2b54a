"""The walk through a frame: its headers, its fields and its fault."""
from __future__ import annotations

import ctypes as C
from typing import List, Optional

from . import _header
from ._header import FaultKind, Layer, LenSource, RestKind, Start, Status, UnitKind
from ._library import CALLS, WRITE, Error, filled, lent, lib, number, required, text
from ._types import (Arp, Buffer, Ethernet2, Fault, Fed, Field, FieldName, LinuxSll, Macsec, Packet, Refused, Summary,
                     Unit, Vlan, WritableBuffer, begun)
from ._units import bytes_of, units_of


def _call(name, start, ether_type, at, length, limit, *rest):
    """Makes a call for a frame that is lent, with a limit or without."""
    start, ether_type = begun(start, ether_type)
    if limit is None:
        return CALLS[name](start, ether_type, at, length, *rest)
    return CALLS[name + "_limited"](start, ether_type, at, length, number("limit", limit, 64), *rest)


def _fault(fault):
    """The fault in a struct of C, None if it has none."""
    if not fault.kind:
        return None
    kind = FaultKind(fault.kind)
    return Fault(fault.offset, kind, bool(fault.closed), fault.required_len, fault.len, fault.missing,
                 Layer(fault.layer) if fault.layer else None, LenSource(fault.len_source) if fault.len_source else None,
                 fault.packet_type if kind == FaultKind.PACKET_TYPE else None,
                 fault.hardware_type if kind == FaultKind.HARDWARE_TYPE else None)


def _ethernet2(unit, _):
    header = unit.ethernet2
    return Ethernet2(bytes(header.destination), bytes(header.source), header.ether_type, bool(header.has_fcs))


def _linux_sll(unit, _):
    header = unit.linux_sll
    return LinuxSll(header.packet_type, header.hardware_type, header.address_len, bytes(header.address),
                    header.protocol)


def vlan_of(tag):
    """The VLAN tag in a struct of C."""
    return Vlan(tag.vid, tag.pcp, bool(tag.dei), tag.ether_type)


def _macsec(unit, _):
    tag = unit.macsec
    plain = not (tag.encrypted or tag.changed)
    return Macsec(tag.packet_number, tag.association_number, tag.short_len, bool(tag.encrypted), bool(tag.changed),
                  bool(tag.end_station), bool(tag.single_copy_broadcast), tag.sci if tag.sci_present else None,
                  tag.ether_type if plain else None)


def _arp(unit, at):
    packet = unit.arp
    hardware, protocol = packet.hardware_size, packet.protocol_size
    return Arp(packet.hardware_type, packet.protocol_type, packet.operation,
               C.string_at(at + packet.sender_hardware, hardware), C.string_at(at + packet.sender_protocol, protocol),
               C.string_at(at + packet.target_hardware, hardware), C.string_at(at + packet.target_protocol, protocol))


_HEADERS = {UnitKind.ETHERNET2: _ethernet2, UnitKind.LINUX_SLL: _linux_sll,
            UnitKind.VLAN: lambda unit, _: vlan_of(unit.vlan), UnitKind.MACSEC: _macsec, UnitKind.ARP: _arp}


def _unit(unit, at):
    """The unit in a struct of C, of a frame at an address."""
    return Unit(unit.offset, unit.header_len, unit.payload_start, unit.payload_end, bool(unit.closed),
                _HEADERS[unit.kind](unit, at))


def _units(at, length, start, ether_type, limit):
    """The units of a frame that is lent."""
    return [_unit(it, at) for it in filled(_header.Unit, 8, _call, "walk", start, ether_type, at, length, limit)]


def _found(at, length, start, ether_type, limit):
    found = _header.Found()
    required(_call("summary", start, ether_type, at, length, limit, C.byref(found)))
    return found


def _summary(found):
    return Summary(found.units, found.rest_start, found.rest_end, RestKind(found.rest_kind), found.rest_protocol,
                   _fault(found.fault))


def _text(at, length, start, ether_type, limit):
    return text(_call, "fault_text", start, ether_type, at, length, limit)


def walk(frame: Buffer, start: Start = Start.ETHERNET2, *, ether_type: Optional[int] = None,
         limit: Optional[int] = None) -> List[Unit]:
    """The units of a frame, from the outermost on.

    Raises `Refused` if a unit is refused, with the units before it.
    """
    content = bytes_of(frame) if limit is None else None
    if content is not None:
        units = units_of(content, *begun(start, ether_type))
        if units is not None:
            return units
    with lent(frame) as (at, length):
        words = (at, length, start, ether_type, limit)
        units, fault = _units(*words), _fault(_found(*words).fault)
        if fault:
            raise Refused(_text(*words), fault, units)
    return units


def summary(frame: Buffer, start: Start = Start.ETHERNET2, *, ether_type: Optional[int] = None,
            limit: Optional[int] = None) -> Summary:
    """The result of the walk through a frame. A refused unit is its `fault`, and raises no exception."""
    with lent(frame) as (at, length):
        return _summary(_found(at, length, start, ether_type, limit))


def packet(frame: Buffer, start: Start = Start.ETHERNET2, *, ether_type: Optional[int] = None) -> Packet:
    """All headers of a frame in one call, with at most three VLAN tags and SecTags. A refused unit is the `fault` of
    the `summary`, and raises no exception."""
    headers = _header.Headers()
    with lent(frame) as (at, length):
        required(_call("packet", start, ether_type, at, length, None, C.byref(headers)))
        units = [_unit(headers.units[i], at) for i in range(headers.found.units)]
    return Packet(units, _summary(headers.found), tuple(headers.vlan_ids[:headers.vlan_count]), headers.min_snap_len)


def fields(frame: Buffer, start: Start = Start.ETHERNET2, *, ether_type: Optional[int] = None) -> List[Field]:
    """The fields of a frame's headers, in the order of the frame, except that a frame check sequence follows the fields
    of the Ethernet II header. If a unit is refused, these are the fields of the units before it."""
    with lent(frame) as (at, length):
        words = (*begun(start, ether_type), at, length)
        return [field(it) for it in filled(_header.Field, 32, lib.etherpeel_fields, *words)]


def fault_text(frame: Buffer, start: Start = Start.ETHERNET2, *, ether_type: Optional[int] = None,
               limit: Optional[int] = None) -> str:
    """The text of the fault of a frame, "" if it is accepted."""
    with lent(frame) as (at, length):
        return _text(at, length, start, ether_type, limit)


def feed(frame: Buffer, start: Start = Start.ETHERNET2, *, ether_type: Optional[int] = None,
         limit: Optional[int] = None) -> Fed:
    """What a reader takes of a frame if it asks each time for exactly the bytes that the walk needs next."""
    fed = _header.Fed()
    with lent(frame) as (at, length):
        required(_call("feed", start, ether_type, at, length, limit, C.byref(fed)))
    return Fed(fed.refusals, fed.taken, _fault(fed.fault))


def missing(frame: Buffer, start: Start = Start.ETHERNET2, *, ether_type: Optional[int] = None,
            limit: Optional[int] = None) -> int:
    """The minimum number of further bytes that the refused unit needs, 0 if more bytes would not help."""
    count = C.c_size_t()
    with lent(frame) as (at, length):
        required(_call("missing", start, ether_type, at, length, limit, C.byref(count)))
    return count.value


def completion(frame: Buffer, start: Start = Start.ETHERNET2, *, ether_type: Optional[int] = None,
               limit: Optional[int] = None) -> bytes:
    """The fewest bytes that, appended to a frame cut short, make it accepted; empty if no bytes do."""
    fill, count = C.create_string_buffer(1028), C.c_size_t()
    with lent(frame) as (at, length):
        required(_call("completion", start, ether_type, at, length, limit, fill, len(fill), C.byref(count)))
    return fill.raw[:count.value]


def write_back(frame: Buffer, start: Start = Start.ETHERNET2, *, ether_type: Optional[int] = None,
               limit: Optional[int] = None) -> bytes:
    """The bytes of a frame's headers, and the bytes after them: the front of the frame up to `rest_end`, except that
    the two reserved bits of each SecTag are 0."""
    with lent(frame) as (at, length):
        target, count = C.create_string_buffer(length), C.c_size_t()
        required(_call("write_back", start, ether_type, at, length, limit, target, length, C.byref(count)))
    return target.raw[:count.value]


def write_back_into(target: WritableBuffer, frame: Buffer, start: Start = Start.ETHERNET2, *,
                    ether_type: Optional[int] = None, limit: Optional[int] = None) -> int:
    """Writes to the front of a target what `write_back` returns, and returns the number of these bytes.

    Raises `Error` if the target is too short or shares memory with the frame, and `BufferError` if it can't be written
    to. In each case it is unchanged.
    """
    count = C.c_size_t()
    with lent(frame) as (at, length), lent(target, WRITE) as (to, room):
        if at and to and at < to + room and to < at + length:
            raise Error("the target shares memory with the frame")
        status = _call("write_back", start, ether_type, at, length, limit, to, room, C.byref(count))
    if status == Status.NO_ROOM:
        raise Error(f"the target has {room} bytes, and {count.value} are needed")
    required(status)
    return count.value


def field(it):
    """The field in a struct of C."""
    return Field(FieldName(it.name), it.unit, it.bit_offset, it.bit_len, it.value if it.bit_len <= 64 else None)
