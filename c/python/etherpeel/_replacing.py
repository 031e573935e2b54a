"""Headers replaced in place, and packets built."""
from __future__ import annotations

import ctypes as C
from typing import Optional, Sequence, Union

from . import _header
from ._addresses import hardware_address, protocol_address
from ._header import Status, UnitKind
from ._library import WRITE, lent, lib, number, required
from ._types import (Arp, Buffer, BuildError, Difference, Ethernet2, Header, LinuxSll, Macsec, ReplaceError, Start,
                     Vlan, WritableBuffer, begun)

# the kind of a unit with such a header, and the struct of its fields
KINDS = {Ethernet2: (UnitKind.ETHERNET2, "ethernet2"), LinuxSll: (UnitKind.LINUX_SLL, "linux_sll"),
         Vlan: (UnitKind.VLAN, "vlan"), Macsec: (UnitKind.MACSEC, "macsec"), Arp: (UnitKind.ARP, "arp")}
# the bits of fields that are narrower than their type in C
BITS = {"vid": 12, "pcp": 3, "dei": 1, "association_number": 2, "short_len": 6, "end_station": 1, "sci_present": 1,
        "single_copy_broadcast": 1, "encrypted": 1, "changed": 1, "has_fcs": 1, "packet_type": 3}
ADDRESSES = {"sender_hardware": hardware_address, "sender_protocol": protocol_address,
             "target_hardware": hardware_address, "target_protocol": protocol_address}


def passed(header: Header, where: str):
    """A header as a unit of C, and the bytes that have the addresses of an ARP packet. Raises a `ValueError` if a value
    does not fit its field, and a `TypeError` if it is of another type."""
    if type(header) not in KINDS:
        raise TypeError(f"{where} is an Ethernet2, LinuxSll, Vlan, Macsec or Arp, not {type(header).__name__}")
    values, addresses = header._asdict(), b""
    if isinstance(header, Macsec):
        values.update(sci=header.sci or 0, sci_present=header.sci is not None, ether_type=header.ether_type or 0)
    if isinstance(header, Arp):
        told = [call(f"{name} of {where}", values[name]) for name, call in ADDRESSES.items()]
        values.update(_places(where, *told))
        addresses = b"".join(told)
    unit = _header.Unit()
    unit.kind, name = KINDS[type(header)]
    fields = getattr(unit, name)
    for name, kind in fields._fields_:
        setattr(fields, name, _fitting(name, where, kind, values[name]))
    return unit, addresses


def all_passed(headers):
    """Headers as units of C, and the bytes that have the addresses of an ARP packet at the end."""
    units, addresses = (_header.Unit * len(headers))(), b""
    for index, header in enumerate(headers):
        try:
            units[index], addresses = passed(header, f"the header at index {index}")
        except ValueError as error:
            raise BuildError(Status.BAD_FIELD, index, str(error)) from None
    return units, addresses


def _places(where, *addresses):
    """The sizes of the addresses of an ARP packet, and the offset of each."""
    hardware, protocol, *targets = map(len, addresses)
    if targets != [hardware, protocol]:
        raise ValueError(f"the addresses of sender and target of {where} differ in length")
    return {"hardware_size": hardware, "protocol_size": protocol, "sender_hardware": 0, "sender_protocol": hardware,
            "target_hardware": hardware + protocol, "target_protocol": 2 * hardware + protocol}


def _fitting(name, where, kind, value):
    """A value in the type of its field."""
    told = f"{name} of {where}"
    if issubclass(kind, C.Array):
        value = hardware_address(told, value)
        if len(value) != C.sizeof(kind):
            raise ValueError(f"{told} has {C.sizeof(kind)} bytes, not {len(value)}")
        return kind(*value)
    return number(told, value, BITS.get(name, 8 * C.sizeof(kind)))


def _new(header):
    """A header that is to replace another one, as a unit of C."""
    try:
        return passed(header, "the header")
    except ValueError as error:
        raise ReplaceError(Status.BAD_FIELD, text=str(error)) from None


def _replaced(status, error):
    if status != Status.DONE:
        status = Status(status)
        raise ReplaceError(status, error.tags if status == Status.NO_TAG else None,
                           Difference(error.difference) if status == Status.DIFFERS else None)


def replace_link(frame: WritableBuffer, header: Union[Ethernet2, LinuxSll], start: Start = Start.ETHERNET2) -> None:
    """Replaces the link's header at the front of a frame, in place. The new header must be of the same kind, and have
    the same ether type, or the same hardware type and protocol number.

    Raises `ReplaceError` if it is not replaced, and `BufferError` if the frame can't be written to. No other byte of
    the frame changes: a frame check sequence is unchanged, and doesn't fit the new bytes.
    """
    (unit, _), error = _new(header), _header.ReplaceError()
    with lent(frame, WRITE) as (at, length):
        _replaced(lib.etherpeel_replace_link(Start(start), 0, at, length, C.byref(unit), C.byref(error)), error)


def replace_link_ext(frame: WritableBuffer, index: int, header: Union[Vlan, Macsec], start: Start = Start.ETHERNET2, *,
                     ether_type: Optional[int] = None) -> None:
    """Replaces a VLAN tag or SecTag, in place. The index counts VLAN tags and SecTags, the outermost from 0. A new VLAN
    tag must have the ether type of the old one. A new SecTag must be encrypted or changed as the old one is, have an
    SCI exactly if that has one, and have its short length and ether type.

    Raises as `replace_link`.
    """
    (unit, _), error, words = _new(header), _header.ReplaceError(), begun(start, ether_type)
    with lent(frame, WRITE) as (at, length):
        words = (*words, at, length, number("index", index, 64))
        _replaced(lib.etherpeel_replace_link_ext(*words, C.byref(unit), C.byref(error)), error)


def replace_arp(frame: WritableBuffer, packet: Arp, start: Start = Start.ETHERNET2, *,
                ether_type: Optional[int] = None) -> None:
    """Replaces the ARP packet of a frame, after at most three VLAN tags and SecTags, in place. The addresses of the new
    packet must have the same lengths. Raises as `replace_link`."""
    (unit, addresses), error, words = _new(packet), _header.ReplaceError(), begun(start, ether_type)
    with lent(frame, WRITE) as (at, length):
        words = (*words, at, length, C.byref(unit), addresses, len(addresses))
        _replaced(lib.etherpeel_replace_arp(*words, C.byref(error)), error)


def build(headers: Sequence[Header], payload: Buffer = b"", ether_type: Optional[int] = None) -> bytes:
    """A packet of headers and a payload, which `ether_type` announces.

        etherpeel.build([etherpeel.Ethernet2(destination, source), etherpeel.Vlan(291)], payload, 0x0800)

    The first header is of Ethernet II, or of cooked capture with the hardware type 1. Up to eight VLAN tags and SecTags
    follow, outermost first, and then an ARP packet in place of the payload if there is one. Only the last tag, before a
    payload, may be a SecTag whose payload is encrypted or changed. The ether type of each header is set by what follows
    it. Before a VLAN tag, an ether type that announces one is kept: 0x8100, 0x88A8 or 0x9100. Any other becomes 0x88A8
    if another VLAN tag directly follows that tag, else 0x8100. The short length of each SecTag is set to the number of
    bytes after it, with the two of its ether type if it has one, and to 0 if there are more than 63. There is no frame
    check sequence.

    Raises `BuildError` if there is no such packet.
    """
    has_arp = len(headers) > 0 and isinstance(headers[-1], Arp)
    if has_arp != (ether_type is None) or has_arp and len(payload):
        raise ValueError("payload and ether_type are given if no ARP packet is, and else neither is")
    units, addresses = all_passed(headers)
    length = C.c_size_t()
    with lent(addresses if has_arp else payload) as (at, payload_len):
        words = (units, len(headers), number("ether_type", ether_type or 0, 16), at, payload_len)
        status = lib.etherpeel_build(*words, None, 0, C.byref(length))
        if status != Status.NO_ROOM:
            status = Status(status)
            raise BuildError(status, None if status == Status.OTHER_LINK else length.value)
        target = C.create_string_buffer(length.value)
        required(lib.etherpeel_build(*words, target, length.value, C.byref(length)))
    return target.raw
