"""The units of a frame, read from the bytes that one call of the library writes.

The memory that the call writes to is kept for a later one. No two calls have the same at a time: neither those of other
threads, nor one that a signal handler or `__del__` makes while another is being read.
"""
import ctypes as C

from . import _header
from ._header import UnitKind
from ._library import CALLS, reader
from ._types import Arp, Ethernet2, LinuxSll, Macsec, Unit, Vlan

_SIZE = C.sizeof(_header.Unit)
_TAGS = 3  # the call reads no more tags
_SHORT = 9_216  # a jumbo frame of Ethernet


_idle = []  # what no call has: `pop` and `append` are atomic
_call = CALLS["packet"]
_head = reader(_header.Unit, "offset header_len payload_start payload_end kind closed")
_ethernet2 = reader(_header.Ethernet2, "destination source ether_type has_fcs")
_linux_sll = reader(_header.LinuxSll, "packet_type hardware_type address_len address protocol")
_vlan = reader(_header.Vlan, "vid ether_type pcp dei")
_macsec = reader(_header.Macsec, "sci packet_number ether_type end_station sci_present single_copy_broadcast encrypted"
                                 " changed association_number short_len")
_arp = reader(_header.Arp, "sender_hardware sender_protocol target_hardware target_protocol hardware_type protocol_type"
                           " operation hardware_size protocol_size")
_at_ethernet2, _at_linux_sll, _at_vlan, _at_macsec, _at_arp = (
    getattr(_header.Unit, name).offset for name in ("ethernet2", "linux_sll", "vlan", "macsec", "arp"))
_found = reader(_header.Found, "units")
_fault = reader(_header.Fault, "kind")
_at_found = _header.Headers.found.offset
_at_fault = _at_found + _header.Found.fault.offset
_ETHERNET2, _VLAN, _MACSEC, _ARP = map(int, (UnitKind.ETHERNET2, UnitKind.VLAN, UnitKind.MACSEC, UnitKind.ARP))
_new = tuple.__new__


def bytes_of(frame):
    """The bytes of a frame that is short, or None. To copy them takes less time than to borrow them."""
    if type(frame) is bytes:
        return frame
    if type(frame) is bytearray or type(frame) is memoryview and frame.c_contiguous:
        return bytes(frame) if len(frame) <= _SHORT else None
    return None


def _room():
    """A struct to write to, and its bytes."""
    headers = _header.Headers()
    return C.byref(headers), memoryview(headers).cast("B")


def units_of(frame, start, ether_type):
    """The units of a frame in `bytes`; None if one is refused, or if there may be more tags than the call reads."""
    try:
        room = _idle.pop()
    except IndexError:
        room = _room()
    try:
        return _units_in(room, frame, start, ether_type)
    finally:
        _idle.append(room)


def _units_in(room, frame, start, ether_type):
    target, memory = room
    if _call(start, ether_type, frame, len(frame), target) or _fault(memory, _at_fault)[0]:
        return None
    units, tags, at = [], 0, 0
    for _ in range(_found(memory, _at_found)[0]):
        offset, header_len, payload_start, payload_end, kind, closed = _head(memory, at)
        if kind == _ETHERNET2:
            destination, source, ether_type, has_fcs = _ethernet2(memory, at + _at_ethernet2)
            header = _new(Ethernet2, (destination, source, ether_type, has_fcs == 1))
        elif kind == _VLAN:
            vid, ether_type, pcp, dei = _vlan(memory, at + _at_vlan)
            header = _new(Vlan, (vid, pcp, dei == 1, ether_type))
            tags += 1
        elif kind == _MACSEC:
            header = _sec_tag(memory, at + _at_macsec)
            tags += 1
        elif kind == _ARP:
            header = _arp_packet(memory, at + _at_arp, frame)
        else:
            header = _new(LinuxSll, _linux_sll(memory, at + _at_linux_sll))
        units.append(_new(Unit, (offset, header_len, payload_start, payload_end, closed == 1, header)))
        at += _SIZE
    return units if tags < _TAGS else None


def _sec_tag(memory, at):
    (sci, packet_number, ether_type, end_station, sci_present, single_copy_broadcast, encrypted, changed,
     association_number, short_len) = _macsec(memory, at)
    return _new(Macsec, (packet_number, association_number, short_len, encrypted == 1, changed == 1, end_station == 1,
                         single_copy_broadcast == 1, sci if sci_present else None,
                         None if encrypted or changed else ether_type))


def _arp_packet(memory, at, frame):
    (sender_hardware, sender_protocol, target_hardware, target_protocol, hardware_type, protocol_type, operation,
     hardware, protocol) = _arp(memory, at)
    return _new(Arp, (hardware_type, protocol_type, operation, frame[sender_hardware:sender_hardware + hardware],
                      frame[sender_protocol:sender_protocol + protocol],
                      frame[target_hardware:target_hardware + hardware],
                      frame[target_protocol:target_protocol + protocol]))
