"""Linux cooked capture v2."""
from __future__ import annotations

import ctypes as C
from typing import List

from . import _header
from ._header import Start, Status
from ._library import filled, lent, lib
from ._types import Buffer, Field, LinuxSll2, LinuxSll2Error
from ._walks import field


def linux_sll2(packet: Buffer) -> LinuxSll2:
    """The header of a packet of Linux cooked capture v2 (LINKTYPE_LINUX_SLL2). If its payload has an ether type, it is
    walked like any frame: `walk(packet[20:], header.start, ether_type=header.ether_type)`.

    The payload has an ether type unless the protocol numbers of the link are others (netlink, GRE) or have no meaning
    (IEEE 802.11 with radiotap, frame relay). Raises `LinuxSll2Error` if there are fewer than 20 bytes, or the packet
    type is above 7.
    """
    header = _header.LinuxSll2Header()
    with lent(packet) as (at, length):
        status = lib.etherpeel_linux_sll2(at, length, C.byref(header))
    if status == Status.SHORT:
        raise LinuxSll2Error(f"a header of cooked capture v2 has 20 bytes, and {length} are available", Status.SHORT,
                             None)
    if status == Status.BAD_PACKET_TYPE:
        raise LinuxSll2Error(f"the packet type {header.packet_type} is above 7", Status.BAD_PACKET_TYPE,
                             header.packet_type)
    typed = header.start == Start.ETHER_TYPE
    return LinuxSll2(header.payload_start, header.protocol, header.interface_index, header.hardware_type,
                     header.packet_type, header.address_len, bytes(header.address), Start.ETHER_TYPE if typed else None,
                     header.ether_type if typed else None)


def linux_sll2_fields(packet: Buffer) -> List[Field]:
    """The fields of the header of a packet of Linux cooked capture v2, in their order. Raises as `linux_sll2`."""
    linux_sll2(packet)
    with lent(packet) as (at, length):
        return [field(it) for it in filled(_header.Field, 7, lib.etherpeel_linux_sll2_fields, at, length)]
