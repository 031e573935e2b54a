"""What numbers are called."""
from __future__ import annotations

import ctypes as C
from typing import Optional

from . import _library
from ._header import FieldKind, Status
from ._library import lib, required


def number_name(kind: FieldKind, number: int) -> Optional[str]:
    """The name of a number of this kind, as "IPv4" of the ether type 0x0800; None if it has none.

    Ether types, hardware types, packet types, operations and link types have names, but not every number of them.
    """
    target, count = C.create_string_buffer(64), C.c_size_t()
    words = FieldKind(kind), _library.number("number", number, 64)
    status = lib.etherpeel_number_name(*words, target, len(target), C.byref(count))
    if status == Status.NO_TEXT:
        return None
    required(status)
    return target.raw[:count.value].decode("ascii")
