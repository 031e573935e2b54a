"""Addresses as text and bytes."""
import re
from typing import Union

Address = Union[bytes, bytearray, memoryview, str]
_HARDWARE = re.compile(r"[0-9A-Fa-f]{2}(?:([:-])[0-9A-Fa-f]{2}(?:\1[0-9A-Fa-f]{2})*)?|(?:[0-9A-Fa-f]{2})*")
_IPV4 = re.compile(r"(\d{1,3})\.(\d{1,3})\.(\d{1,3})\.(\d{1,3})", re.ASCII)


def hardware_address(name, value):
    """The bytes of an address, which may be text such as 02:00:00:00:00:01, 02-00-00-00-00-01 or 020000000001."""
    if type(value) is bytes:
        return value
    if isinstance(value, str):
        if not _HARDWARE.fullmatch(value):
            raise ValueError(f"{name} is an address, such as 02:00:00:00:00:01, not {value!r}")
        return bytes.fromhex(value.replace(":", "").replace("-", ""))
    return _bytes(name, value)


def protocol_address(name, value):
    """The bytes of an address of ARP's protocol, which may be text such as 10.0.0.1, or as for `hardware_address`."""
    found = _IPV4.fullmatch(value) if isinstance(value, str) else None
    if not found:
        return hardware_address(name, value)
    numbers = [int(it) for it in found.groups()]
    if max(numbers) > 255:
        raise ValueError(f"{name} is an address, such as 10.0.0.1, not {value!r}")
    return bytes(numbers)


def station(name, value):
    """The six bytes of a station's address."""
    value = hardware_address(name, value)
    if len(value) != 6:
        raise ValueError(f"{name} has 6 bytes, not {len(value)}")
    return value


def _bytes(name, value):
    try:
        return memoryview(value).tobytes()
    except TypeError:
        raise TypeError(f"{name} is bytes, or text such as 02:00:00:00:00:01, not {type(value).__name__}") from None
