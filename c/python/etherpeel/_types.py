"""Numbers, results and errors of the package."""
from __future__ import annotations

from enum import IntEnum
from typing import TYPE_CHECKING, List, NamedTuple, Optional, Tuple, Type, TypeVar, Union

from ._addresses import Address, hardware_address, protocol_address
from ._header import (Difference, FaultKind, FieldKind, FieldPart, FilterErrorKind, Layer, LenSource, RestKind, Start,
                      Status)
from ._library import Error, lib, number, text

if TYPE_CHECKING:  # whatever the type checker takes for memory: also mmap, arrays and structs of ctypes
    from _typeshed import ReadableBuffer as Buffer, WriteableBuffer as WritableBuffer
else:
    Buffer = Union[bytes, bytearray, memoryview]
    WritableBuffer = Union[bytearray, memoryview]

# ---- numbers


class FieldName(IntEnum):
    """The name of a field, in the words of the standard of its header."""

    # by number, as fields.py writes them
    ETHERNET2_DESTINATION = 1
    ETHERNET2_SOURCE = 2
    ETHERNET2_ETHER_TYPE = 3
    LINUX_SLL_PACKET_TYPE = 4
    LINUX_SLL_HARDWARE_TYPE = 5
    LINUX_SLL_ADDRESS_LEN = 6
    LINUX_SLL_ADDRESS = 7
    LINUX_SLL_PROTOCOL = 8
    VLAN_PCP = 9
    VLAN_DEI = 10
    VLAN_VID = 11
    VLAN_ETHER_TYPE = 12
    MACSEC_V = 13
    MACSEC_ES = 14
    MACSEC_SC = 15
    MACSEC_SCB = 16
    MACSEC_E = 17
    MACSEC_C = 18
    MACSEC_AN = 19
    MACSEC_RESERVED = 20
    MACSEC_SL = 21
    MACSEC_PN = 22
    MACSEC_SCI = 23
    MACSEC_ETHER_TYPE = 24
    ARP_HARDWARE_TYPE = 25
    ARP_PROTOCOL_TYPE = 26
    ARP_HARDWARE_SIZE = 27
    ARP_PROTOCOL_SIZE = 28
    ARP_OPERATION = 29
    ARP_SENDER_HARDWARE = 30
    ARP_SENDER_PROTOCOL = 31
    ARP_TARGET_HARDWARE = 32
    ARP_TARGET_PROTOCOL = 33
    FCS = 34
    LINUX_SLL2_PROTOCOL = 35
    LINUX_SLL2_RESERVED = 36
    LINUX_SLL2_INTERFACE_INDEX = 37
    LINUX_SLL2_HARDWARE_TYPE = 38
    LINUX_SLL2_PACKET_TYPE = 39
    LINUX_SLL2_ADDRESS_LEN = 40
    LINUX_SLL2_ADDRESS = 41

    @property
    def column(self) -> str:
        """Its name as a column, as `vlan.vid`."""
        return text(lib.etherpeel_field_text, self, FieldPart.COLUMN)

    @property
    def title(self) -> str:
        """What its standard calls it, as `VLAN identifier`."""
        return text(lib.etherpeel_field_text, self, FieldPart.TITLE)

    @property
    def abbreviation(self) -> str:
        """The abbreviation of its standard, as `VID`; "" if there is none."""
        return text(lib.etherpeel_field_text, self, FieldPart.ABBREVIATION)

    @property
    def kind(self) -> FieldKind:
        """What its value is."""
        return FieldKind(lib.etherpeel_field_kind(self))


# ---- results


class Fault(NamedTuple):
    """A refused unit. Fields that do not belong to its kind are None, or 0 if they are lengths."""

    offset: int
    """The offset of the unit."""
    kind: FaultKind
    closed: bool
    """Whether bytes appended to the frame would lie outside the unit."""
    required_len: int
    """The length that the unit requires, from its start."""
    len: int
    """The length that is available to it."""
    missing: int
    """The minimum number of further bytes that it needs, 0 if more bytes would not help."""
    layer: Optional[Layer]
    len_source: Optional[LenSource]
    packet_type: Optional[int]
    hardware_type: Optional[int]


class Summary(NamedTuple):
    """The result of a whole walk."""

    units: int
    """The number of units."""
    rest_start: int
    """Where the remaining bytes start, or those of the refused unit."""
    rest_end: int
    """Where they end."""
    rest_kind: RestKind
    rest_protocol: int
    """The ether type or protocol number, 0 if there is none."""
    fault: Optional[Fault]
    """The refused unit, if there is one."""


class Fed(NamedTuple):
    """The result of feeding a walk."""

    refusals: int
    """How often the walk asked for bytes and was given them."""
    taken: int
    """The number of bytes that it was given in all."""
    fault: Optional[Fault]
    """The fault of the walk of these bytes, if there is one."""


class _Ethernet2(NamedTuple):
    destination: bytes
    source: bytes
    ether_type: int = 0
    has_fcs: bool = False
    """Whether a frame check sequence follows, in the 4 bytes from `payload_end` on."""


class Ethernet2(_Ethernet2):
    """An Ethernet II header (IEEE 802.3, 3.2.3 to 3.2.6). The addresses may be given as text, such as
    "02:00:00:00:00:01"."""

    __slots__ = ()

    def __new__(cls, destination: Address, source: Address, ether_type: int = 0, has_fcs: bool = False) -> Ethernet2:
        return super().__new__(cls, hardware_address("destination", destination), hardware_address("source", source),
                               ether_type, has_fcs)


class _LinuxSll(NamedTuple):
    packet_type: int
    """0 to 7: to us, to all, to a group, to someone else, by us .."""
    hardware_type: int
    """The ARPHRD_ number of the link."""
    address_len: int
    """May exceed 8, though the field holds only 8 bytes."""
    address: bytes
    """The sender's address, truncated or padded to 8 bytes."""
    protocol: int = 0


class LinuxSll(_LinuxSll):
    """A header of Linux cooked capture v1. The address may be given as text, such as "02:00:00:00:00:01", and is then
    padded to the 8 bytes of its field."""

    __slots__ = ()

    def __new__(cls, packet_type: int, hardware_type: int, address_len: int, address: Address,
                protocol: int = 0) -> LinuxSll:
        value = hardware_address("address", address)
        if isinstance(address, str):
            value = value.ljust(8, b"\0")
        return super().__new__(cls, packet_type, hardware_type, address_len, value, protocol)


class Vlan(NamedTuple):
    """A VLAN tag (IEEE 802.1Q, 9.6): the tag control information, and the ether type after it."""

    vid: int
    """The VLAN identifier, 0 to 4095."""
    pcp: int = 0
    """The priority code point, 0 to 7."""
    dei: bool = False
    """The drop eligible indicator."""
    ether_type: int = 0
    """The ether type after the tag."""


class Macsec(NamedTuple):
    """A MACsec SecTag (IEEE 802.1AE, 9.3)."""

    packet_number: int
    association_number: int = 0
    short_len: int = 0
    encrypted: bool = False
    changed: bool = False
    end_station: bool = False
    single_copy_broadcast: bool = False
    sci: Optional[int] = None
    """The secure channel identifier, if there is one."""
    ether_type: Optional[int] = None
    """The ether type after the tag, None if the payload is encrypted or changed."""


class _Arp(NamedTuple):
    hardware_type: int
    protocol_type: int
    operation: int
    """1 request, 2 reply."""
    sender_hardware: bytes
    sender_protocol: bytes
    target_hardware: bytes
    target_protocol: bytes


class Arp(_Arp):
    """An ARP packet (RFC 826). The addresses may be given as text, such as "02:00:00:00:00:01" and "10.0.0.1"."""

    __slots__ = ()

    def __new__(cls, hardware_type: int, protocol_type: int, operation: int, sender_hardware: Address,
                sender_protocol: Address, target_hardware: Address, target_protocol: Address) -> Arp:
        return super().__new__(cls, hardware_type, protocol_type, operation,
                               hardware_address("sender_hardware", sender_hardware),
                               protocol_address("sender_protocol", sender_protocol),
                               hardware_address("target_hardware", target_hardware),
                               protocol_address("target_protocol", target_protocol))


Header = Union[Ethernet2, LinuxSll, Vlan, Macsec, Arp]
H = TypeVar("H", Ethernet2, LinuxSll, Vlan, Macsec, Arp)


class LinuxSll2(NamedTuple):
    """A header of Linux cooked capture v2, and how the walk of its payload starts."""

    payload_start: int
    """Where the payload starts: 20."""
    protocol: int
    interface_index: int
    """Of the interface on which the packet was seen."""
    hardware_type: int
    """The ARPHRD_ number of the interface."""
    packet_type: int
    """0 to 7, as of `LinuxSll`."""
    address_len: int
    """May exceed 8, though the field holds only 8 bytes."""
    address: bytes
    """The sender's address, truncated or padded to 8 bytes."""
    start: Optional[Start]
    """`Start.ETHER_TYPE`, None if the payload has no ether type."""
    ether_type: Optional[int]
    """The ether type of the payload, None if it has none."""


class Field(NamedTuple):
    """A field of a header. The first bit of a byte is its most significant one."""

    name: FieldName
    unit: int
    """The index of its unit."""
    bit_offset: int
    """Its offset in bits from the start of the frame."""
    bit_len: int
    """The number of its bits; 0 for an ARP address of length 0."""
    value: Optional[int]
    """The number in them, None if there are more than 64."""


class Unit(NamedTuple):
    """A header, and the place of its payload."""

    offset: int
    """The offset of the header."""
    header_len: int
    """Its length; for an ARP packet, that of the whole packet."""
    payload_start: int
    payload_end: int
    """Before a frame check sequence, or where a SecTag says."""
    closed: bool
    """Whether bytes appended to the frame would lie outside the payload."""
    header: Header


class Packet(NamedTuple):
    """All headers of a frame with at most three VLAN tags and SecTags, its VLAN identifiers and its least snap
    length."""

    units: List[Unit]
    """The headers, outermost first, up to the fault if there is one."""
    summary: Summary
    """What is left after them, and the fault if a header is refused."""
    vlan_ids: Tuple[int, ...]
    """The identifiers of the VLAN tags, outermost first."""
    min_snap_len: int
    """The least length to which the frame can be cut without losing one of `units`; it is then read without a check
    sequence. A fourth tag, and what follows it, are not among these."""

    def first(self, kind: Type[H]) -> Optional[H]:
        """The first header of a type, as in `packet.first(Arp)`; None if there is none."""
        return next((unit.header for unit in self.units if isinstance(unit.header, kind)), None)


class TagError(Error):
    """A VLAN tag is not taken off, put in or changed. The frame is then unchanged."""

    def __init__(self, status: Status, text: Optional[str] = None):
        super().__init__(text or _TAG_ERRORS[status])
        self.status = status
        """The number of the reason."""


_TAG_ERRORS = {
    Status.NO_ROOM: "the buffer has no room for a VLAN tag",
    Status.BAD_TPID: "no VLAN tag is announced by this ether type",
    Status.NO_LINK: "the frame does not begin with the header of a link",
    Status.OTHER_LINK: "the header of cooked capture is of another link than Ethernet",
    Status.NO_TAG: "there is no VLAN tag or SecTag at this index",
    Status.NO_VLAN: "there is no VLAN tag",
    Status.CUT_VLAN: "the VLAN tag is cut short",
    Status.UNANNOUNCED: "the frame begins with the VLAN tag",
    Status.BAD_FIELD: "a number does not fit its field of the tag",
}


class ReplaceError(Error):
    """A header is not replaced: the text says why. The frame is then unchanged."""

    def __init__(self, status: Status, tags: Optional[int] = None, difference: Optional[Difference] = None,
                 text: Optional[str] = None):
        told = difference and difference.name.replace("_", " ").lower()
        super().__init__(text or _REPLACE_ERRORS[status].format(tags=tags, difference=told))
        self.status = status
        """The number of the reason."""
        self.tags = tags
        """The number of VLAN tags and SecTags in the frame, with `Status.NO_TAG`; else None."""
        self.difference = difference
        """How the header differs, with `Status.DIFFERS`; else None."""


_REPLACE_ERRORS = {
    Status.NO_LINK: "the frame does not begin with the header of a link",
    Status.NO_TAG: "there is no VLAN tag or SecTag at this index: the frame has {tags}",
    Status.NO_ARP: "the frame has no ARP packet",
    Status.DIFFERS: "the header in the frame is another one in this: {difference}",
    Status.BAD_FIELD: "a number does not fit its field of the header",
    Status.BAD_KIND: "the header is of another kind",
}


class BuildError(Error):
    """A packet is not built: the text says why."""

    def __init__(self, status: Status, index: Optional[int] = None, text: Optional[str] = None):
        super().__init__(text or _BUILD_ERRORS[status].format(index=index))
        self.status = status
        """The number of the reason."""
        self.index = index
        """The index of the header that is the reason; None with `Status.OTHER_LINK`."""


_BUILD_ERRORS = {
    Status.BAD_KIND: "no header of this kind can stand at index {index}",
    Status.BAD_FIELD: "a number does not fit its field of the header at index {index}",
    Status.TOO_MANY_TAGS: "there are more than eight VLAN tags and SecTags",
    Status.OTHER_LINK: "the header of cooked capture is of another link than Ethernet",
    Status.SEALED: "a header follows the SecTag at index {index}, whose payload is encrypted or changed",
}


class Refused(Error):
    """A unit of a frame is refused: the text says why."""

    def __init__(self, text: str, fault: Fault, units: List[Unit]):
        super().__init__(text)
        self.fault = fault
        """The unit that is refused."""
        self.units = units
        """The units before it."""


class FilterError(Error):
    """A text is not a filter's expression: the error's text says why."""

    def __init__(self, text: str, offset: int, kind: FilterErrorKind, greatest: Optional[int]):
        super().__init__(text)
        self.offset = offset
        """The offset in bytes of the first word that does not fit, or the length of the text if words are missing at
        its end."""
        self.kind = kind
        self.greatest = greatest
        """The greatest number that is expected, with `FilterErrorKind.NUMBER` and `VLAN_ID_OR_OPERATOR`; the number of
        bytes, with `BYTES`; else None."""


class LinuxSll2Error(Error):
    """A header of Linux cooked capture v2 is refused: the text says why."""

    def __init__(self, text: str, status: Status, packet_type: Optional[int]):
        super().__init__(text)
        self.status = status
        """`Status.SHORT` or `Status.BAD_PACKET_TYPE`."""
        self.packet_type = packet_type
        """The packet type, if it is above 7."""


# ---- starts


def begun(start, ether_type):
    """The two numbers of a start."""
    if type(start) is not Start:
        start = Start(start)
    if (start is Start.ETHER_TYPE) != (ether_type is not None):
        raise ValueError("ether_type is given with Start.ETHER_TYPE, and with no other start")
    return start, 0 if ether_type is None else number("ether_type", ether_type, 16)
