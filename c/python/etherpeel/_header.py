"""The numbers, structs and calls of etherpeel.h, as c/bindings.py writes them."""
import ctypes as C
from enum import IntEnum

u8, u16, u32, u64, i64, size = C.c_uint8, C.c_uint16, C.c_uint32, C.c_uint64, C.c_int64, C.c_size_t
MAJOR, VERSION = 3, 0x030000


class Status(IntEnum):
    """What a call returns."""

    DONE = 0

    UNKNOWN_START = 1
    """`start` is not a number of `Start`."""

    NO_ROOM = 2
    """The target is too short."""

    NO_TEXT = 3
    """A text can't be made, or there is none; only the calls for texts, `fault_text` and others, could return it."""

    # Why a VLAN tag is not taken off, put in or changed:

    BAD_TPID = 4
    """`tpid` is not 0x8100, 0x88A8 or 0x9100."""

    NO_LINK = 5
    """The frame does not begin with a link's header that can be read."""

    OTHER_LINK = 6
    """The header of cooked capture has another hardware type than Ethernet."""

    NO_TAG = 7
    """There is no VLAN tag or SecTag at the index."""

    NO_VLAN = 8
    """The ether type of the link's header does not announce a VLAN tag, or there is a SecTag at the index."""

    CUT_VLAN = 9
    """The link's header announces a VLAN tag, but it is cut short."""

    UNANNOUNCED = 10
    """The frame begins with the VLAN tag, so no header announces it."""

    BAD_FIELD = 11
    """A number that is passed does not fit its field, or an address is not inside the bytes from which it is read."""

    # Why the packets of a capture file end before the file does:

    SHORT = 12
    """It ends within a header, record or block."""

    BAD_CAPTURE = 13
    """A header, record or block can't be read."""

    BAD_FILTER = 14
    """The text of a filter is not an expression."""

    BAD_PACKET_TYPE = 15
    """The packet type of a header of Linux cooked capture v2 is above 7. A header that is cut short is `SHORT`."""

    # Why a header is not replaced, besides `NO_LINK`, `NO_TAG` and `BAD_FIELD`:

    NO_ARP = 16
    """The frame has no ARP packet, or its ARP packet is cut short."""

    DIFFERS = 17
    """The header differs from the one in the frame; `Difference` says how."""

    BAD_KIND = 18
    """The call does not take a unit of this kind."""

    # Why a packet is not built, besides `OTHER_LINK` and `NO_ROOM`:

    TOO_MANY_TAGS = 19
    """There are more than eight VLAN tags and SecTags."""

    SEALED = 20
    """A unit follows a SecTag whose payload is encrypted or changed."""

    STAYS = 21
    """The frame is too short to leave, or the table has no sighting of the station; only calls for a switch return
    it."""

    BAD_FORMAT = 22
    """The text names no format of a packet."""

    UNCOPIED = 23
    """The unit of a packet can't be edited, or a copy can't have it."""


class Start(IntEnum):
    """What a frame begins with."""

    ETHERNET2 = 1
    """An Ethernet II header, of a frame without a frame check sequence."""

    ETHERNET2_FCS = 2
    """An Ethernet II header, of a frame with a frame check sequence in its last 4 bytes."""

    LINUX_SLL = 3
    """A header of Linux cooked capture v1 (LINKTYPE_LINUX_SLL)."""

    ETHER_TYPE = 4
    """What `ether_type` announces: a VLAN tag, a SecTag, an ARP packet, or a payload that is not read further."""


class ReaderState(IntEnum):
    """How far a capture file was read: `state` of `reader`."""

    BEGINNING = 0
    """Nothing of the file was read."""

    CLASSIC = 1
    """The header of a classic file was read. Records follow."""

    SECTION = 2
    """The header of a section of a pcapng file was read. Blocks follow."""


class UnitKind(IntEnum):
    """The kind of a unit."""

    ETHERNET2 = 1

    LINUX_SLL = 2

    VLAN = 3
    """The tag control information and the ether type after it."""

    MACSEC = 4
    """A SecTag without the ether type that announces it, but with the one after it if the payload is neither encrypted
    nor changed."""

    ARP = 5


class RestKind(IntEnum):
    """What the bytes that are left are announced as; after a fault, what was expected there."""

    START = 0
    """The header that the frame begins with, which was not read."""

    ETHER_TYPE = 1
    """A protocol, by the ether type in `rest_protocol`."""

    NETLINK = 2
    """A protocol of netlink (ARPHRD_NETLINK), by the number in `rest_protocol`."""

    GRE = 3
    """A protocol of generic routing encapsulation (ARPHRD_IPGRE), by the number in `rest_protocol`."""

    IGNORED = 4
    """A link whose protocol numbers have no meaning (IEEE 802.11 with radiotap, frame relay)."""

    SEALED = 5
    """A payload that MACsec has encrypted or changed, so its protocol is unknown."""

    AFTER_ARP = 6
    """What follows an ARP packet: the padding of a short frame."""


class FaultKind(IntEnum):
    """Why a unit is refused."""

    LENGTH = 1
    """The unit needs `required_len` bytes; only `len` are available. `layer` and `len_source` are set."""

    PACKET_TYPE = 2
    """The packet type of a cooked capture, in `packet_type`, is above 7."""

    HARDWARE_TYPE = 3
    """It is not known how to read protocol numbers for the hardware type of a cooked capture, in `hardware_type`."""

    MACSEC_VERSION = 4
    """The version bit of a SecTag is 1."""

    MACSEC_SHORT_LEN = 5
    """The short length of a SecTag with an unmodified payload is 1, too small to include the ether type."""


class Layer(IntEnum):
    """The layer of a length fault."""

    ETHERNET2_HEADER = 1

    LINUX_SLL_HEADER = 2

    VLAN_HEADER = 3

    MACSEC_HEADER = 4

    MACSEC_PACKET = 5
    """A SecTag, and the payload whose length its short length gives."""

    ARP = 6


class LenSource(IntEnum):
    """What gave the length that was available or required in a length fault."""

    SLICE = 1
    """The length of the frame."""

    MACSEC_SHORT_LENGTH = 2
    """The short length of a SecTag."""

    ARP_ADDRESSES = 3
    """The two address lengths of an ARP packet."""


class Difference(IntEnum):
    """How a header differs, in what it says about what follows it, from the one that it is to replace. Of several
    differences it is the first in this order."""

    KIND = 1
    """One header is a VLAN tag and the other a SecTag, or one is of Ethernet II and the other of cooked capture."""

    ETHER_TYPE = 2
    """The ether type of an Ethernet II header or VLAN tag."""

    HARDWARE_TYPE = 3
    """The hardware type of a cooked capture."""

    PROTOCOL_TYPE = 4
    """The protocol number of a cooked capture."""

    PAYLOAD_TYPE = 5
    """Whether the payload of a SecTag is encrypted or changed, and its ether type if it is neither."""

    SHORT_LEN = 6
    """The short length of a SecTag."""

    SCI = 7
    """Whether a SecTag has an SCI."""

    HARDWARE_SIZE = 8
    """The length of the hardware addresses of an ARP packet."""

    PROTOCOL_SIZE = 9
    """The length of the protocol addresses of an ARP packet."""


class FilterErrorKind(IntEnum):
    """Why a text is not a filter's expression: mostly by what is expected in place of a word."""

    OPERAND = 1
    """A primitive, `not` or `(` is expected."""

    OPERATOR = 2
    """`and`, `or`, `)` or the end of the text is expected."""

    VLAN = 3
    """`vlan` is expected."""

    ETHER_WORD = 4
    """`proto`, `src`, `dst`, `host`, `broadcast` or `multicast` is expected."""

    ADDRESS = 5
    """An address is expected: `xx:xx:xx:xx:xx:xx` or `xxxxxxxxxxxx`."""

    NUMBER = 6
    """A number up to `greatest` is expected."""

    MIXED = 7
    """`and` and `or` are mixed without parentheses."""

    UNOPENED = 8
    """A `)` has no `(`."""

    UNCLOSED = 9
    """The text ends before a `(` is closed."""

    TOO_LONG = 10
    """There are more than 192 words."""

    VLAN_ID_OR_OPERATOR = 11
    """After `vlan`: a number up to `greatest`, `and`, `or`, `)` or the end of the text is expected."""

    RELATION = 12
    """`==`, `!=`, `<`, `<=`, `>`, `>=` or `in` is expected."""

    RELATION_OR_OPERATOR = 13
    """After a field: one of these, `&`, `and`, `or`, `)` or the end of the text is expected."""

    BYTES = 14
    """A value of `greatest` bytes is expected."""

    ANY_BYTES = 15
    """Bytes are expected, as those of an address."""

    SET = 16
    """`{` is expected."""

    SET_END = 17
    """`,` or `}` is expected."""

    TIME = 18
    """A time is expected: `2026-11-01T00:00:00Z`."""

    HEADER = 19
    """The name of a header is expected: `eth`, `sll`, `vlan`, `macsec` or `arp`."""


class Decision(IntEnum):
    """Whether a filter selects a packet, as far as its captured bytes tell."""

    FAILS = 0
    """The filter does not select the packet."""

    MATCHES = 1
    """The filter selects the packet."""

    UNDECIDED = 2
    """The packet or frame was cut, and its bytes do not decide whether the filter selects it."""


class FieldPart(IntEnum):
    """A text about a field."""

    COLUMN = 1
    """Its name as a column: vlan.vid."""

    TITLE = 2
    """What its standard calls it: VLAN identifier."""

    ABBREVIATION = 3
    """The abbreviation of its standard: VID."""


class FieldKind(IntEnum):
    """What the value of a field is."""

    NUMBER = 1
    """A number."""

    FLAG = 2
    """A bit, 1 if it is set."""

    TRUTH = 3
    """Whether something holds; no field has it, but columns do."""

    ETHER_TYPE = 4
    """An ether type, or another protocol number in its place."""

    HARDWARE_TYPE = 5
    """A hardware type of ARP, or the ARPHRD_ number of a cooked capture."""

    PACKET_TYPE = 6
    """How a packet of a cooked capture was sent."""

    OPERATION = 7
    """An operation of ARP."""

    LINK_TYPE = 8
    """A link type of captures; no field has it, but a column does."""

    BYTES = 9
    """Bytes, as those of an address."""

    PROTOCOL_ADDRESS = 10
    """An address of the protocol of an ARP packet: of IPv4, or another one."""

    WORD = 11
    """One of some words; no field has it, but columns do."""

    TIME = 12
    """A time; no field has it, but a column does."""


class BridgeKind(IntEnum):
    """The kind of a bridge: the tags that it reads and writes. A tag of the other kind is payload."""

    CUSTOMER = 1
    """Customer tags, which 0x8100 announces."""

    PROVIDER = 2
    """Service tags, which 0x88A8 announces."""


class FrameTypes(IntEnum):
    """Which frames a port accepts (IEEE 802.1Q, 6.9)."""

    ALL = 0

    VLAN_TAGGED = 1
    """Frames with a tag that names a VLAN."""

    UNTAGGED_AND_PRIORITY_TAGGED = 2
    """Frames without a tag, and frames with a tag whose identifier is 0."""

    UNTAGGED = 3
    """Frames without a tag. (The standard has no such setting.)"""


class Discarded(IntEnum):
    """Why a bridge discards a frame. Of several reasons it is the first in this order."""

    NO_HEADER = 1
    """It has fewer than 14 bytes."""

    CUT_TAG = 2
    """It announces a tag of the bridge's kind, which is cut short."""

    RESERVED_IDENTIFIER = 3
    """Its tag has the identifier 4095, which is reserved."""

    SOURCE = 4
    """Its source is a group address, or all zeros."""

    FRAME_TYPE = 5
    """The port does not accept frames with such a tag, or frames without a tag."""

    SECOND_TAG = 6
    """The port refuses a second tag, and the frame has one."""

    NOT_A_MEMBER = 7
    """The port filters ingress, and is not a member of the frame's VLAN."""

    PORT_STATE = 8
    """The port is not forwarding."""


class Forgotten(IntEnum):
    """Which stations a table forgets."""

    ALL = 0
    """All of them."""

    PORT = 1
    """Those that were seen last at a port."""

    STATION = 2
    """The station with an address."""


class OptionCode(IntEnum):
    """The codes of options whose values are texts, in UTF-8 without a 0 byte at the end. The first is for each block,
    the others are for interface descriptions."""

    COMMENT = 1

    INTERFACE_NAME = 2

    INTERFACE_DESCRIPTION = 3


class Fault(C.Structure):
    _fields_ = [("offset", size), ("required_len", size), ("len", size), ("missing", size), ("kind", u32),
                ("layer", u32), ("len_source", u32), ("packet_type", u16), ("hardware_type", u16), ("closed", u8)]


class Found(C.Structure):
    _fields_ = [("units", size), ("rest_start", size), ("rest_end", size), ("fault", Fault), ("rest_kind", u32),
                ("rest_protocol", u16)]


class Fed(C.Structure):
    _fields_ = [("refusals", size), ("taken", size), ("fault", Fault)]


class Ethernet2(C.Structure):
    _fields_ = [("destination", u8 * 6), ("source", u8 * 6), ("ether_type", u16), ("has_fcs", u8)]


class LinuxSll(C.Structure):
    _fields_ = [("packet_type", u16), ("hardware_type", u16), ("address_len", u16), ("address", u8 * 8),
                ("protocol", u16)]


class Vlan(C.Structure):
    _fields_ = [("vid", u16), ("ether_type", u16), ("pcp", u8), ("dei", u8)]


class Macsec(C.Structure):
    _fields_ = [("sci", u64), ("packet_number", u32), ("ether_type", u16), ("end_station", u8), ("sci_present", u8),
                ("single_copy_broadcast", u8), ("encrypted", u8), ("changed", u8), ("association_number", u8),
                ("short_len", u8)]


class Arp(C.Structure):
    _fields_ = [("sender_hardware", size), ("sender_protocol", size), ("target_hardware", size),
                ("target_protocol", size), ("hardware_type", u16), ("protocol_type", u16), ("operation", u16),
                ("hardware_size", u8), ("protocol_size", u8)]


class Unit(C.Structure):
    _fields_ = [("offset", size), ("header_len", size), ("payload_start", size), ("payload_end", size), ("kind", u32),
                ("closed", u8), ("ethernet2", Ethernet2), ("linux_sll", LinuxSll), ("vlan", Vlan), ("macsec", Macsec),
                ("arp", Arp)]


class Field(C.Structure):
    _fields_ = [("bit_offset", size), ("bit_len", size), ("value", u64), ("unit", u32), ("name", u32)]


class Headers(C.Structure):
    _fields_ = [("units", Unit * 5), ("found", Found), ("min_snap_len", size), ("vlan_ids", u16 * 3),
                ("vlan_count", u16)]


class Captured(C.Structure):
    _fields_ = [("packet", C.c_void_p), ("packet_len", size), ("seconds", u64), ("nanoseconds", u32),
                ("original_len", u32), ("link_type", u16), ("has_time", u8), ("has_fcs_len", u8), ("fcs_len", u8)]


class Row(C.Structure):
    _fields_ = [("time", i64), ("destination", u64), ("source", u64), ("captured_len", size), ("fault_offset", size),
                ("original_len", u32), ("fault", u32), ("link_type", u16), ("ether_type", u16), ("vlan_ids", u16 * 3),
                ("vlan_count", u16), ("has_addresses", u8), ("has_macsec", u8), ("has_arp", u8)]


class Frame(C.Structure):
    _fields_ = [("bytes", C.c_void_p), ("len", size), ("offset", size), ("start", u32), ("ether_type", u16)]


class CaptureEnd(C.Structure):
    _fields_ = [("offset", size), ("needed", size)]


class Reader(C.Structure):
    _fields_ = [("interface_count", size), ("snap_len", u32), ("link_type", u16), ("state", u8),
                ("is_little_endian", u8), ("has_nanoseconds", u8), ("has_fcs_len", u8), ("fcs_len", u8)]


class Interface(C.Structure):
    _fields_ = [("time_offset", u64), ("snap_len", u32), ("link_type", u16), ("has_fcs_len", u8), ("fcs_len", u8),
                ("has_time_resolution", u8), ("time_resolution", u8)]


class ReadUnit(C.Structure):
    _fields_ = [("len", size), ("needed", size), ("interface", u32), ("has_packet", u8), ("has_interface", u8)]


class Option(C.Structure):
    _fields_ = [("value", C.c_void_p), ("value_len", size), ("code", u16)]


class LinuxSll2Header(C.Structure):
    _fields_ = [("payload_start", size), ("interface_index", u32), ("start", u32), ("protocol", u16),
                ("ether_type", u16), ("hardware_type", u16), ("packet_type", u8), ("address_len", u8),
                ("address", u8 * 8)]


class FilterError(C.Structure):
    _fields_ = [("offset", size), ("kind", u32), ("greatest", u32)]


class Filter(C.Structure):
    _fields_ = [("numbers", u64 * 577)]


class ReplaceError(C.Structure):
    _fields_ = [("tags", size), ("difference", u32)]


class Ports(C.Structure):
    _fields_ = [("words", u64 * 4)]


class SwitchVlan(C.Structure):
    _fields_ = [("members", Ports), ("untagged", Ports), ("first_bucket", u32), ("buckets", u32)]


class PortStates(C.Structure):
    _fields_ = [("learning", Ports), ("forwarding", Ports), ("isolated", Ports), ("mirrors", Ports)]


class StaticEntry(C.Structure):
    _fields_ = [("ports", Ports), ("address", u8 * 6), ("vid", u16)]


class Port(C.Structure):
    _fields_ = [("pvid", u16), ("frame_types", u8), ("refuses_second_tag", u8), ("ingress_filtering", u8),
                ("default_priority", u8)]


class Bridge(C.Structure):
    _fields_ = [("key", u64 * 2), ("ports", C.POINTER(PortStates)), ("vlans", C.POINTER(SwitchVlan)),
                ("vlan_count", size), ("static_entries", C.POINTER(StaticEntry)), ("static_entry_count", size),
                ("ageing_time", u32), ("forwarded", u16), ("kind", u8)]


class Received(C.Structure):
    _fields_ = [("tagged", Ports), ("untagged", Ports), ("vid", u16), ("kind", u8), ("priority", u8),
                ("drop_eligible", u8), ("reserved", u8), ("discarded", u8)]


class Sighting(C.Structure):
    _fields_ = [("address", u64), ("time", u32), ("port", u8)]


class Bucket(C.Structure):
    _fields_ = [("places", Sighting * 4)]


# the structs in the order of enum etherpeel_struct, from 1 on
STRUCTS = [Fault, Found, Fed, Ethernet2, LinuxSll, Vlan, Macsec, Arp, Unit, Headers, Captured, CaptureEnd, FilterError,
           Frame, Field, LinuxSll2Header, ReplaceError, Filter, Port, Received, Sighting, Bucket, Ports, SwitchVlan,
           PortStates, StaticEntry, Bridge, Reader, Interface, ReadUnit, Row, Option]


# what each call returns, and what it takes
CALLS = {
    "version": (u32, []),
    "sizeof": (size, [u32]),
    "start_of_link_type": (u32, [u32]),
    "summary": (u32, [u32, u16, C.c_void_p, size, C.POINTER(Found)]),
    "summary_limited": (u32, [u32, u16, C.c_void_p, size, size, C.POINTER(Found)]),
    "walk": (u32, [u32, u16, C.c_void_p, size, C.POINTER(Unit), size, C.POINTER(size)]),
    "walk_limited": (u32, [u32, u16, C.c_void_p, size, size, C.POINTER(Unit), size, C.POINTER(size)]),
    "fields": (u32, [u32, u16, C.c_void_p, size, C.POINTER(Field), size, C.POINTER(size)]),
    "packet": (u32, [u32, u16, C.c_void_p, size, C.POINTER(Headers)]),
    "write_back": (u32, [u32, u16, C.c_void_p, size, C.c_void_p, size, C.POINTER(size)]),
    "write_back_limited": (u32, [u32, u16, C.c_void_p, size, size, C.c_void_p, size, C.POINTER(size)]),
    "feed": (u32, [u32, u16, C.c_void_p, size, C.POINTER(Fed)]),
    "feed_limited": (u32, [u32, u16, C.c_void_p, size, size, C.POINTER(Fed)]),
    "completion": (u32, [u32, u16, C.c_void_p, size, C.c_void_p, size, C.POINTER(size)]),
    "completion_limited": (u32, [u32, u16, C.c_void_p, size, size, C.c_void_p, size, C.POINTER(size)]),
    "missing": (u32, [u32, u16, C.c_void_p, size, C.POINTER(size)]),
    "missing_limited": (u32, [u32, u16, C.c_void_p, size, size, C.POINTER(size)]),
    "fault_text": (u32, [u32, u16, C.c_void_p, size, C.c_void_p, size, C.POINTER(size)]),
    "fault_text_limited": (u32, [u32, u16, C.c_void_p, size, size, C.c_void_p, size, C.POINTER(size)]),
    "pop_vlan": (u32, [u32, u16, C.c_void_p, size, C.POINTER(Vlan)]),
    "push_vlan": (u32, [u32, u16, C.c_void_p, size, C.POINTER(Vlan), u16]),
    "set_vlan_id": (u32, [u32, u16, C.c_void_p, size, size, u16]),
    "set_vlan_tag": (u32, [u32, u16, C.c_void_p, size, size, C.POINTER(Vlan)]),
    "set_tpid": (u32, [u32, u16, C.c_void_p, size, size, u16]),
    "replace_link": (u32, [u32, u16, C.c_void_p, size, C.POINTER(Unit), C.POINTER(ReplaceError)]),
    "replace_link_ext": (u32, [u32, u16, C.c_void_p, size, size, C.POINTER(Unit), C.POINTER(ReplaceError)]),
    "replace_arp": (u32, [u32, u16, C.c_void_p, size, C.POINTER(Unit), C.c_void_p, size, C.POINTER(ReplaceError)]),
    "build": (u32, [C.POINTER(Unit), size, u16, C.c_void_p, size, C.c_void_p, size, C.POINTER(size)]),
    "write_frame": (u32, [C.POINTER(Unit), size, C.c_void_p, size, size, C.c_void_p, size, C.POINTER(size)]),
    "capture": (u32, [C.c_void_p, size, C.POINTER(Captured), size, C.POINTER(size), C.POINTER(CaptureEnd)]),
    "capture_fault_text": (u32, [C.c_void_p, size, C.c_void_p, size, C.POINTER(size)]),
    "capture_header": (u32, [u16, u32, u8, C.c_void_p]),
    "capture_record": (u32, [C.POINTER(Captured), C.c_void_p]),
    "captured_frame": (u32, [C.POINTER(Captured), C.POINTER(Frame)]),
    "rows": (u32, [C.POINTER(Captured), size, C.POINTER(Row), size]),
    "reader_read": (u32, [C.POINTER(Reader), C.POINTER(Interface), size, C.c_void_p, size, C.POINTER(Captured),
                          C.POINTER(ReadUnit)]),
    "reader_fault_text": (u32, [C.POINTER(Reader), C.POINTER(Interface), size, C.c_void_p, size, C.c_void_p, size,
                                C.POINTER(size)]),
    "reader_options": (u32, [C.POINTER(Reader), C.c_void_p, size, C.POINTER(Option), size, C.POINTER(size)]),
    "reader_edit": (u32, [C.POINTER(Reader), C.c_void_p, size, C.c_void_p, size, u64, C.c_void_p, size,
                          C.POINTER(size)]),
    "reader_copy": (u32, [C.POINTER(Reader), C.POINTER(Interface), size, u32, u32, C.c_void_p, size, C.c_void_p,
                          size, C.POINTER(size)]),
    "format": (u32, [C.c_void_p, size, size, C.POINTER(Captured), C.c_void_p, size, C.POINTER(size)]),
    "format_limited": (u32, [C.c_void_p, size, size, C.POINTER(Captured), size, C.c_void_p, size, C.POINTER(size)]),
    "field_text": (u32, [u32, u32, C.c_void_p, size, C.POINTER(size)]),
    "field_kind": (u32, [u32]),
    "number_name": (u32, [u32, u64, C.c_void_p, size, C.POINTER(size)]),
    "linux_sll2": (u32, [C.c_void_p, size, C.POINTER(LinuxSll2Header)]),
    "linux_sll2_fields": (u32, [C.c_void_p, size, C.POINTER(Field), size, C.POINTER(size)]),
    "select": (u32, [C.c_void_p, size, C.POINTER(Captured), size, C.c_void_p, size, C.POINTER(FilterError)]),
    "filter_parse": (u32, [C.c_void_p, size, C.POINTER(Filter), C.POINTER(FilterError)]),
    "filter_matches": (u32, [C.POINTER(Filter), C.POINTER(Captured)]),
    "filter_decide": (u32, [C.POINTER(Filter), C.POINTER(Captured)]),
    "filter_frame": (u32, [C.POINTER(Filter), u32, u16, C.c_void_p, size, u32, C.POINTER(u32), C.POINTER(size)]),
    "filter_select": (u32, [C.POINTER(Filter), C.POINTER(Captured), size, C.c_void_p, size]),
    "filter_error_text": (u32, [C.c_void_p, size, C.c_void_p, size, C.POINTER(size)]),
    "switch_receive": (u32, [C.POINTER(Bridge), C.POINTER(Bucket), size, u32, u8, C.POINTER(Port), C.c_void_p, size,
                             C.POINTER(Received)]),
    "switch_tagged": (u32, [C.POINTER(Received), C.c_void_p, size, C.POINTER(size)]),
    "switch_untagged": (u32, [C.POINTER(Received), C.c_void_p, size, C.POINTER(size)]),
    "switch_find": (u32, [C.POINTER(Bridge), C.POINTER(Bucket), size, u16, C.c_void_p, C.POINTER(Sighting)]),
    "switch_forget": (u32, [C.POINTER(Bucket), size, u32, u8, C.c_void_p]),
}
