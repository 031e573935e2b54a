"""The link layer of packets: Ethernet II, VLAN tags, MACsec SecTags, Linux cooked capture, ARP.

    import etherpeel

    frame = bytes.fromhex("FFFFFFFFFFFF0200000000018100B123080045")
    for unit in etherpeel.walk(frame):
        if isinstance(unit.header, etherpeel.Vlan):
            print(unit.header.vid)

    for packet in etherpeel.select("vlan 291", etherpeel.open("f.pcapng.gz")):
        print(packet.brief())

What there is, by what it is about:

    a frame             walk, packet, summary, fields, missing, completion, feed, fault_text, write_back
    a frame, changed    pop_vlan, push_vlan, set_vlan_id, set_vlan_tag, set_tpid, replace_link, ..
    a new packet        build, write_frame
    a capture file      open, capture, Captured, Frame, Interface, Writer
    a stream            Reader, Copy
    a table             Capture.table, Table, Row
    a filter            Filter, select
    cooked capture v2   linux_sll2, linux_sll2_fields
    names               FieldName, number_name
    a switch            Bridge

A frame is any object with contiguous memory, such as `bytes`, `bytearray`, `memoryview`, `mmap` or an array. It is read
where it is, without a copy; only `pop_vlan`, `push_vlan`, `set_..` and `replace_..` write to it. `start` says what it
begins with; with `Start.ETHER_TYPE`, `ether_type` announces it. With a `limit`, at most that many VLAN tags and SecTags
are read. Offsets count bytes from the start of the frame. An address that is passed is bytes, or text such as
"02:00:00:00:00:01".

Each error is an `Error`, which is a `ValueError`; words of a wrong type raise `TypeError`. Results are named tuples.
Results, errors, filters and bridges can be pickled. Threads can make calls at once, except for calls that change the
same frame, or use the same reader, copy or writer. docs/C.md of the repository says what is proved of each call.
"""
from ._bridge import Bridge, Port, Received, Sighting
from ._captures import Capture, CaptureError, Captured, Frame, capture, captured_frame, open, start_of_link_type
from ._cooked import linux_sll2, linux_sll2_fields
from ._filters import Filter, select
from ._header import (BridgeKind, Decision, Difference, Discarded, FaultKind, FieldKind, FilterErrorKind, FrameTypes,
                      Layer, LenSource, RestKind, Start, Status)
from ._library import Error
from ._names import number_name
from ._reading import Interface
from ._replacing import build, replace_arp, replace_link, replace_link_ext
from ._streams import Copy, Reader
from ._tables import Row, Table
from ._tags import pop_vlan, push_vlan, set_tpid, set_vlan_id, set_vlan_tag
from ._types import (Arp, BuildError, Ethernet2, Fault, Fed, Field, FieldName, FilterError, Header, LinuxSll, LinuxSll2,
                     LinuxSll2Error, Macsec, Packet, Refused, ReplaceError, Summary, TagError, Unit, Vlan)
from ._walks import completion, fault_text, feed, fields, missing, packet, summary, walk, write_back, write_back_into
from ._writing import Writer, write_frame

__all__ = [
    "Arp", "Bridge", "BridgeKind", "BuildError", "Capture", "CaptureError", "Captured", "Copy", "Decision",
    "Difference", "Discarded", "Error", "Ethernet2", "Fault", "FaultKind", "Fed", "Field", "FieldKind", "FieldName",
    "Filter", "FilterError", "FilterErrorKind", "Frame", "FrameTypes", "Header", "Interface", "Layer", "LenSource",
    "LinuxSll", "LinuxSll2", "LinuxSll2Error", "Macsec", "Packet", "Port", "Reader", "Received", "Refused",
    "ReplaceError", "RestKind", "Row", "Sighting", "Start", "Status", "Summary", "Table", "TagError", "Unit", "Vlan",
    "Writer", "build", "capture", "captured_frame", "completion", "fault_text", "feed", "fields", "linux_sll2",
    "linux_sll2_fields", "missing", "number_name", "open", "packet", "pop_vlan", "push_vlan", "replace_arp",
    "replace_link", "replace_link_ext", "select", "set_tpid", "set_vlan_id", "set_vlan_tag", "start_of_link_type",
    "summary", "walk", "write_back", "write_back_into", "write_frame",
]
__version__ = "3.0.0"
