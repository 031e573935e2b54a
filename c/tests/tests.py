"""Tests of the Python package: tests.py FOLDER [WORD], where FOLDER has the package, and WORD is one that the names of the tests have
which are run, all if it is left out. The last line is 'N passed, M failed'."""
import array
import ctypes as C
import io
import json
import mmap
import os
import re
import sys
import tempfile

from checks import ADDRESSES, ARP, TAGGED, check, counts, raised, words

folder, word = words("FOLDER", "[WORD]")
word = word or ""
sys.path.insert(0, folder)
import etherpeel
from asking import asking
from bounds import numbers
from bridging import bridging
from copying import copying
from compared import drawn_frames, drawn_packets, fronts, short_lists
from lending import lending
from nested import nested
from opened import opened
from sources import sources
from streams import streams
from wording import addresses, wrong_words
from written import written
from etherpeel import Difference, FaultKind, FieldKind, FieldName, FilterErrorKind, Layer, LenSource, RestKind, Start, Status, _header, _library


def layout():
    sizes = [C.sizeof(t) for t in _library.STRUCTS]
    check("sizes", sizes, [56, 88, 72, 16, 16, 6, 24, 40, 144, 824, 40, 16, 16, 32, 32, 32, 16, 4616, 6, 72, 16, 64, 32, 72, 128, 40, 64, 24, 24, 24, 64, 24])
    check("offsets", [getattr(_header.Unit, f).offset for f in
                      ("kind", "closed", "ethernet2", "linux_sll", "vlan", "macsec", "arp")], [32, 36, 38, 54, 70, 80, 104])
    check("version", _library.lib.etherpeel_version(), 0x030000)
    with open(os.path.join(os.path.dirname(os.path.abspath(__file__)), "..", "etherpeel.h"), encoding="ascii") as file:
        header = file.read()
    for kind, enum, prefix in ((Status, "status", ""), (Start, "start", "START_"), (RestKind, "rest_kind", "REST_"),
                               (FaultKind, "fault_kind", "FAULT_"), (Layer, "layer", "LAYER_"), (LenSource, "len_source", "LEN_"),
                               (FilterErrorKind, "filter_error_kind", "FILTER_"), (FieldName, "field_name", "FIELD_"),
                               (FieldKind, "field_kind", "KIND_"), (Difference, "difference", "DIFFERENCE_")):
        numbers = re.findall(r"ETHERPEEL_" + prefix + r"(\w+) = (\d+)", re.search(f"enum etherpeel_{enum} {{(.*?)}};", header, re.S)[1])
        wanted = sorted(((name, int(number)) for name, number in numbers if enum != "fault_kind" or name != "NONE"), key=lambda it: it[1])
        check(enum, [(it.name, int(it.value)) for it in kind], wanted)
    check("no struct", [_library.lib.etherpeel_sizeof(n) for n in (0, 99, 2**32 - 1)], [0, 0, 0])


def worked_examples():
    first, tag = etherpeel.walk(TAGGED)
    check("Ethernet II", first, (0, 14, 14, 19, False, etherpeel.Ethernet2(b"\xff" * 6, TAGGED[6:12], 0x8100, False)))
    check("tag", tag, (14, 4, 18, 19, False, etherpeel.Vlan(vid=0x123, pcp=5, dei=True, ether_type=0x0800)))
    check("repr", repr(tag.header), "Vlan(vid=291, pcp=5, dei=True, ether_type=2048)")
    packet = etherpeel.walk(ARP)[1].header
    check("ARP", packet, etherpeel.Arp(1, 0x0800, 1, ADDRESSES[6:], bytes((10, 0, 0, 1)), bytes(6), bytes((10, 0, 0, 2))))
    check("rest", etherpeel.summary(TAGGED), (2, 18, 19, RestKind.ETHER_TYPE, 0x0800, None))
    fault = etherpeel.Fault(14, FaultKind.LENGTH, False, 4, 2, 2, Layer.VLAN_HEADER, LenSource.SLICE, None, None)
    check("fault", etherpeel.summary(TAGGED[:16]).fault, fault)
    try:
        etherpeel.walk(TAGGED[:16])
        check("refused", False, True)
    except etherpeel.Refused as refused:
        check("refused", (refused.fault, [unit.offset for unit in refused.units], str(refused)[:31]),
              (fault, [0], "at offset 14: VLAN Header Error"))
        check("text", str(refused), etherpeel.fault_text(TAGGED[:16]))
    check("no text", etherpeel.fault_text(TAGGED), "")
    check("limit", [len(etherpeel.walk(TAGGED, limit=n)) for n in (0, 1, 2**64 - 1)], [1, 2, 2])
    check("feed", etherpeel.feed(TAGGED), (2, 18, None))
    check("missing", (etherpeel.missing(TAGGED[:16]), etherpeel.missing(TAGGED)), (2, 0))
    check("completion", (etherpeel.completion(TAGGED[:15]), etherpeel.completion(TAGGED)), (bytes(3), b""))
    check("write back", etherpeel.write_back(TAGGED), TAGGED)
    check("link types", [etherpeel.start_of_link_type(n) for n in (1, 113, 0, 276)], [Start.ETHERNET2, Start.LINUX_SLL, None, None])
    many = ADDRESSES + bytes.fromhex("8100 0001" * 400 + "8100 0001 0800")
    check("many", [unit.offset for unit in etherpeel.walk(many)], [0, *range(14, len(many), 4)])


def buffers():
    """A frame is read where it is, whatever has it, and never written to; nor is a target that can't be."""
    with mmap.mmap(-1, len(TAGGED)) as mapped:
        mapped[:] = TAGGED
        around = bytearray(b"!!" + TAGGED + b"!!")
        kinds = [TAGGED, bytearray(TAGGED), memoryview(TAGGED), memoryview(around)[2:-2], memoryview(b"!" + TAGGED)[1:],
                 mapped, array.array("B", TAGGED)]
        for kind in kinds:
            what = type(kind).__name__
            check(what, etherpeel.walk(kind), etherpeel.walk(TAGGED))
            check(what, (etherpeel.write_back(kind), etherpeel.feed(kind), etherpeel.missing(kind)), (TAGGED, (2, 18, None), 0))
            check(what, (bytes(kind), bytes(around)), (TAGGED, b"!!" + TAGGED + b"!!"))
    mine = bytearray(TAGGED)
    with _library.lent(memoryview(mine)[2:]) as (at, length):
        check("no copy", (at, length), (C.addressof(C.c_char.from_buffer(mine)) + 2, len(mine) - 2))
        check("no change of size", raised(mine.append, 0), BufferError)
    mine.append(0)
    letter = b"q"
    check("immutable", raised(etherpeel.write_back_into, letter, bytes(1), ether_type=0x0800, start=Start.ETHER_TYPE), BufferError)
    check("immutable view", raised(etherpeel.write_back_into, memoryview(letter), b"r", ether_type=0x0800, start=Start.ETHER_TYPE),
          BufferError)
    etherpeel.completion(letter), etherpeel.write_back(letter)
    check("letter", (letter, bytes((113,))), (b"q", b"\x71"))
    target = bytearray(b"Z" * 20)
    check("into", (etherpeel.write_back_into(target, TAGGED), target), (19, bytearray(TAGGED + b"Z")))
    short = bytearray(18)
    check("short", (raised(etherpeel.write_back_into, short, TAGGED), short), (etherpeel.Error, bytearray(18)))
    check("overlap", raised(etherpeel.write_back_into, target, memoryview(target)[:19]), etherpeel.Error)


def packets():
    tagged = ADDRESSES + bytes.fromhex("88a8000a 81002014 0806") + ARP[14:]
    packet = etherpeel.packet(tagged)
    check("packet", (packet.units, packet.summary, packet.vlan_ids, packet.min_snap_len),
          (etherpeel.walk(tagged), etherpeel.summary(tagged), (10, 20), len(tagged)))
    check("first", (packet.first(etherpeel.Vlan).vid, packet.first(etherpeel.Arp).operation, packet.first(etherpeel.Macsec)), (10, 1, None))
    cut = etherpeel.packet(memoryview(tagged)[:20])
    check("cut packet", (len(cut.units), cut.summary.fault.missing, cut.vlan_ids, cut.min_snap_len), (2, 2, (10,), 18))
    check("tags alone", etherpeel.packet(tagged[14:], Start.ETHER_TYPE, ether_type=0x88A8).vlan_ids, (10, 20))


# a classic file with two packets, and a pcapng file with an enhanced and a simple packet
CLASSIC = bytes.fromhex("a1b2c3d4 00020004 00000000 00000000 0000ffff 00000001"
                        "00000001 00000002 00000001 00000001 ff 00000003 00000004 00000000 00000009")
BLOCKS = bytes.fromhex("0a0d0d0a 1c000000 4d3c2b1a 01000000 ffffffffffffffff 1c000000"
                       "01000000 14000000 71000000 00000000 14000000"
                       "06000000 24000000 00000000 01000000 05000000 01000000 07000000 ab000000 24000000"
                       "03000000 14000000 02000000 cdef0000 14000000")


def captures():
    classic = [(b"\xff", 1_000_002_000, 1, 1, None), (b"", 3_000_004_000, 1, 9, None)]
    blocks = [(b"\xab", 4_294_967_301_000, 113, 7, None), (b"\xcd\xef", None, 113, 2, None)]
    for file, expected in ((CLASSIC, classic), (BLOCKS, blocks)):
        with tempfile.TemporaryFile() as on_disk:
            on_disk.write(b"??" + file)
            on_disk.seek(2)
            for source in (file, bytearray(file), memoryview(b"!" + file)[1:], io.BytesIO(file), on_disk):
                found = [(bytes(it.packet), *it[1:]) for it in etherpeel.capture(source)]
                check(type(source).__name__, found, expected)
    check("starts", [it.start for file in (CLASSIC, BLOCKS) for it in etherpeel.capture(file)], [Start.ETHERNET2] * 2 + [Start.LINUX_SLL] * 2)
    # the file says a check sequence of 4 bytes (bits 28 to 31, and 26), which a packet that was cut has lost
    sums = bytearray(CLASSIC)
    sums[20] = 0x24
    check("check sequences", [(it.fcs_len, it.start) for it in etherpeel.capture(sums)], [(4, Start.ETHERNET2_FCS), (4, Start.ETHERNET2)])
    mine = bytearray(CLASSIC)
    first = next(etherpeel.capture(mine))
    mine[40] = 7
    check("no copy of a packet", bytes(first.packet), b"\x07")
    packets = etherpeel.capture(CLASSIC[:50])
    check("before the fault", bytes(next(packets).packet), b"\xff")
    try:
        next(packets)
        check("cut file", False, True)
    except etherpeel.CaptureError as error:
        check("cut file", (error.offset, error.needed, str(error)[:12]), (41, 16, "At byte 41: "))
    for file in (b"", bytes(24), CLASSIC[:23]):
        check("no capture", raised(list, etherpeel.capture(file)), etherpeel.CaptureError)


def lines():
    """The lines of docs/FORMAT.md."""
    request = ADDRESSES + bytes.fromhex("0806 0001080006040001 020000000001 0a000001 000000000000 0a000002")
    packet = etherpeel.Captured(request, 1_700_000_000_000_001_000, 1, 42, None)
    told = packet.as_dict()
    check("JSON", json.loads(packet.json()), told)
    check("packet", [told[name] for name in ("number", "time", "link", "captured", "original")],
          [1, "2023-11-14T22:13:20.000001000Z", 1, 42, 42])
    check("headers", [(it["header"], it["start"], it["end"]) for it in told["headers"]], [("eth", 0, 14), ("arp", 14, 42)])
    check("ARP", [told["headers"][1][name] for name in ("op", "sha", "spa", "tpa")], [1, "02:00:00:00:00:01", "10.0.0.1", "10.0.0.2"])
    check("brief", packet.brief(2), "2 2023-11-14T22:13:20.000001Z 02:00:00:00:00:01 > ff:ff:ff:ff:ff:ff"
                                    " ARP who-has 10.0.0.2 tell 10.0.0.1")
    check("columns", packet.columns("frame.number,eth.src,vlan.vid,rest.kind", 3), ["3", "02:00:00:00:00:01", "", "after_arp"])
    check("no time", etherpeel.Captured(memoryview(TAGGED), None, 1, 64, None).columns("frame.time,vlan.vid"), ["", "291"])
    many = etherpeel.Captured(ADDRESSES + bytes.fromhex("81000005") * 100, None, 1, 412, None)
    check("more room", len(json.loads(many.json())["headers"]), 100)
    for names in ("", "vlan", "vlan.tag", "vlan.vid,"):
        check(f"{names!r} names no columns", raised(packet.columns, names), etherpeel.Error)


# of cooked capture v1 on the loopback device, hardware type 772, with TAGGED's VLAN tag
COOKED_LOOPBACK = bytes.fromhex("0000 0304 0006 0000000000000000 8100 b1230800 45")
# of cooked capture v2, from interface 3: sent by us, on Ethernet, with TAGGED's VLAN tag; and of a GRE tunnel
COOKED_V2 = bytes.fromhex("8100 beef 00000003 0001 04 06 0200000000010000 b1230800 45")
COOKED_V2_GRE = bytes.fromhex("0800 0000 00000001 030a 00 00 0000000000000000")


def captured(packet, link_type, fcs_len=None):
    return etherpeel.Captured(memoryview(packet), None, link_type, len(packet), fcs_len)


def frames_of_captures():
    def frame(*words):
        found = etherpeel.captured_frame(captured(*words))
        return found and (bytes(found.bytes), *found[1:])
    check("Ethernet", frame(TAGGED, 1), (TAGGED, 0, Start.ETHERNET2, None))
    check("check sequence", frame(TAGGED, 1, 4), (TAGGED, 0, Start.ETHERNET2_FCS, None))
    check("short check sequence", frame(TAGGED, 1, 2), (TAGGED[:-2], 0, Start.ETHERNET2, None))
    check("cooked", frame(COOKED_V2, 113), (COOKED_V2, 0, Start.LINUX_SLL, None))
    check("loopback", frame(COOKED_LOOPBACK, 113), (COOKED_LOOPBACK[16:], 16, Start.ETHER_TYPE, 0x8100))
    check("loopback, cut", frame(COOKED_LOOPBACK[:15], 113), (COOKED_LOOPBACK[:15], 0, Start.LINUX_SLL, None))
    check("cooked v2", frame(COOKED_V2, 276), (COOKED_V2[20:], 20, Start.ETHER_TYPE, 0x8100))
    check("not walked", [frame(*words) for words in ((COOKED_V2_GRE, 276), (COOKED_V2[:19], 276), (TAGGED, 105), (b"", 105))], [None] * 4)
    check("no bytes", frame(b"", 1), (b"", 0, Start.ETHERNET2, None))
    mine = bytearray(COOKED_V2)
    found = etherpeel.captured_frame(captured(mine, 276))
    mine[20] = 0x0F
    check("no copy of a frame", etherpeel.walk(found.bytes, found.start, ether_type=found.ether_type)[0].header,
          etherpeel.Vlan(0xF23, 0, False, 0x0800))


def filters():
    packets = [captured(TAGGED, 1), captured(ARP, 1), captured(COOKED_V2, 276), captured(COOKED_V2_GRE, 276), captured(TAGGED[:4], 105)]
    for expression, expected in (("vlan 291", [0, 2]), ("not vlan", [1]), ("arp", [1]), ("vlan 291 and (ip or cut)", [0, 2]),
                                 ("refused", []), ("not refused", [0, 1, 2]), ("greater 20", [1, 2]),
                                 ("vlan.vid == 0x123", [0, 2]), ("arp.op in {1, 2} or vlan.pcp > 5", [1]),
                                 ("headers.header == vlan", [0, 2]), ("frame.original >= 20", [1, 2])):
        check(expression, [packets.index(it) for it in etherpeel.select(expression, packets)], expected)
    check("a capture", [bytes(it.packet) for it in etherpeel.select("cut", etherpeel.capture(CLASSIC))], [b""])
    found = etherpeel.select("not cut", etherpeel.capture(CLASSIC[:50]))
    check("before the fault", bytes(next(found).packet), b"\xff")
    check("cut file", raised(next, found), etherpeel.CaptureError)
    for expression, expected in (("vlan 4096", (5, FilterErrorKind.NUMBER, 4095, "At byte 5: expected a number up to 4095.")),
                                 ("vlan and", (8, FilterErrorKind.OPERAND, None, "At byte 8: expected a primitive, `not` or `(`.")),
                                 ("vlan abc", (5, FilterErrorKind.VLAN_ID_OR_OPERATOR, 4095,
                                               "At byte 5: expected a number up to 4095, `and`, `or`, `)` or the end.")),
                                 ("vlan.vid 5", (9, FilterErrorKind.RELATION_OR_OPERATOR, None,
                                                 "At byte 9: expected `==`, `!=`, `<`, `<=`, `>`, `>=`, `in`, `&`, `and`, `or`, `)` or the end.")),
                                 ("eth.src == 1:2", (11, FilterErrorKind.BYTES, 6, "At byte 11: expected a value of 6 bytes.")),
                                 ("frame.time == 5", (14, FilterErrorKind.TIME, None, "At byte 14: expected a time, as 2026-11-01T00:00:00Z.")),
                                 ("", (0, FilterErrorKind.OPERAND, None, "At byte 0: expected a primitive, `not` or `(`."))):
        try:
            etherpeel.select(expression, packets)
            check(expression, False, True)
        except etherpeel.FilterError as error:
            check(expression, (error.offset, error.kind, error.greatest, str(error)), expected)
    for expression in ("vlan\0", "vl\u00e4n", "vlan " * 193):
        check("no filter", raised(etherpeel.select, expression, packets), etherpeel.FilterError)
    check("wrong packet", raised(list, etherpeel.select("vlan", [captured(TAGGED, 1)._replace(original_len=-1)])), ValueError)


def late_texts():
    """The texts of refusals far behind the first bytes: the length of a text is that of its numbers."""
    tags = ADDRESSES + bytes.fromhex("8100" + "0001 8100" * 30_000) + bytes(1)
    try:
        etherpeel.walk(tags)
        check("late fault", False, True)
    except etherpeel.Refused as refused:
        check("late fault", (refused.fault.offset, len(refused.units), str(refused)[:34]),
              (120_014, 30_001, "at offset 120014: VLAN Header Erro"))
    late = "vlan or" + " " * 99_990 + "vlan 4096"
    try:
        etherpeel.select(late, [])
        check("late word", False, True)
    except etherpeel.FilterError as error:
        check("late word", (error.offset, str(error)), (100_002, "At byte 100002: expected a number up to 4095."))
    header = bytes.fromhex("a1b2c3d4 00020004 00000000 00000000 0000ffff 00000001")
    record = bytes.fromhex("00000001 00000000 000005dc 000005dc") + bytes(1500)
    packets = etherpeel.capture(header + record * 110 + record[:9])
    check("packets before it", sum(len(next(packets).packet) for _ in range(110)), 165_000)
    try:
        next(packets)
        check("late record", False, True)
    except etherpeel.CaptureError as error:
        check("late record", (error.offset, error.needed, str(error)), (
            166_784, 16, "At byte 166784: A record of a pcap file needs 16 byte(s); only 9 are available."))


def fields():
    ethernet2 = [(FieldName.ETHERNET2_DESTINATION, 0, 0, 48, 0xFFFFFFFFFFFF), (FieldName.ETHERNET2_SOURCE, 0, 48, 48, 0x020000000001)]
    tagged = [*ethernet2, (FieldName.ETHERNET2_ETHER_TYPE, 0, 96, 16, 0x8100), (FieldName.VLAN_PCP, 1, 112, 3, 5),
              (FieldName.VLAN_DEI, 1, 115, 1, 1), (FieldName.VLAN_VID, 1, 116, 12, 0x123), (FieldName.VLAN_ETHER_TYPE, 1, 128, 16, 0x0800)]
    check("fields", etherpeel.fields(TAGGED), tagged)
    check("fields of a view", etherpeel.fields(memoryview(b"!" + TAGGED)[1:]), tagged)
    check("fields of a cut frame", etherpeel.fields(TAGGED[:17]), tagged[:3])
    check("check sequence", etherpeel.fields(ADDRESSES + bytes.fromhex("0800 45 11223344"), Start.ETHERNET2_FCS),
          [*ethernet2, (FieldName.ETHERNET2_ETHER_TYPE, 0, 96, 16, 0x0800), (FieldName.FCS, 0, 120, 32, 0x11223344)])
    odd = bytes.fromhex("1234 5678 09 00 0002") + bytes(18)
    check("long and no addresses", etherpeel.fields(odd, Start.ETHER_TYPE, ether_type=0x0806)[5:],
          [(FieldName.ARP_SENDER_HARDWARE, 0, 64, 72, None), (FieldName.ARP_SENDER_PROTOCOL, 0, 136, 0, 0),
           (FieldName.ARP_TARGET_HARDWARE, 0, 136, 72, None), (FieldName.ARP_TARGET_PROTOCOL, 0, 208, 0, 0)])
    tags = etherpeel.fields(bytes.fromhex("0001 8100" * 100), Start.ETHER_TYPE, ether_type=0x8100)
    check("many fields", (len(tags), tags[-1]), (400, (FieldName.VLAN_ETHER_TYPE, 99, 3184, 16, 0x8100)))


def names():
    def called(name):
        return name.column, name.title, name.abbreviation, name.kind

    check("VLAN identifier", called(FieldName.VLAN_VID), ("vlan.vid", "VLAN identifier", "VID", FieldKind.NUMBER))
    check("check sequence", called(FieldName.FCS), ("eth.fcs", "Frame check sequence", "FCS", FieldKind.BYTES))
    check("destination", called(FieldName(1)), ("eth.dst", "Destination address", "", FieldKind.BYTES))
    check("operation", called(FieldName.ARP_OPERATION), ("arp.op", "Operation", "ar$op", FieldKind.OPERATION))
    check("no column of a row", FieldName.MACSEC_V.column, "macsec.v")
    check("of each its own column", len({name.column for name in FieldName}), 41)
    check("all fields", all(0 < len(name.title) < 64 and name.abbreviation.isascii() and name.kind for name in FieldName), True)
    check("names", [etherpeel.number_name(kind, number) for kind, number in (
        (FieldKind.ETHER_TYPE, 0x0800), (FieldKind.ETHER_TYPE, 0x88CC), (FieldKind.HARDWARE_TYPE, 1), (FieldKind.PACKET_TYPE, 1),
        (FieldKind.OPERATION, 2), (FieldKind.LINK_TYPE, 113))],
        ["IPv4", "LLDP", "Ethernet", "broadcast", "reply", "Linux cooked capture v1"])
    check("no names", [etherpeel.number_name(*words) for words in (
        (FieldKind.ETHER_TYPE, 65535), (FieldKind.OPERATION, 0), (FieldKind.NUMBER, 1), (FieldKind.LINK_TYPE, 2**64 - 1))], [None] * 4)
    check("of a frame", [etherpeel.number_name(it.name.kind, it.value) for it in etherpeel.fields(TAGGED)],
          [None, None, "VLAN tag", None, None, None, "IPv4"])
    check("no kind", raised(etherpeel.number_name, 13, 1), ValueError)
    check("no number", [raised(etherpeel.number_name, FieldKind.ETHER_TYPE, it) for it in (-1, 2**64)], [ValueError] * 2)


def cooked_v2():
    header = etherpeel.linux_sll2(COOKED_V2)
    check("cooked v2", header, (20, 0x8100, 3, 1, 4, 6, COOKED_V2[12:20], Start.ETHER_TYPE, 0x8100))
    check("payload", etherpeel.walk(memoryview(COOKED_V2)[20:], header.start, ether_type=header.ether_type)[0].header.vid, 0x123)
    check("GRE", etherpeel.linux_sll2(COOKED_V2_GRE), (20, 0x0800, 1, 0x030A, 0, 0, bytes(8), None, None))
    check("fields of cooked v2", etherpeel.linux_sll2_fields(COOKED_V2),
          [(FieldName.LINUX_SLL2_PROTOCOL, 0, 0, 16, 0x8100), (FieldName.LINUX_SLL2_RESERVED, 0, 16, 16, 0xBEEF),
           (FieldName.LINUX_SLL2_INTERFACE_INDEX, 0, 32, 32, 3), (FieldName.LINUX_SLL2_HARDWARE_TYPE, 0, 64, 16, 1),
           (FieldName.LINUX_SLL2_PACKET_TYPE, 0, 80, 8, 4), (FieldName.LINUX_SLL2_ADDRESS_LEN, 0, 88, 8, 6),
           (FieldName.LINUX_SLL2_ADDRESS, 0, 96, 64, 0x0200000000010000)])
    other = COOKED_V2[:10] + b"\x08" + COOKED_V2[11:]
    for call in (etherpeel.linux_sll2, etherpeel.linux_sll2_fields):
        for packet, expected in ((COOKED_V2[:19], (Status.SHORT, None)), (b"", (Status.SHORT, None)),
                                 (other, (Status.BAD_PACKET_TYPE, 8))):
            try:
                call(packet)
                check("refused", False, True)
            except etherpeel.LinuxSll2Error as error:
                check("refused", (error.status, error.packet_type), expected)


def tags_in_place():
    plain = ADDRESSES + bytes.fromhex("080045")
    frame = bytearray(TAGGED)
    tag = etherpeel.pop_vlan(frame)
    check("pop", (tag, frame[4:]), (etherpeel.Vlan(0x123, 5, True, 0x0800), plain))
    etherpeel.push_vlan(frame, tag)
    check("push", frame, TAGGED)
    etherpeel.set_vlan_id(frame, 0, 0x456)
    check("set", frame, ADDRESSES + bytes.fromhex("8100b456080045"))
    etherpeel.set_vlan_tag(frame, 0, etherpeel.Vlan(0x456, pcp=3, ether_type=0x9999))
    etherpeel.set_tpid(frame, 0, 0x88A8)
    check("set more", frame, ADDRESSES + bytes.fromhex("88a86456080045"))
    around = bytearray(b"!" + TAGGED)
    etherpeel.set_vlan_id(memoryview(around)[1:], 0, 1)
    check("set in a view", around, b"!" + ADDRESSES + bytes.fromhex("8100b001080045"))
    inner = bytearray.fromhex("88e5 0006 00000001 8100 aabbccdd eeee")
    etherpeel.set_vlan_id(memoryview(inner)[2:], 1, 0xFFF, Start.ETHER_TYPE, ether_type=0x88E5)
    check("set in a SecTag", inner.hex(), "88e5000600000001" + "8100" + "afffccddeeee")
    four = bytearray.fromhex("0001 8100 0002 8100 0003 8100 0004 0800")
    etherpeel.set_vlan_id(four, 3, 9, Start.ETHER_TYPE, ether_type=0x8100)
    check("set the fourth tag", four.hex(), "0001810000028100000381000009" + "0800")
    for call, words, status in ((etherpeel.pop_vlan, (bytearray(plain),), "NO_VLAN"), (etherpeel.pop_vlan, (bytearray(3),), "NO_LINK"),
                                (etherpeel.pop_vlan, (frame[:17],), "CUT_VLAN"), (etherpeel.push_vlan, (frame, tag, 0x0800), "BAD_TPID"),
                                (etherpeel.push_vlan, (bytearray(3), tag), "NO_ROOM"), (etherpeel.set_vlan_id, (frame, 1, 1), "NO_TAG"),
                                (etherpeel.push_vlan, (frame, etherpeel.Vlan(4096)), "BAD_FIELD"),
                                (etherpeel.push_vlan, (frame, etherpeel.Vlan(1, pcp=-1)), "BAD_FIELD"),
                                (etherpeel.set_vlan_tag, (frame, 0, etherpeel.Vlan(1, dei=2)), "BAD_FIELD"),
                                (etherpeel.set_tpid, (frame, 0, 0x0800), "BAD_TPID"), (etherpeel.set_tpid, (frame, 1, 0x8100), "NO_TAG"),
                                (etherpeel.set_vlan_id, (frame, 0, 4096), "BAD_FIELD"), (etherpeel.set_vlan_id, (frame, 0, 2**16 + 1), "BAD_FIELD")):
        before = bytes(words[0])
        try:
            call(*words)
            check(status, False, True)
        except etherpeel.TagError as error:
            check(status, (error.status.name, bytes(words[0]) == before), (status, True))
    frozen = bytes(TAGGED)
    check("immutable", [raised(call, *words) for call, words in ((etherpeel.pop_vlan, (frozen,)), (etherpeel.set_vlan_id, (frozen, 0, 1)),
                                                                 (etherpeel.push_vlan, (memoryview(frozen), tag)))], [BufferError] * 3)
    check("immutable", frozen, TAGGED)


def headers_in_place():
    frame = bytearray(TAGGED)
    around = bytearray(b"!" + ARP)
    etherpeel.replace_link(frame, etherpeel.Ethernet2(ADDRESSES[6:], b"\2\0\0\0\0\3", 0x8100))
    etherpeel.replace_link_ext(frame, 0, etherpeel.Vlan(0x456, 3, False, 0x0800))
    check("link and VLAN tag", frame.hex(), "020000000001" "020000000003" "8100" "6456" "0800" "45")
    reply = etherpeel.Arp(1, 0x0800, 2, b"\2\0\0\0\0\2", bytes((10, 0, 0, 2)), ADDRESSES[6:], bytes((10, 0, 0, 1)))
    etherpeel.replace_arp(memoryview(around)[1:], reply)
    check("ARP", around[1:].hex(), ARP[:20].hex() + "0002" "020000000002" "0a000002" "020000000001" "0a000001")
    tag = bytearray.fromhex("6e00 01020304 0011223344556677 99")
    sealed = etherpeel.walk(tag, Start.ETHER_TYPE, ether_type=0x88E5)[0].header
    new = sealed._replace(end_station=False, association_number=3, packet_number=0x01020305, sci=0x0011223344556688)
    etherpeel.replace_link_ext(tag, 0, new, Start.ETHER_TYPE, ether_type=0x88E5)
    check("SecTag", tag.hex(), "2f00" "01020305" "0011223344556688" "99")
    cooked = bytearray.fromhex("0004 0001 0006 020000000001abcd 0806")
    etherpeel.replace_link(cooked, etherpeel.LinuxSll(3, 1, 4, bytes((1, 2, 3, 4, 0, 0, 0, 0)), 0x0806), Start.LINUX_SLL)
    check("cooked", cooked.hex(), "0003" "0001" "0004" "0102030400000000" "0806")
    ethernet2, vlan = etherpeel.walk(TAGGED)[0].header, etherpeel.Vlan(1, ether_type=0x0800)
    inside = {"start": Start.ETHER_TYPE, "ether_type": 0x88E5}
    for call, words, named, expected in (
            (etherpeel.replace_link, (frame[:13], ethernet2), {}, (Status.NO_LINK, None, None)),
            (etherpeel.replace_link, (frame, ethernet2._replace(ether_type=0x0800)), {}, (Status.DIFFERS, None, Difference.ETHER_TYPE)),
            (etherpeel.replace_link, (frame, vlan), {}, (Status.BAD_KIND, None, None)),
            (etherpeel.replace_link_ext, (frame, 1, vlan), {}, (Status.NO_TAG, 1, None)),
            (etherpeel.replace_link_ext, (frame, 0, new), {}, (Status.DIFFERS, None, Difference.KIND)),
            (etherpeel.replace_link_ext, (frame, 0, etherpeel.Vlan(4096)), {}, (Status.BAD_FIELD, None, None)),
            (etherpeel.replace_link_ext, (tag, 0, new._replace(sci=None)), inside, (Status.DIFFERS, None, Difference.SCI)),
            (etherpeel.replace_arp, (frame, reply), {}, (Status.NO_ARP, None, None)),
            (etherpeel.replace_arp, (around[1:], reply._replace(sender_hardware=b"", target_hardware=b"")), {},
             (Status.DIFFERS, None, Difference.HARDWARE_SIZE))):
        before = bytes(words[0])
        try:
            call(*words, **named)
            check(expected, False, True)
        except etherpeel.ReplaceError as error:
            check(str(error), (error.status, error.tags, error.difference, bytes(words[0])), (*expected, before))
    check("wrong values", [raised(call, *words) for call, words in (
        (etherpeel.replace_link, (frame, ethernet2._replace(source=bytes(5)))), (etherpeel.replace_link_ext, (frame, 0, etherpeel.Vlan(-1))),
        (etherpeel.replace_arp, (around[1:], reply._replace(target_protocol=b""))))], [etherpeel.ReplaceError] * 3)
    check("immutable", raised(etherpeel.replace_link, bytes(TAGGED), ethernet2), BufferError)


def building():
    link, vlan = etherpeel.Ethernet2(b"\xff" * 6, ADDRESSES[6:]), etherpeel.Vlan(0x123, 5, True)
    check("tagged", etherpeel.build([link, vlan], TAGGED[18:], 0x0800), TAGGED)
    check("two tags", etherpeel.build([link, etherpeel.Vlan(10), etherpeel.Vlan(100)], bytearray(b"E"), 0x0800),
          ADDRESSES + bytes.fromhex("88a8 000a 8100 0064 0800 45"))
    kept = [link._replace(ether_type=0x9100), etherpeel.Vlan(10, ether_type=0x88A8), etherpeel.Vlan(100)]
    check("kept types", etherpeel.build(kept, b"E", 0x0800), ADDRESSES + bytes.fromhex("9100 000a 88a8 0064 0800 45"))
    arp = etherpeel.walk(ARP)[1].header
    check("ARP", etherpeel.build([link, arp]), ARP)
    sec_tag = etherpeel.Macsec(1)
    check("SecTag", etherpeel.build([link, sec_tag], b"E", 0x0800), ADDRESSES + bytes.fromhex("88e5 00 03 00000001 0800 45"))
    cooked = etherpeel.LinuxSll(4, 1, 6, ADDRESSES[6:] + bytes(2))
    check("cooked", etherpeel.build((cooked,), b"", 0x86DD), bytes.fromhex("0004 0001 0006 0200000000010000 86dd"))
    sealed = sec_tag._replace(encrypted=True, changed=True)
    for headers, expected in (([], (Status.BAD_KIND, 0)), ([vlan], (Status.BAD_KIND, 0)), ([link, link], (Status.BAD_KIND, 1)),
                              ([link, arp, vlan], (Status.BAD_KIND, 1)), ([link, etherpeel.Vlan(4096)], (Status.BAD_FIELD, 1)),
                              ([link] + [vlan] * 9, (Status.TOO_MANY_TAGS, 9)), ([link, sealed, vlan], (Status.SEALED, 1)),
                              ([cooked._replace(hardware_type=778)], (Status.OTHER_LINK, None))):
        try:
            etherpeel.build(headers, b"", 0x0800)
            check(expected, False, True)
        except etherpeel.BuildError as error:
            check(str(error), (error.status, error.index), expected)
    check("sealed ARP", raised(etherpeel.build, [link, sealed, arp]), etherpeel.BuildError)
    for words in (([link],), ([link], b"E"), ([link, arp], b"E"), ([link, arp], b"", 0x0806), ([link], b"", 65536)):
        check("wrong words", raised(etherpeel.build, *words), ValueError)


TESTS = {
    "layout": layout, "worked examples": worked_examples, "buffers": buffers, "packets": packets, "captures": captures,
    "sources": lambda: sources(CLASSIC, [b"\xff", b""]), "frames of captures": frames_of_captures, "filters": filters, "lines": lines,
    "late texts": late_texts, "fields": fields, "names": names, "cooked v2": cooked_v2, "tags in place": tags_in_place,
    "headers in place": headers_in_place, "building": building, "wrong words": wrong_words, "addresses": addresses,
    "numbers": numbers, "asking": lambda: asking(CLASSIC, [b""]),
    "opened": lambda: opened(CLASSIC, [b"\xff", b""], TAGGED, captured(COOKED_V2, 276)), "bridging": bridging,
    "nested calls": nested, "lent memory": lending, "drawn frames": lambda: drawn_frames(10000),
    "drawn packets": lambda: drawn_packets(3000), "written": written, "streams": streams, "copying": copying, "short lists": short_lists, "fronts": fronts,
}
for name, test in TESTS.items():
    if word in name:
        test()
print(f"{counts[True]} passed, {counts[False]} failed")
