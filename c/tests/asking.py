"""Filters that are read once: frames, packets that were cut, threads, pickle, and what is no filter."""
import copy
import mmap
import pickle
import struct
import threading

import etherpeel
from checks import ADDRESSES, ARP, TAGGED, check, raised
from etherpeel import Decision, Filter, Start

FAILS, MATCHES, UNDECIDED = Decision
COOKED = bytes.fromhex("0004 0001 0006 020000000001abcd 8100 0007 0800")
# a packet that was cut to 16 bytes: the identifier of its VLAN tag is there, but the ether type after it is not.
# By its captured bytes alone it has no tag, for that is cut short; whatever the missing bytes are, it has one.
CUT = etherpeel.Captured(memoryview(TAGGED[:16]), None, 1, len(TAGGED), None)
# Linux cooked capture v2, and v1 of the loopback device, each with a VLAN tag after its header
V2 = bytes.fromhex("8100 0000 00000003 0001 04 06 0200000000010000 b123 0800 45") + bytes(20)
LOOPBACK = bytes.fromhex("0000 0304 0006 0000000000000000 8100 b123 0800 45") + bytes(20)


def cut(packet, link_type, length):
    return etherpeel.Captured(memoryview(packet[:length]), None, link_type, len(packet), None)


def frames():
    vlan, arp = Filter("vlan 291"), Filter("arp")
    check("frames", [it.matches(frame) for it in (vlan, arp) for frame in (TAGGED, ARP)], [True, False, False, True])
    with mmap.mmap(-1, len(ARP)) as mapped:
        mapped[:] = ARP
        for frame in (bytearray(ARP), memoryview(b"!" + ARP)[1:], mapped):
            check(f"a frame in {type(frame).__name__}", (arp.matches(frame), arp.decide(frame)), (True, MATCHES))
    for text, frame, start, ether_type, expected in (
            ("vlan 7", COOKED, Start.LINUX_SLL, None, True), ("sll.packet_type == 4", COOKED, Start.LINUX_SLL, None, True),
            ("refused", COOKED, Start.ETHERNET2, None, False), ("vlan 7", COOKED[16:], Start.ETHER_TYPE, 0x8100, True),
            ("eth or sll or not vlan", COOKED[16:], Start.ETHER_TYPE, 0x8100, None),
            ("ether proto 0x8100", COOKED[16:], Start.ETHER_TYPE, 0x8100, True),
            ("less 4", COOKED[16:], Start.ETHER_TYPE, 0x8100, True), ("greater 5", COOKED[16:], Start.ETHER_TYPE, 0x8100, False),
            ("cut", COOKED[16:], Start.ETHER_TYPE, 0x8100, False), ("refused", COOKED[16:19], Start.ETHER_TYPE, 0x8100, True),
            ("frame.original == 4", COOKED[16:], Start.ETHER_TYPE, 0x8100, True), ("arp", b"", Start.ETHER_TYPE, 0x0806, True),
            ("refused", ADDRESSES + bytes.fromhex("8100 0007 0800"), Start.ETHERNET2_FCS, None, True),
            ("vlan 7", ADDRESSES + bytes.fromhex("8100 0007 0800 11223344"), Start.ETHERNET2_FCS, None, True)):
        if expected is None:
            check(text, raised(Filter, text), etherpeel.FilterError)
        else:
            found = Filter(text)
            check(f"{text} of a frame", (found.matches(frame, start, ether_type=ether_type), found.decide(frame, start, ether_type=ether_type)),
                  (expected, MATCHES if expected else FAILS))
    check("captured bytes without a link", raised(Filter("frame.captured == 4").matches, COOKED[16:], Start.ETHER_TYPE, ether_type=0x8100),
          ValueError)
    check("captured bytes", Filter("frame.captured == 19 and frame.original == 19 and not frame.time").matches(TAGGED), True)


def cut_packets():
    for text, matches, decision in (("vlan 291", False, MATCHES), ("vlan", False, MATCHES), ("vlan 5", False, FAILS), ("ip", False, UNDECIDED),
                                    ("not ip", True, UNDECIDED), ("cut", True, MATCHES), ("greater 19", True, MATCHES), ("less 18", False, FAILS),
                                    ("ip or greater 19", True, MATCHES), ("ip and arp", False, UNDECIDED), ("not arp and cut", True, UNDECIDED)):
        found = Filter(text)
        check(f"{text} of a cut packet", (found.matches(CUT), found.decide(CUT), found.select([CUT, TAGGED])[0]), (matches, decision, matches))
    check("no link type", [Filter(it).decide(CUT._replace(link_type=105)) for it in ("arp", "not arp")], [FAILS, FAILS])
    late = CUT._replace(time_ns=1_800_000_000_000_000_000)  # in 2027
    check("a time", [Filter('frame.time > "2026-11-01T00:00:00Z"').decide(it) for it in (late, CUT)], [MATCHES, FAILS])


def needed():
    """How many bytes decide: an ether type that begins with 07 announces no header, and an ARP packet may have addresses of no bytes."""
    for text, frame, words, expected in (
            ("vlan", b"", {}, 13), ("vlan", TAGGED[:12], {}, 13), ("vlan", TAGGED[:13], {}, 14), ("vlan", TAGGED[:14], {}, None),
            ("vlan 5", TAGGED[:14], {}, 16), ("vlan 5", TAGGED[:16], {}, 17), ("vlan 291", TAGGED[:15], {}, 16), ("vlan 291", TAGGED[:16], {}, None),
            ("arp.op == 1", ARP[:14], {}, 22), ("arp", ARP[:14], {}, None), ("arp", memoryview(ARP)[:13], {}, 14),
            ("ether src 02:00:00:00:00:01", b"", {}, 7),
            ("vlan 5", b"", {"start": Start.ETHER_TYPE, "ether_type": 0x8100}, 2), ("vlan 5", COOKED[:14], {"start": Start.LINUX_SLL}, 15),
            ("greater 100 and vlan", b"", {}, 13), ("greater 100 and vlan", b"", {"original_len": 60}, None), ("cut", b"", {}, None),
            ("less 60 and vlan", b"", {}, None), ("less 60 and vlan", b"", {"original_len": 60}, 13),
            ("vlan", TAGGED[:12], {"original_len": 12}, None)):
        check(f"{text} of {len(frame)} bytes, {words}", Filter(text).needed(frame, **words), expected)
    check("a cut packet", [Filter(text).needed(CUT) for text in ("ip", "vlan 291", "less 18", "ip and greater 19")], [17, None, None, 17])
    check("lengths of a frame of cooked capture",
          [Filter(f"greater {it} and vlan 5").needed(cut(V2, 276, 20)) for it in (22, 40)], [22, 21])
    for text, packet, link_type, lengths in (
            ("vlan 5", V2, 276, [20] * 20 + [22, 23, 23]), ("cut", V2, 276, [20] * 20 + [None] * 2),
            ("vlan 5", LOOPBACK, 113, [16] * 16 + [18, 19, 19]),
            ("vlan 5", COOKED[:14] + V2[20:], 113, [16] * 16), ("arp", COOKED, 105, [None] * 9)):
        check(f"{text} of link type {link_type}", [Filter(text).needed(cut(packet, link_type, at)) for at in range(len(lengths))], lengths)
    for text in ("vlan 5", "not vlan", "arp.op == 1", "arp.spa == 10.0.0.1 or vlan", "refused", "ip", "macsec or arp", "less 40", "ether multicast"):
        for packet, link_type in ((TAGGED, 1), (ARP, 1), (COOKED, 113), (V2, 276), (LOOPBACK, 113), (COOKED + bytes(9), 105)):
            decided = [Filter(text).decide(cut(packet, link_type, at)) for at in range(len(packet) + 1)]
            found = [Filter(text).needed(cut(packet, link_type, at)) for at in range(len(packet) + 1)]
            wrong = [at for at, least in enumerate(found) if (least is None) != (decided[at] != UNDECIDED)
                     or least is not None and (least <= at or {UNDECIDED} != set(decided[at:least]))]
            check(f"{text} before the bytes that are needed, link type {link_type}", wrong, [])
    check("wrong words", [raised(Filter("arp").needed, *it) for it in ((5,), ("ff",), (b"", 9), (b"", Start.ETHER_TYPE))],
          [TypeError] * 2 + [ValueError] * 2)
    check("a wrong length", [raised(Filter("arp").needed, b"", original_len=it) for it in (-1, 2**32, "1")], [ValueError] * 2 + [TypeError])


def many(content, expected):
    """Marks and packets of a capture, where each packet that is selected is one of the expected bytes."""
    packets, found = etherpeel.open(content), Filter("greater 9")
    check("marks", found.select(packets), [it in expected for it in (bytes(it.packet) for it in packets)])
    check("marks of an iterator", found.select(etherpeel.capture(content)), found.select(packets))
    check("marks of a list", found.select(list(packets)), found.select(packets))
    check("marks of frames", Filter("arp").select([TAGGED, bytearray(ARP), memoryview(ARP)]), [False, True, True])
    check("marks of nothing", [found.select(it) for it in ((), [], iter(()), etherpeel.open(b""))], [[]] * 4)
    for packets in (etherpeel.open(content), etherpeel.capture(content), list(etherpeel.open(content))):
        check("selected", [bytes(it.packet) for it in etherpeel.select(found, packets)], expected)
    front = bytes.fromhex("a1b2c3d4 00020004 00000000 00000000 0000ffff 00000001")
    records = b"".join(struct.pack(">IIII", number, 0, 0, number % 7) for number in range(10_000))
    long = etherpeel.open(front + records)
    check("more than one call", [it.time_ns // 10**9 for it in etherpeel.select("greater 6", long)], list(range(6, 10_000, 7)))
    check("one after the last of a call", [it.original_len for it in etherpeel.select("greater 1", long)], [it % 7 for it in range(10_000) if it % 7])
    check("many marks", [at for at, mark in enumerate(Filter("greater 6").select(long)) if mark], list(range(6, 10_000, 7)))


def values():
    vlan = Filter("vlan 5")
    check("text", (vlan.text, repr(vlan), eval(repr(vlan)) == vlan), ("vlan 5", "etherpeel.Filter('vlan 5')", True))
    check("equal", (vlan == Filter("vlan 5"), vlan != Filter("vlan  5"), hash(vlan) == hash(Filter("vlan 5")), vlan == "vlan 5"),
          (True, True, True, False))
    for protocol in range(pickle.HIGHEST_PROTOCOL + 1):
        other = pickle.loads(pickle.dumps(vlan, protocol))
        check(f"pickle {protocol}", (other, other.matches(ADDRESSES + bytes.fromhex("8100 0005 0800"))), (vlan, True))
    check("copies", (copy.copy(vlan) is vlan, copy.deepcopy(vlan)), (True, vlan))
    check("not changed", [raised(setattr, vlan, name, "arp") for name in ("text", "other")], [AttributeError] * 2)
    for call in (Filter, lambda text: etherpeel.select(text, [])):
        check("no text", [raised(call, it) for it in (b"vlan", None, 5, ["vlan"])], [TypeError] * 4)
        check("no filter", [raised(call, it) for it in ("vlan 4096", "", "vlan\0")], [etherpeel.FilterError] * 3)
    check("no packet", [raised(vlan.matches, it) for it in ("vlan", None, 5, [TAGGED])], [TypeError] * 4)
    check("wrong words", [raised(vlan.matches, TAGGED, *it) for it in ((9,), (Start.ETHER_TYPE,))], [ValueError] * 2)
    check("a wrong ether type", [raised(vlan.matches, *it, ether_type=65536) for it in ((TAGGED,), (b"", 4))], [ValueError] * 2)


def threads():
    """One filter, asked by four threads at once about frames of their own."""
    found, wrong, frames_of = Filter("vlan 291 or arp"), [], ((TAGGED, True), (ARP, True), (ADDRESSES + b"\x08\0", False), (CUT, False))

    def asks(frame, expected):
        wrong.extend(1 for _ in range(1000) if found.matches(frame) != expected or found.select([frame] * 3) != [expected] * 3)

    started = [threading.Thread(target=asks, args=it) for it in frames_of]
    for one in started:
        one.start()
    for one in started:
        one.join()
    check("wrong answers to threads", len(wrong), 0)


def asking(content, expected):
    frames()
    cut_packets()
    needed()
    many(content, expected)
    values()
    threads()
