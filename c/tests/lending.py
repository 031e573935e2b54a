"""Memory that is lent to calls of the Python package is given back, targets may not share it, and only a library that fits is loaded."""
import gc

import etherpeel
from checks import ADDRESSES, ARP, TAGGED, check, raised
from etherpeel import _library

SEC_TAG = ADDRESSES + bytes.fromhex("88e5 2000 00000001 0000000000000000 0800 45")
COOKED_V2 = bytes.fromhex("0806 0000 00000003 0001 04 06 020000000001abcd") + ARP[14:]
CAPTURE = bytes.fromhex("a1b23c4d 00020004 00000000 00000000 0000ffff 00000001 00000001 00000007 00000013 00000013") + TAGGED
# Calls with a buffer, and one that it is right for; each is made with that, and with its first bytes.
CALLS = {
    "walk": (etherpeel.walk, TAGGED), "walk with a limit": (lambda it: etherpeel.walk(it, limit=1), TAGGED),
    "a long walk": (etherpeel.walk, TAGGED + bytes(20_000)), "summary": (etherpeel.summary, TAGGED), "packet": (etherpeel.packet, TAGGED),
    "fields": (etherpeel.fields, ARP), "fault text": (etherpeel.fault_text, TAGGED), "feed": (etherpeel.feed, TAGGED),
    "missing": (etherpeel.missing, TAGGED), "completion": (etherpeel.completion, TAGGED), "write back": (etherpeel.write_back, TAGGED),
    "write back into": (lambda it: etherpeel.write_back_into(bytearray(99), it), TAGGED),
    "a target": (lambda it: etherpeel.write_back_into(it, TAGGED), bytes(19)),
    "pop": (etherpeel.pop_vlan, TAGGED), "push": (lambda it: etherpeel.push_vlan(it, etherpeel.Vlan(5)), bytes(4) + TAGGED),
    "identifier": (lambda it: etherpeel.set_vlan_id(it, 0, 5), TAGGED), "tag": (lambda it: etherpeel.set_vlan_tag(it, 0, etherpeel.Vlan(5)), TAGGED),
    "type of a tag": (lambda it: etherpeel.set_tpid(it, 0, 0x88A8), TAGGED),
    "link": (lambda it: etherpeel.replace_link(it, etherpeel.Ethernet2(bytes(6), bytes(6), 0x8100)), TAGGED),
    "header": (lambda it: etherpeel.replace_link_ext(it, 0, etherpeel.Vlan(5, ether_type=0x0800)), TAGGED),
    "ARP": (lambda it: etherpeel.replace_arp(it, etherpeel.walk(ARP)[1].header), ARP),
    "payload": (lambda it: etherpeel.build([etherpeel.walk(TAGGED)[0].header], it, 0x0800), TAGGED),
    "cooked v2": (etherpeel.linux_sll2, COOKED_V2), "its fields": (etherpeel.linux_sll2_fields, COOKED_V2),
    "frame": (lambda it: etherpeel.captured_frame(captured(it)) and None, TAGGED),
    "select": (lambda it: len(list(etherpeel.select("vlan", [captured(it)]))), TAGGED),
    "select with a wrong number": (lambda it: len(list(etherpeel.select("vlan", [captured(it)._replace(original_len=2**32)]))), TAGGED),
    "filter": (lambda it: etherpeel.Filter("vlan").matches(it), TAGGED),
    "filter of a packet": (lambda it: etherpeel.Filter("vlan").decide(captured(it)), TAGGED),
    "filter of a tag": (lambda it: etherpeel.Filter("vlan").matches(it, etherpeel.Start.ETHER_TYPE, ether_type=0x8100), TAGGED[14:]),
    "filter of a wrong packet": (lambda it: etherpeel.Filter("vlan").matches(captured(it)._replace(fcs_len=256)), TAGGED),
    "capture": (lambda it: len(list(etherpeel.capture(it))), CAPTURE), "open": (lambda it: len(etherpeel.open(it)), CAPTURE),
    "select of a capture": (lambda it: len(list(etherpeel.select("vlan", etherpeel.capture(it)))), CAPTURE),
}


def captured(content):
    return etherpeel.Captured(memoryview(content), None, 1, len(content), None)


def given_back():
    """After each call the buffer can be resized: nobody has it any more, also where the call has raised an exception."""
    for name, (call, content) in CALLS.items():
        for some in (content, content[:3]):
            buffer = bytearray(some)
            raised(call, buffer)
            gc.collect()
            check(f"{name} of {len(some)} bytes gives the buffer back", raised(buffer.append, 0), None)


def overlaps():
    """A target that has one byte in common with the frame, at either end of either, is refused; one beside it is not."""
    size = len(TAGGED)
    memory = memoryview(bytearray(TAGGED * 3))
    frame = memory[size:2 * size]
    for first, last in ((size - 9, 2 * size - 9), (2 * size - 1, 3 * size - 1), (0, size + 1), (size + 2, size + 3), (0, 3 * size), (size, 2 * size)):
        before = bytes(memory)
        check(f"a target from {first} to {last}", (raised(etherpeel.write_back_into, memory[first:last], frame), bytes(memory)),
              (etherpeel.Error, before))
    for first in (0, 2 * size):
        check(f"a target from {first} on", etherpeel.write_back_into(memory[first:first + size], frame), size)


def numbers_of_zero():
    """A secure channel identifier of 0 is one, by each way in which a header is read and written."""
    for name, tag in (("walk", etherpeel.walk(SEC_TAG)[1]), ("packet", etherpeel.packet(SEC_TAG).units[1]),
                      ("limit", etherpeel.walk(SEC_TAG, limit=3)[1])):
        check(f"the identifier 0 by {name}", tag.header.sci, 0)
    check("the identifier 0, built", etherpeel.build([u.header for u in etherpeel.walk(SEC_TAG)], b"E", 0x0800)[:30].hex(),
          (ADDRESSES + bytes.fromhex("88e5 2003 00000001 0000000000000000 0800")).hex())
    check("VLAN 0", etherpeel.walk(ADDRESSES + bytes.fromhex("8100 0000 0000"))[1].header, etherpeel.Vlan(0, 0, False, 0))
    for vid in (4096, 65536, 65541, -1):
        check(f"the identifier {vid}", raised(etherpeel.push_vlan, bytearray(4) + TAGGED, etherpeel.Vlan(vid)), etherpeel.TagError)
    check("nanoseconds", [it.time_ns for it in etherpeel.capture(CAPTURE)], [1_000_000_007])
    check("the time 0", [it.time_ns for it in etherpeel.capture(CAPTURE[:24] + bytes(8) + CAPTURE[32:])], [0])
    without_fcs = CAPTURE[:20] + bytes.fromhex("04000001") + CAPTURE[24:]  # f is 1, and the length 0 (the draft of pcap, 4)
    check("a check sequence of no bytes", [it.fcs_len for it in etherpeel.capture(without_fcs)], [0])
    check("a check sequence that is not told", [it.fcs_len for it in etherpeel.capture(CAPTURE)], [None])


def libraries():
    """A library of another version, or with structs of other sizes, is not loaded."""
    path = _library.lib._name
    for name, value in (("MAJOR", 4), ("MAJOR", 2), ("VERSION", 0x030001), ("VERSION", 0x030100), ("STRUCTS", _library.STRUCTS[::-1])):
        kept = getattr(_library, name)
        setattr(_library, name, value)
        try:
            check(f"a library for {name} {str(value)[:40]}", raised(_library.load, path), ImportError)
        finally:
            setattr(_library, name, kept)
    check("the library", raised(_library.load, path), None)


def lending():
    given_back()
    overlaps()
    numbers_of_zero()
    libraries()
