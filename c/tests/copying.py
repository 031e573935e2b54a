"""Copies of captures with edits, compared with files made by hand as draft-ietf-opsawg-pcapng and -pcap say, and read by tcpdump, tshark and
capinfos."""
import gzip
import io
import os
import pathlib
import random
import shutil
import struct
import subprocess
import tempfile

import etherpeel
from checks import ADDRESSES, ARP, TAGGED, check, raised
from etherpeel import CaptureError, Copy, Error
from streams import BIG, CLASSIC, FIRST, LITTLE, SECOND, SECTIONS, wrong_files

WHOLE = b"".join(CLASSIC)
PUSHED = ADDRESSES + bytes.fromhex("8100 0005")  # what a frame begins with after the tag of VLAN 5 is put in
SIMPLE_WAS_CUT = "At byte {}: the packet can't be edited or copied: a simple packet block gives no captured length"


def copied(source, edit=lambda copy, packet: None, growth=0):
    """What a copy has, if each packet is passed to a function; and what is raised."""
    target = io.BytesIO()
    try:
        with Copy(source, target, growth) as copy:
            for packet in copy:
                edit(copy, packet)
    except Error as error:
        return target.getvalue(), str(error)
    return target.getvalue(), None


def push(copy, packet):
    frame = bytearray(4) + packet.packet
    etherpeel.push_vlan(frame, etherpeel.Vlan(5))
    copy.edit(frame)


def unchanged():
    for name, content in (("sections", SECTIONS), ("classic", WHOLE), ("a section", b"".join(SECOND)), ("no packet", CLASSIC[0])):
        check(name, copied(content), (content, None))
        check(f"{name}, packed", copied(gzip.compress(content)), (content, None))
    check("cut", copied(WHOLE[:-1]), (b"".join(CLASSIC[:2]), "At byte 59: A record of a pcap file needs 58 byte(s); only 57 are available."))
    check("no bytes", copied(b"")[0], b"")
    for order in (LITTLE, BIG):
        body = order.numbers("I", 32473) + b"text"
        kept, left_out = order.block(0xBAD, body), order.block(0x40000BAD, body)
        of_a_length = order.section()[:16] + order.numbers("q", len(kept + left_out)) + order.section()[24:]
        check("other blocks", copied(of_a_length + kept + left_out), (order.section() + kept, None))


def edited():
    classic = [CLASSIC[0][:16] + struct.pack(">I", 0xFFFF + 4) + CLASSIC[0][20:],
               struct.pack(">IIII", 1, 2, 23, 64) + PUSHED + TAGGED[12:], struct.pack(">IIII", 3, 4, 46, 46) + PUSHED + ARP[12:]]
    check("a tag in a classic file", copied(WHOLE, push, 4), (b"".join(classic), None))
    for order in (LITTLE, BIG):
        texts = (2, b"eth7"), (1, b"one")
        source = [order.section(), order.interface(*texts, snap_len=60), order.interface(),
                  order.packet(0, 2**33, TAGGED, (1, b"two"), original_len=99), order.packet(1, 5, ARP)]
        target = [order.section(), order.interface(*texts, snap_len=64), order.interface(),
                  order.packet(0, 2**33, PUSHED + TAGGED[12:], (1, b"two"), original_len=103), order.packet(1, 5, PUSHED + ARP[12:])]
        check("a tag in a section", copied(b"".join(source), push, 4), (b"".join(target), None))
        cut = lambda copy, packet: copy.edit(packet.packet[:14], packet.original_len)
        target = [*source[:3], order.packet(0, 2**33, TAGGED[:14], (1, b"two"), original_len=99), order.packet(1, 5, ARP[:14], original_len=42)]
        check("packets cut to their headers", copied(b"".join(source), cut), (b"".join(target), None))
        shorter = copied(b"".join(source[:3]) + order.packet(0, 5, ARP, original_len=3), lambda copy, packet: copy.edit(ARP[:20]))[0]
        check("longer than before it was cut", shorter, b"".join(source[:3]) + order.packet(0, 5, ARP[:20], original_len=0))
        check("no bytes", copied(b"".join(source[:4]), lambda copy, _: copy.edit(b"", 0))[0][-len(order.packet(0, 2**33, b"", (1, b"two"))):],
              order.packet(0, 2**33, b"", (1, b"two")))
    both = lambda copy, packet: push(copy, packet) if packet.time_ns else copy.leave_out()
    raised_first = FIRST[1].replace(struct.pack("<I", 60), struct.pack("<I", 64), 1)
    frame = LITTLE.packet(0, 1_700_000_007_000_000_005, PUSHED + TAGGED[12:], (1, b"hello"), (2, bytes(4)), (1, "grüße".encode()))
    skipped = lambda copy, packet: both(copy, packet) if packet.link_type == 1 else None
    other = BIG.packet(0, 1_700_000_000_000_000, PUSHED + ARP[12:], (1, b"last"))
    units = [FIRST[0], raised_first, FIRST[2], frame, FIRST[4], *SECOND[:2], other]
    check("two sections", copied(SECTIONS, skipped, 4), (b"".join(units), None))


def left_out():
    arp = etherpeel.Filter("arp")
    check("left out", copied(WHOLE, lambda copy, packet: copy.leave_out() if arp.matches(packet) else None), (b"".join(CLASSIC[:2]), None))
    check("all", copied(SECTIONS, lambda copy, _: copy.leave_out()), (b"".join(FIRST[:3] + SECOND[:2]), None))
    check("at last an edit", copied(b"".join(CLASSIC[:2]), lambda copy, _: (copy.leave_out(), copy.edit(b"A", 9))),
          (CLASSIC[0] + struct.pack(">IIII", 1, 2, 1, 9) + b"A", None))
    check("at last left out", copied(b"".join(CLASSIC[:2]), lambda copy, _: (copy.edit(b"A"), copy.leave_out())), (CLASSIC[0], None))
    target = io.BytesIO()
    with Copy(WHOLE, target) as copy:
        next(copy)
        check("not written yet", target.getvalue(), CLASSIC[0])
    check("to the packet that was read last", (target.getvalue(), target.closed), (b"".join(CLASSIC[:2]), False))
    check("closed", [raised(*it) for it in ((next, copy), (copy.edit, b"A"), (copy.leave_out,))], [ValueError, Error, Error])

    def fails():
        with Copy(WHOLE, target) as copy:
            next(copy)
            raise KeyError

    target.seek(0)
    target.truncate()
    check("an exception", (raised(fails), target.getvalue()), (KeyError, CLASSIC[0]))


def refused():
    copy = Copy(WHOLE, io.BytesIO(), 2)
    check("before the first", [raised(copy.edit, b"A"), raised(copy.leave_out)], [Error] * 2)
    packet = next(copy)
    for words, kind, text in (((bytes(22),), Error, "frame has 3 bytes more than the packet, and growth is 2"),
                              ((b"ABC", 2), ValueError, "original_len is 3 to 4294967295, not 2"),
                              ((b"", "1"), TypeError, "original_len is an int, not str"),
                              ((b"", 2**32), ValueError, "original_len is 0 to 4294967295, not 4294967296"),
                              (("A",), TypeError, "a bytes-like object is required, not 'str'")):
        try:
            copy.edit(*words)
            check(text, "no error", text)
        except Exception as error:
            check(text, (type(error), str(error)), (kind, text))
    check("of the packet", (bytes(packet.packet), copy.interface, copy.comments), (TAGGED, None, ()))
    grown = Copy(WHOLE, io.BytesIO(), 2**32 - 1)
    next(grown)
    check("the most bytes", grown.edit(bytes(262144)), None)
    try:
        grown.edit(bytes(262145))
        check("one more", "no error", None)
    except Error as error:
        check("one more", str(error), "frame has 262145 bytes, and a packet of a capture at most 262144")
    check("growth", [raised(Copy, CLASSIC[0], io.BytesIO(), it) for it in (-1, 2**32, "4", None)], [ValueError] * 2 + [TypeError] * 2)
    check("no source", [raised(Copy, *it) for it in ((7, io.BytesIO()), (CLASSIC[0], 7), (CLASSIC[0], None))], [TypeError] * 3)


def simple_packets():
    simple = [LITTLE.section(), LITTLE.interface(snap_len=60), LITTLE.simple(ARP, 42), LITTLE.simple(bytes(60), 99)]
    place = len(b"".join(simple[:2]))
    edit = lambda copy, packet: copy.edit(packet.packet)
    check("a simple packet", copied(b"".join(simple), edit), (b"".join(simple[:2]), SIMPLE_WAS_CUT.format(place)))
    grown = simple[1].replace(struct.pack("<I", 60), struct.pack("<I", 61))
    check("one that was cut", copied(b"".join(simple), growth=1), (simple[0] + grown + simple[2], SIMPLE_WAS_CUT.format(place + len(simple[2]))))
    check("not grown", copied(b"".join(simple)), (b"".join(simple), None))
    copy = Copy(b"".join(simple + simple[2:3]), io.BytesIO(), 1)
    next(copy), next(copy)
    check("again and again", [raised(next, copy), raised(next, copy)], [Error] * 2)
    copy.leave_out()
    check("then left out", bytes(next(copy).packet), ARP)


class Slow(io.RawIOBase):
    """A file that takes up to seven bytes at a time."""

    def __init__(self):
        super().__init__()
        self.content = b""

    def writable(self):
        return True

    def write(self, content):
        self.content += content[:7]
        return min(7, len(content))


def files():
    slow = Slow()
    with Copy(SECTIONS, slow) as copy:
        list(copy)
    check("a few bytes at a time", slow.content, SECTIONS)
    with etherpeel.Writer(Slow()) as writer:
        writer.write(ARP)
    check("of a writer", len(writer._file.content), 24 + 16 + len(ARP))
    before = len(os.listdir("/proc/self/fd"))
    with tempfile.TemporaryDirectory() as folder:
        source, target = f"{folder}/f.pcapng", pathlib.Path(folder, "g.pcapng")
        pathlib.Path(source).write_bytes(SECTIONS)
        with Copy(source, target) as copy:
            check("packets", len(list(copy)), 4)
        check("paths", target.read_bytes(), SECTIONS)
        os.symlink(source, f"{folder}/h")
        with open(source, "rb") as file:
            for words in ((source, source), (source, f"{folder}/h"), (file, source)):
                check("the same file", (raised(Copy, *words), pathlib.Path(source).read_bytes()), (ValueError, SECTIONS))
        check("no source", (raised(Copy, f"{folder}/none", f"{folder}/new"), os.path.exists(f"{folder}/new")), (FileNotFoundError, False))
        with Copy(io.BytesIO(SECTIONS), target) as copy:
            check("no descriptor", len(list(copy)), 4)
        check("no folder", raised(Copy, source, f"{folder}/none/new"), FileNotFoundError)
        with open(target, "wb") as file, Copy(source, file) as copy:
            next(copy)
            copy.close()
            check("an open file", (file.closed, file.tell()), (False, len(b"".join(FIRST[:4]))))

    def fill(target):
        with target, Copy(SECTIONS, target) as copy:
            list(copy)

    def fill_path(growth):
        with Copy(SECTIONS, "/dev/full", growth) as copy:
            list(copy)

    check("full disk", [raised(fill_path, 0), raised(fill, open("/dev/full", "wb", 0)), raised(fill, open("/dev/full", "wb"))], [OSError] * 3)
    check("no file stays open", len(os.listdir("/proc/self/fd")), before)


def garbage():
    """Copies of files with wrong bytes have the packets before the fault, edited."""
    drawn, wrong, wanted = random.Random(7), 0, []

    def edit(copy, packet):
        if drawn.randrange(3) == 0:
            copy.leave_out()
        elif packet.time_ns is not None and drawn.randrange(2):
            push_zeros(copy, packet)
        else:
            wanted.append((bytes(packet.packet), *packet[1:]))

    def push_zeros(copy, packet):
        copy.edit(bytes(packet.packet) + bytes(4))
        wanted.append((bytes(packet.packet) + bytes(4), packet.time_ns, packet.link_type, packet.original_len + 4, packet.fcs_len))

    for content in wrong_files(drawn, 1500):
        wanted.clear()
        copy, error = copied(content, edit, 4)
        found = [(bytes(it.packet), *it[1:]) for it in etherpeel.open(copy)[:]]
        wrong += found != wanted[:len(wanted) - bool(error and "simple packet block gives" in error)]
    check("wrong files", wrong, 0)


def told(*command):
    ran = subprocess.run(command, stdout=subprocess.PIPE, stderr=subprocess.PIPE, text=True)
    return ran.returncode, ran.stdout


def read_by_others():
    missing = [it for it in ("tcpdump", "tshark", "capinfos") if not shutil.which(it)]
    if missing:
        print(f"left out: copies as other programs read them, since {missing[0]} was not found")
        return
    one = b"".join([LITTLE.section(), LITTLE.interface((2, b"eth7"), snap_len=60),
                    LITTLE.packet(0, 7, TAGGED, (1, b"hello"), original_len=60), LITTLE.packet(0, 8, ARP), LITTLE.packet(0, 9, ARP)])
    little, big = (it.section() + it.interface(snap_len=60) + it.packet(0, 8, ARP) + it.packet(0, 9, TAGGED) for it in (LITTLE, BIG))
    last = lambda copy, packet: push(copy, packet) if packet.time_ns != 9000 else copy.leave_out()
    fields = [word for it in ("frame.cap_len", "frame.len", "vlan.id", "frame.comment") for word in ("-e", it)]
    with tempfile.TemporaryDirectory() as folder:
        path = f"{folder}/f"
        for name, source, expected in (
                ("classic", WHOLE, ["23 64 5,291 ", "46 46 5 "]), ("a section", one, ["23 64 5,291 hello", "46 46 5 "]),
                ("big-endian", big, ["46 46 5 "]), ("two sections", one + little, ["23 64 5,291 hello", "46 46 5 ", "46 46 5 "]),
                ("both byte orders", one + big, ["23 64 5,291 hello", "46 46 5 ", "46 46 5 "])):
            pathlib.Path(path).write_bytes(copied(source, last, 4)[0])
            lines = "".join(f"{it}\n" for it in expected).replace(" ", "\t")
            check(f"{name}, tshark", told("tshark", "-r", path, "-T", "fields", *fields), (0, lines))
            status, lines = told("tcpdump", "-enr", path)
            if name != "both byte orders":  # libpcap does not read them
                check(f"{name}, tcpdump", (status, lines.count("vlan 5"), lines.count("who-has 10.0.0.2")),
                      (0, len(expected), len(expected) - ("291" in expected[0])))
            check(f"{name}, capinfos", told("capinfos", "-rTcm", path), (0, f"{path},{len(expected)}\n"))


def copying():
    unchanged()
    edited()
    left_out()
    refused()
    simple_packets()
    files()
    garbage()
    read_by_others()
