"""Captures that a `Reader` reads as streams: interfaces and comments, pipes, short reads, files that are cut, packed or wrong. The files are made
by hand as draft-ietf-opsawg-pcapng says, or by editcap, mergecap and text2pcap; tshark says what is in them."""
import bz2
import contextlib
import gzip
import io
import lzma
import mmap
import os
import pickle
import queue
import random
import shutil
import struct
import subprocess
import sys
import tempfile
import threading
import tracemalloc
import warnings
import zlib

import etherpeel
from checks import ARP, TAGGED, check, raised
from etherpeel import CaptureError, Interface, Reader

WAIT = 60  # seconds


def padded(content):
    return content + bytes(-len(content) % 4)


class Blocks:
    """Blocks of pcapng in one byte order."""

    def __init__(self, order):
        self.order = order

    def block(self, kind, body):
        return self.numbers("II", kind, len(body) + 12) + body + self.numbers("I", len(body) + 12)

    def numbers(self, codes, *values):
        return struct.pack(self.order + codes, *values)

    def options(self, *options):
        return b"".join(self.numbers("HH", code, len(value)) + padded(value) for code, value in options) + bytes(4 if options else 0)

    def section(self, *options):
        return self.block(0x0A0D0D0A, self.numbers("IHHq", 0x1A2B3C4D, 1, 0, -1) + self.options(*options))

    def interface(self, *options, link_type=1, snap_len=0):
        return self.block(1, self.numbers("HHI", link_type, 0, snap_len) + self.options(*options))

    def packet(self, number, time, content, *options, original_len=None):
        lengths = len(content), len(content) if original_len is None else original_len
        return self.block(6, self.numbers("IIIII", number, time >> 32, time & 2**32 - 1, *lengths) + padded(content) + self.options(*options))

    def simple(self, content, original_len):
        return self.block(3, self.numbers("I", original_len) + padded(content))


LITTLE, BIG = Blocks("<"), Blocks(">")
# Options: 1 comment, 2 if_name, 3 if_description, 9 if_tsresol, 13 if_fcslen, 14 if_tsoffset. The first interface has
# times in nanoseconds, 7 seconds too late; the others have microseconds.
FIRST = [
    LITTLE.section((1, b"of the section")),
    LITTLE.interface((2, b"eth7"), (3, "Büro, oben".encode()), (1, b"one"), (1, b"two"), (9, b"\x09"), (13, b"\4"),
                     (14, (-7).to_bytes(8, "little", signed=True)), snap_len=60),
    LITTLE.interface(link_type=113),
    LITTLE.packet(0, 1_700_000_007_000_000_005, TAGGED, (1, b"hello"), (2, bytes(4)), (1, "grüße".encode())),
    LITTLE.packet(1, 1_700_000_000_000_001, b"\0\4\0\1\0\6" + bytes(8) + b"\x08\0", original_len=40),
    LITTLE.simple(ARP, len(ARP)),
]
SECOND = [
    BIG.section(),
    BIG.interface((2, b"wlan\xff"), (14, (3).to_bytes(8, "big"))),
    BIG.packet(0, 1_700_000_000_000_000, ARP, (1, b"last")),
]
ETH7 = Interface(0, "eth7", "Büro, oben", ("one", "two"), 1, 60, 4, 9, -7)
COOKED = Interface(1, None, None, (), 113, 0, None, None, 0)
WLAN = Interface(0, "wlan\ufffd", None, (), 1, 0, None, None, 3)
# of each packet: its bytes, time, link type, original length and length of the check sequence; its interface; its comments; all interfaces
PACKETS = [
    ((TAGGED, 1_700_000_000_000_000_005, 1, 19, 4), ETH7, ("hello", "grüße"), [ETH7, COOKED]),
    ((b"\0\4\0\1\0\6" + bytes(8) + b"\x08\0", 1_700_000_000_000_001_000, 113, 40, None), COOKED, (), [ETH7, COOKED]),
    ((ARP, None, 1, 42, 4), ETH7, (), [ETH7, COOKED]),
    ((ARP, 1_700_000_003_000_000_000, 1, 42, None), WLAN, ("last",), [WLAN]),
]
SECTIONS = b"".join(FIRST + SECOND)
CLASSIC = [bytes.fromhex("a1b2c3d4 00020004 00000000 00000000 0000ffff 00000001"),
           struct.pack(">IIII", 1, 2, 19, 60) + TAGGED, struct.pack(">IIII", 3, 4, 42, 42) + ARP]


class Short:
    """A file that returns a few bytes at a time, from `read` alone."""

    def __init__(self, content):
        self.file, self.calls = io.BytesIO(content), 0

    def read(self, size):
        self.calls += 1
        return bytearray(self.file.read(min(size, 1 + self.calls % 3)))


def outcome(source):
    """What a reader returns of a source, and what it raises."""
    found, reader = [], Reader(source)
    try:
        for packet in reader:
            found.append(((bytes(packet.packet), *packet[1:]), reader.interface, reader.comments, reader.interfaces))
    except CaptureError as error:
        check("raised once", raised(next, reader), StopIteration)
        return found, (error.offset, error.needed, str(error))
    check("at the end", raised(next, reader), StopIteration)
    return found, None


def values():
    check("sections", outcome(SECTIONS), (PACKETS, None))
    check("the other order first", outcome(b"".join(SECOND + FIRST))[0], PACKETS[3:] + PACKETS[:3])
    check("classic", outcome(b"".join(CLASSIC)), (
        [((TAGGED, 1_000_002_000, 1, 60, None), None, (), []), ((ARP, 3_000_004_000, 1, 42, None), None, (), [])], None))
    reader = Reader(SECTIONS)
    check("before the first packet", (reader.interface, reader.comments, reader.interfaces), (None, (), []))
    packets = list(reader)
    check("packets have their own bytes", [it.packet.obj for it in packets], [it[0][0] for it in PACKETS])
    check("of the last packet", (reader.interface, reader.comments), (WLAN, ("last",)))
    other = Reader(SECTIONS + LITTLE.section())
    check("after another section", (len(list(other)), other.interfaces, other.interface, other.comments), (4, [], WLAN, ("last",)))
    reader.interfaces.clear()
    check("a list of the caller", reader.interfaces, [WLAN])
    check("pickled", pickle.loads(pickle.dumps(ETH7)), ETH7)
    check("repr", repr(reader), f"<etherpeel.Reader at byte {len(SECTIONS)}>")
    check("selected", [bytes(it.packet) for it in etherpeel.select("arp", Reader(b"".join(CLASSIC)))], [ARP])
    many = [LITTLE.interface((2, b"eth%d" % number)) for number in range(5000)]
    for last in (0, 4999):
        found, = outcome(FIRST[0] + b"".join(many) + LITTLE.packet(last, 0, b"A"))[0]
        check("many interfaces", (found[0], found[1].number, found[1].name, len(found[3])), ((b"A", 0, 1, 1, None), last, f"eth{last}", 5000))
    most = FIRST[0] + LITTLE.interface() * 65_536
    check("the most interfaces", len(outcome(most + LITTLE.packet(65_535, 0, b"A"))[0][0][3]), 65_536)
    check("one more", outcome(most + LITTLE.interface())[1][:2], (len(most), 0))
    zeros = outcome(FIRST[0] + LITTLE.interface((9, b"\0"), (13, b"\0")) + LITTLE.packet(0, 5, b"A"))[0]
    check("zeros", zeros[0][:2], ((b"A", 5 * 10**9, 1, 1, 0), Interface(0, None, None, (), 1, 0, 0, 0, 0)))
    empty = outcome(FIRST[0] + LITTLE.interface((2, b""), (3, b""), (1, b"")) + LITTLE.packet(0, 0, b"", (1, b"")))[0]
    check("empty texts", empty[0][1:3], (Interface(0, "", "", ("",), 1, 0, None, None, 0), ("",)))


def of_a_whole_file():
    for content, interfaces, each in (
            (SECTIONS, [ETH7, COOKED, WLAN], [it[1] for it in PACKETS]), (b"".join(CLASSIC), [], [None] * 2), (b"", [], []),
            (SECTIONS[:-1], [ETH7, COOKED, WLAN], [it[1] for it in PACKETS[:3]]), (SECTIONS[:len(b"".join(FIRST[:2]))], [ETH7], [])):
        packets = etherpeel.open(content)
        check("interfaces", (packets.interfaces, [packets.interface(at) for at in range(len(packets))]), (interfaces, each))
        check("no interface", (raised(packets.interface, len(each)), raised(packets.interface, "0")), (IndexError, TypeError))
    packets = etherpeel.open(FIRST[0] + LITTLE.interface() * 4097 + LITTLE.packet(0, 0, b"A"))
    check("before the fault", (len(packets), len(packets.interfaces), raised(packets.interface, 0)), (0, 4096, IndexError))
    packets = etherpeel.open(SECTIONS)
    packets.interfaces.clear()
    check("the last", (packets.interface(-1), packets.interfaces), (WLAN, [ETH7, COOKED, WLAN]))
    packets.close()
    check("closed", [raised(lambda: packets.interfaces), raised(packets.interface, 0)], [ValueError] * 2)


def cut(units, packets):
    """Each front of a file: the packets whose last byte is there, and a fault unless it ends with a unit."""
    content, ends = b"".join(units), [0]
    for unit in units:
        ends.append(ends[-1] + len(unit))
    has_packet = [unit[:4] in (b"\6\0\0\0", b"\3\0\0\0", b"\0\0\0\6") or number > 0 and units is CLASSIC for number, unit in enumerate(units)]
    for size in range(len(content) + 1):
        whole = sum(end <= size for end in ends[1:])
        begin = None if size and size == ends[whole] else ends[whole]
        for source in (content[:size], Short(content[:size])):
            found, fault = outcome(source)
            check(f"{size} bytes", (len(found), fault and fault[0]), (sum(has_packet[:whole]), begin))
        check(f"{size} bytes, packets", found, packets[:len(found)])
        check(f"{size} bytes, needed", fault is None or size - begin < fault[1] <= ends[whole + 1] - begin, True)
        error = etherpeel.open(content[:size]).fault
        check(f"{size} bytes, read at once", fault, error and (error.offset, error.needed, str(error)))


def packed(content):
    def sources(form, whole):
        with tempfile.TemporaryDirectory() as folder:
            with open(f"{folder}/f.{form}", "wb") as file:
                file.write(whole)
            with open(f"{folder}/f.{form}", "rb") as file:
                return [outcome(it) for it in (whole, f"{folder}/f.{form}", file, Short(whole))]

    for form, pack in (("gzip", gzip.compress), ("bzip2", bz2.compress), ("xz", lzma.compress)):
        check(form, sources(form, pack(content)), [(PACKETS, None)] * 4)
        check(f"{form} twice", sources(form, pack(content[:99]) + bytes(9) + pack(content[99:])), [(PACKETS, None)] * 4)
        for found, fault in sources(form, pack(content)[:-1]):
            check(f"{form}, cut", (found == PACKETS[:len(found)], f"further ({form}): it ends too early" in fault[2]), (True, True))
    records = b"".join(struct.pack(">IIII", number, 0, 999, 999) + bytes(range(111)) * 9 for number in range(500))
    stored = gzip.compress(CLASSIC[0] + records, 0)
    found, fault = outcome(stored[:len(stored) // 2])
    check("half of it", (200 < len(found) < 300, "(gzip): it ends too early" in fault[2], fault[0]), (True, True, 24 + 1015 * len(found)))
    found, fault = outcome(gzip.compress(CLASSIC[0] + records)[:-4] + bytes(4))
    check("a wrong length at the end", (len(found), fault[:2], "incorrect length check" in fault[2]), (500, (24 + 1015 * 500, 0), True))
    check("a wrong byte", outcome(gzip.compress(content)[:-9] + b"?" * 9)[1][2].count("cannot be unpacked further (gzip)"), 1)
    for size, text in ((10, "the file cannot be unpacked further (gzip): it ends too early"),
                       (30, "The magic number 0x3F3F3F3F is not that of a pcap file.")):
        check("no capture, and cut", outcome(gzip.compress(b"?" * size)[:-4])[1][2], f"At byte 0: {text}")
    check("packed once more", outcome(gzip.compress(gzip.compress(content)))[1][0], 0)


def piped(units, opened, pack=lambda it: it):
    """Writes a file to a pipe byte by byte. Each packet comes out once its last byte is there."""
    came, (reads, writes) = queue.Queue(), os.pipe()

    def read():
        with contextlib.closing(opened(reads)) as file:
            for packet in Reader(file):
                came.put(bytes(packet.packet))
        came.put(None)

    thread, found = threading.Thread(target=read, daemon=True), []
    thread.start()
    for unit, has_packet in units:
        content = pack(unit)
        for at in range(len(content)):
            os.write(writes, content[at:at + 1])
        if has_packet:
            found.append(came.get(timeout=WAIT))
    os.close(writes)
    found.append(came.get(timeout=WAIT))
    thread.join()
    return found


def pipes():
    class Whole:
        """A file whose `read` waits for all bytes that are asked for."""

        def __init__(self, descriptor):
            file = os.fdopen(descriptor, "rb")
            self.read, self.close = file.read, file.close

    sections = [(unit, number > 2 and number not in (6, 7)) for number, unit in enumerate(FIRST + SECOND)]
    classic = [(unit, number > 0) for number, unit in enumerate(CLASSIC)]
    buffered = lambda descriptor: os.fdopen(descriptor, "rb")
    for name, opened in (("buffered", buffered), ("raw", lambda descriptor: os.fdopen(descriptor, "rb", 0)), ("read alone", Whole)):
        check(f"a pipe, {name}", piped(sections, opened), [it[0][0] for it in PACKETS] + [None])
        check(f"a pipe of a classic file, {name}", piped(classic, opened), [TAGGED, ARP, None])
    packer = zlib.compressobj(wbits=31)
    flushed = lambda unit: packer.compress(unit) + packer.flush(zlib.Z_SYNC_FLUSH if unit else zlib.Z_FINISH)
    check("a packed pipe", piped(sections + [(b"", False)], buffered, flushed), [it[0][0] for it in PACKETS] + [None])
    reads, writes = os.pipe()
    os.set_blocking(reads, False)
    with os.fdopen(reads, "rb", 0) as file, os.fdopen(writes, "wb", 0) as other:
        reader = Reader(file)
        for part in (b"", *CLASSIC[:1], CLASSIC[1][:10], CLASSIC[1][10:30]):
            other.write(part)
            check("no bytes yet", raised(next, reader), BlockingIOError)
        other.write(CLASSIC[1][30:])
        check("later", bytes(next(reader).packet), TAGGED)


STANDARD_INPUT = "import etherpeel; print([bytes(it.packet) for it in etherpeel.Reader('-')])"


def files():
    environment = {**os.environ, "PYTHONPATH": os.path.dirname(os.path.dirname(etherpeel.__file__))}
    ran = subprocess.run([sys.executable, "-c", STANDARD_INPUT], input=SECTIONS, stdout=subprocess.PIPE, env=environment)
    check("standard input", ran.stdout.decode(), f"{[it[0][0] for it in PACKETS]}\n")
    before = len(os.listdir("/proc/self/fd"))
    with tempfile.TemporaryDirectory() as folder:
        path = f"{folder}/f.pcapng"
        with open(path, "wb") as file:
            file.write(b"??" + SECTIONS)
        with open(path, "rb") as file:
            file.seek(2)
            check("from its position on", (outcome(file), file.closed), ((PACKETS, None), False))
        with Reader(path) as reader:
            check("no capture", raised(next, reader), CaptureError)
        with open(path, "wb") as file:
            file.write(SECTIONS)
        with open(path, "rb") as file, mmap.mmap(file.fileno(), 0, access=mmap.ACCESS_READ) as mapped:
            check("mapped", outcome(mapped), (PACKETS, None))
            ended = Reader(mapped)
            check("to the end of memory", len(list(ended)), 4)
        with Reader(path) as reader:
            first = next(reader)
        check("closed", (raised(next, reader), bytes(first.packet), reader.comments), (ValueError, TAGGED, ("hello", "grüße")))
        opened = [Reader(path), Reader(path), ended]
        with warnings.catch_warnings(record=True) as warned:
            warnings.simplefilter("always")
            check("to the end", len(list(opened[0])), 4)
            opened[1].close()
        check("closed files", (len(os.listdir("/proc/self/fd")), warned), (before, []))
        check("files", [raised(Reader, it) for it in (f"{path}.none", folder)], [FileNotFoundError, IsADirectoryError])
    check("no file stays open", len(os.listdir("/proc/self/fd")), before)
    for source in (7, None, [b"a"]):
        check("no source", raised(Reader, source), TypeError)
    check("text", raised(next, Reader(io.StringIO("text"))), TypeError)


class Endless:
    """A classic file of so many packets of 1,000 bytes."""

    def __init__(self, count):
        self.parts = iter([CLASSIC[0]] + [struct.pack(">IIII", 0, 0, 1000, 1000) + bytes(1000)] * count)

    def read(self, size):
        return next(self.parts, b"")


def memory():
    tracemalloc.start()
    for source in (Endless(10_000), gzip.compress(b"".join(Endless(10_000).parts))):
        size = tracemalloc.get_traced_memory()[0]
        tracemalloc.reset_peak() if hasattr(tracemalloc, "reset_peak") else None
        check("packets", sum(len(it.packet) for it in Reader(source)), 10_000_000)
        check("memory", tracemalloc.get_traced_memory()[1] - size < 1_000_000 or not hasattr(tracemalloc, "reset_peak"), True)
    tracemalloc.stop()


def wrong_files(drawn, count):
    """Files with up to five wrong bytes."""
    for _ in range(count):
        content = bytearray(drawn.choice((SECTIONS, b"".join(CLASSIC))))
        for _ in range(drawn.randrange(6)):
            content[drawn.randrange(len(content))] = drawn.choice((0, 1, 2, 4, 255, drawn.randrange(256)))
        yield bytes(content)


def garbage():
    """Files with wrong bytes: as they are read at once, whatever is in them."""
    wrong = 0
    for number, content in enumerate(wrong_files(random.Random(5), 3000)):
        found, fault = outcome(Short(content) if number % 8 == 0 else content)
        packets = etherpeel.open(content)
        error = packets.fault
        wrong += ([it[0] for it in found] != [(bytes(it.packet), *it[1:]) for it in packets[:]]
                  or [it[1] for it in found] != [packets.interface(at) for at in range(len(packets))]
                  or fault != (error and (error.offset, error.needed, str(error))))
    check("wrong files", wrong, 0)


TEXTS = [word for name in ("interface_name", "interface_description", "comment") for word in ("-e", f"frame.{name}")]


def lines_of(path):
    """What tshark says of the names of interfaces, of their descriptions and of comments."""
    ran = subprocess.run(["tshark", "-r", path, "-T", "fields", "-E", "aggregator=|", *TEXTS], stdout=subprocess.PIPE, stderr=subprocess.DEVNULL)
    return ran.stdout.decode().splitlines()


def made_by_others():
    missing = [it for it in ("tshark", "text2pcap", "editcap", "mergecap") if not shutil.which(it)]
    if missing:
        print(f"left out: interfaces and comments as tshark shows them, since {missing[0]} was not found")
        return
    with tempfile.TemporaryDirectory() as folder:
        hand, made, commented, merged = (f"{folder}/{name}.pcapng" for name in ("hand", "made", "commented", "merged"))
        with open(hand, "wb") as file:
            file.write(b"".join(FIRST))
        text = "".join(f"0000 {frame.hex(' ')}\n" for frame in (TAGGED, ARP))
        for command in (["text2pcap", "-q", "-N", "eth9", "-", made], ["editcap", "-a", "1:hello", "-a", "2:grüße", made, commented],
                        ["mergecap", "-I", "none", "-w", merged, commented, hand]):
            subprocess.run(command, input=text.encode(), stdout=subprocess.DEVNULL, stderr=subprocess.DEVNULL, check=True)
        for path in (hand, made, commented, merged):
            with Reader(path) as reader:
                told = [(reader.interface.name or "unknown", reader.interface.description or "", "|".join(reader.comments)) for _ in reader]
            check(path, ["\t".join(it) for it in told], lines_of(path))
        interfaces = etherpeel.open(merged).interfaces
        check("merged", sorted(it.name or "" for it in interfaces), ["", "eth7", "eth9"])
        check("comments", [it for it in lines_of(commented)], ["eth9\t\thello", "eth9\t\tgrüße"])


def streams():
    values()
    of_a_whole_file()
    cut(FIRST + SECOND, PACKETS)
    cut(CLASSIC, outcome(b"".join(CLASSIC))[0])
    packed(SECTIONS)
    pipes()
    files()
    memory()
    garbage()
    made_by_others()
