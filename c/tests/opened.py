"""Captures that `open` opens: sequences of packets, compressed files, whole and damaged, and standard input."""
import bz2
import gzip
import io
import lzma
import os
import struct
import subprocess
import sys
import tempfile
import zlib

import etherpeel
from checks import check, raised

COMPRESSED = {"gzip": gzip.compress, "bzip2": bz2.compress, "xz": lzma.compress, "lzma": lambda it: lzma.compress(it, lzma.FORMAT_ALONE)}
RECORD = struct.Struct(">IIII")


def zstd(content):
    """A frame of zstd with one block that is not compressed (RFC 8878, 3.1.1)."""
    return bytes.fromhex("28b52ffd 20") + bytes((len(content),)) + (len(content) << 3 | 1).to_bytes(3, "little") + content


def outcome(source):
    """The bytes of the packets of a capture, and what a loop raises after them."""
    found = []
    try:
        for packet in etherpeel.open(source):
            found.append(bytes(packet.packet))
    except etherpeel.CaptureError as error:
        return found, str(error)
    return found, None


def sequence(content, expected):
    packets = etherpeel.open(content)
    listed = list(packets)
    check("packets", [bytes(it.packet) for it in listed], expected)
    check("again", list(packets), listed)
    check("length", (len(packets), bool(packets), bool(etherpeel.open(content[:24]))), (len(expected), True, False))
    check("indices", [packets[at] for at in range(-len(listed), len(listed))], listed * 2)
    check("slices", (packets[:], packets[::-1], packets[1:], packets[5:]), (listed, listed[::-1], listed[1:], []))
    check("no index", [raised(packets.__getitem__, it) for it in (len(listed), -len(listed) - 1, "0")], [IndexError, IndexError, TypeError])
    check("a sequence", (listed[1] in packets, packets.index(listed[1]), packets.count(listed[1]), list(reversed(packets))),
          (True, 1, 1, listed[::-1]))
    check("repr", (repr(packets), packets.fault), (f"<etherpeel.Capture with {len(listed)} packets>", None))


def faults(content, expected):
    """A file that is cut within its last record: every way to use it, and the same error each time."""
    cut = etherpeel.open(content[:-1])
    error = cut.fault
    check("fault", (error.offset, error.needed, str(error)[:12]), (41, 16, "At byte 41: "))
    check("packets before it", (len(cut), [bytes(it.packet) for it in cut[:]], bytes(cut[-1].packet)), (1, expected[:1], expected[0]))
    for _ in range(2):
        check("raised", outcome(content[:-1]), (expected[:1], str(error)))
        try:
            list(cut)
            check("raised again", False, True)
        except etherpeel.CaptureError as raised_error:
            check("raised again", raised_error, error)
    packets = iter(cut)
    check("once", (next(packets) == cut[0], raised(next, packets), raised(next, packets)), (True, etherpeel.CaptureError, StopIteration))
    check("no capture", [len(etherpeel.open(it)) for it in (b"", bytes(24))], [0, 0])
    check("why", [type(etherpeel.open(it).fault) for it in (b"", bytes(24))], [etherpeel.CaptureError] * 2)


def closed(path):
    with etherpeel.open(path) as packets:
        taken, rest = packets[0], iter(packets)
        next(rest)
    check("after it", (bytes(taken.packet), repr(packets)), (b"\xff", "<etherpeel.Capture, closed>"))
    for name, use in (("length", lambda: len(packets)), ("loop", lambda: list(packets)), ("index", lambda: packets[0]),
                      ("rest", lambda: next(rest)), ("fault", lambda: packets.fault),
                      ("select", lambda: list(etherpeel.select("arp", packets))), ("marks", lambda: etherpeel.Filter("arp").select(packets)),
                      ("selection", lambda: list(etherpeel.select("arp", rest)))):
        check(f"{name} after it", raised(use), ValueError)
    packets.close()
    before = len(os.listdir("/proc/self/fd"))
    opened = [etherpeel.open(path) for _ in range(9)]
    for one in opened:
        one.close()
    check("no file stays open", len(os.listdir("/proc/self/fd")), before)


def compressed(content, expected, path):
    for name, pack in COMPRESSED.items():
        packed = pack(content)
        with open(f"{path}.{name}", "wb") as file:
            file.write(packed)
        with open(f"{path}.{name}", "rb") as file:
            check(name, [outcome(it) for it in (packed, bytearray(packed), io.BytesIO(packed), f"{path}.{name}", file)], [(expected, None)] * 5)
        check(f"{name} twice", outcome(pack(content[:30]) + pack(content[30:])), (expected, None))
        check(f"{name} and zeros", outcome(packed + bytes(70_000)), (expected, None))
        found, why = outcome(packed[:-1] if name != "lzma" else packed[:len(packed) // 2])
        check(f"{name}, cut", (expected[:len(found)] == found, why and f"({name})" in why), (True, True))
        check(f"{name} and other bytes", (outcome(packed + b"other")[0], raised(list, etherpeel.open(packed + b"other"))),
              (expected, etherpeel.CaptureError))
    packets, why = outcome(zstd(content))
    check("zstd", (packets, why) == (expected, None) or (packets, why) == ([], "At byte 0: this Python cannot unpack zstd"), True)


def damaged(content, expected):
    """Compressed files with whole packets up to where they can't be unpacked: the fault is that, unless the packets end
    before it."""
    record = RECORD.pack(1, 0, 999, 999) + bytes(range(111)) * 9
    whole = content + record * 300
    packed = gzip.compress(whole, 1)
    broken = etherpeel.open(packed[:-4] + bytes(4))
    check("a wrong length at the end", (len(broken), broken.fault.offset, broken.fault.needed, str(broken.fault)),
          (302, len(whole), 0, f"At byte {len(whole)}: the file cannot be unpacked further (gzip): Error -3 while decompressing data: "
                               "incorrect length check"))
    stored = gzip.compress(whole, 0)
    half = etherpeel.open(stored[:len(stored) // 2])
    check("half of it", (100 < len(half) < 200, half.fault.needed > 0, "(gzip): it ends too early" in str(half.fault)), (True, True, True))
    wrong = zlib.compressobj(wbits=31)
    other = wrong.compress(content + bytes(16) + b"\xff" * 16) + wrong.flush()
    check("packets that end before", "cannot be unpacked" in str(etherpeel.open(other[:-9]).fault), False)


STANDARD_INPUT = "import etherpeel; packets = etherpeel.open('-'); print([bytes(it.packet) for it in packets[:]], packets.fault is None)"


def standard_input(content, expected, path):
    environment = {**os.environ, "PYTHONPATH": os.path.dirname(os.path.dirname(etherpeel.__file__))}
    for name, given in (("plain", content), ("gzip", gzip.compress(content)), ("cut", content[:-1])):
        with open(f"{path}.in", "wb") as file:
            file.write(given)
        wanted = f"{expected[:1] if name == 'cut' else expected} {name != 'cut'}\n"
        with open(f"{path}.in", "rb") as file:
            ran = subprocess.run([sys.executable, "-c", STANDARD_INPUT], stdin=file, stdout=subprocess.PIPE, text=True, env=environment)
        check(f"standard input, {name}", ran.stdout, wanted)
        ran = subprocess.run([sys.executable, "-c", STANDARD_INPUT], input=given, stdout=subprocess.PIPE, env=environment)
        check(f"a pipe, {name}", ran.stdout.decode(), wanted)


def frames(tagged, cooked):
    """What is walked of a packet, by its own calls."""
    for packet, offset in (etherpeel.Captured(memoryview(tagged), None, 1, len(tagged), None), 0), (cooked, 20):
        frame = packet.frame
        words = frame.bytes, frame.start
        check("frame", (frame, frame.offset), (etherpeel.captured_frame(packet), offset))
        check("walks", (frame.walk(), frame.walk(limit=0), frame.packet(), frame.summary(limit=1), frame.fields()),
              (etherpeel.walk(*words, ether_type=frame.ether_type), etherpeel.walk(*words, ether_type=frame.ether_type, limit=0),
               etherpeel.packet(*words, ether_type=frame.ether_type), etherpeel.summary(*words, ether_type=frame.ether_type, limit=1),
               etherpeel.fields(*words, ether_type=frame.ether_type)))
    check("no frame", packet._replace(link_type=105).frame, None)
    check("no packet", raised(etherpeel.captured_frame, 0), TypeError)


def opened(content, expected, tagged, cooked):
    sequence(content, expected)
    faults(content, expected)
    frames(tagged, cooked)
    with tempfile.TemporaryDirectory() as folder:
        path = os.path.join(folder, "f.pcap")
        with open(path, "wb") as file:
            file.write(content)
        closed(path)
        compressed(content, expected, path)
        damaged(content, expected)
        standard_input(content, expected, path)
