"""Captures that a `Writer` writes, and whole frames."""
import io
import os
import shutil
import subprocess
import tempfile

import etherpeel
from checks import ARP, TAGGED, check, raised

# draft-ietf-opsawg-pcap, 4 and 5: 0xA1B23C4D, 2.4, snap length 262144, link type 1; 1.999999999 s, 19 bytes of 60
HEADER = bytes.fromhex("4d3cb2a1 0200 0400 00000000 00000000 00000400 01000000")
RECORD = bytes.fromhex("01000000 ffc99a3b 13000000 3c000000")


def bytes_written():
    file = io.BytesIO()
    with etherpeel.Writer(file) as writer:
        writer.write(TAGGED, time_ns=1999999999, original_len=60)
        writer.write(memoryview(ARP))
        writer.write(b"", original_len=0)
    check("bytes", file.getvalue()[:59], HEADER + RECORD + TAGGED)
    read = etherpeel.open(file.getvalue())
    check("read back",
          [(bytes(it.packet), it.time_ns, it.original_len) for it in read], [(TAGGED, 1999999999, 60), (ARP, 0, len(ARP)), (b"", 0, 0)])
    copy = io.BytesIO()
    writer = etherpeel.Writer(copy)
    for packet in read:
        writer.write(packet)
    check("copied", copy.getvalue(), file.getvalue())
    check("check sequence", etherpeel.Writer(copy, 0xFFFF, 0, 4).close(), None)
    check("its length", copy.getvalue()[-4:], bytes.fromhex("ffff0024"))
    other = io.BytesIO()
    etherpeel.Writer(other, snap_len=0x1234, fcs_len=8)
    check("other lengths", other.getvalue()[16:], bytes.fromhex("34120000 01000044"))


def not_written():
    file = io.BytesIO()
    writer = etherpeel.Writer(file)
    cooked, = etherpeel.open(HEADER[:20] + bytes((113, 0, 0, 0)) + RECORD[:8] + bytes((1, 0, 0, 0, 1, 0, 0, 0)) + b"A")
    for what, call, kind in (
            ("link type", lambda: writer.write(cooked), ValueError), ("time", lambda: writer.write(b"", time_ns=2**32 * 10**9), ValueError),
            ("length", lambda: writer.write(bytes(262145)), ValueError), ("text", lambda: writer.write("ff"), TypeError),
            ("before 1970", lambda: writer.write(b"", time_ns=-1), ValueError), ("odd", lambda: etherpeel.Writer(file, fcs_len=3), ValueError),
            ("no number", lambda: etherpeel.Writer(file, 65536), ValueError), ("no target", lambda: etherpeel.Writer(7), TypeError)):
        check(what, (raised(call), file.getvalue()), (kind, HEADER))
    writer.write(b"", time_ns=2**32 * 10**9 - 1)
    check("last time", etherpeel.open(file.getvalue())[0].time_ns, 2**32 * 10**9 - 1)


def files():
    with tempfile.TemporaryDirectory() as room:
        path = os.path.join(room, "f.pcap")
        with etherpeel.Writer(path) as writer:
            writer.write(ARP, time_ns=0)
        check("file", [bytes(it.packet) for it in etherpeel.open(path)], [ARP])
        if shutil.which("tcpdump"):
            told = subprocess.run(["tcpdump", "-nr", path], stdout=subprocess.PIPE, stderr=subprocess.PIPE, text=True).stdout
            check("tcpdump", "ARP, Request who-has 10.0.0.2 tell 10.0.0.1, length 28" in told, True)

    def fill():
        with etherpeel.Writer("/dev/full") as writer:
            writer.write(ARP)

    check("full disk", raised(fill), OSError)


def frames():
    padded = ARP + bytes(18)
    units = etherpeel.walk(padded)
    headers, end = [it.header for it in units], units[-1].offset + units[-1].header_len
    check("same frame", etherpeel.write_frame(headers, padded[end:]), padded)
    headers[1] = headers[1]._replace(operation=2, target_hardware=b"\x02\0\0\0\0\x02")
    check("reply", etherpeel.write_frame(headers, padded[end:]), ARP[:20] + b"\0\2" + ARP[22:32] + b"\x02\0\0\0\0\x02" + padded[38:])
    tagged = etherpeel.walk(TAGGED)
    changed = [tagged[0].header, tagged[1].header._replace(vid=7, pcp=0, dei=False)]
    check("tag", etherpeel.write_frame(changed, TAGGED[18:]), TAGGED[:14] + b"\0\7" + TAGGED[16:])
    check("no rest", etherpeel.write_frame(changed[:1]), TAGGED[:14])
    for rest in (5, True, [1, 2, 3], "text", None):
        check(f"a rest of {rest!r}", raised(lambda: etherpeel.write_frame(changed, rest)), TypeError)
    check("no header", raised(etherpeel.write_frame, []), etherpeel.BuildError)
    check("no field", raised(etherpeel.write_frame, [changed[0], changed[1]._replace(vid=4096)]), etherpeel.BuildError)


def written():
    bytes_written()
    not_written()
    files()
    frames()
