"""Tests how `ether_capture`, as cargo builds it, reads captures that gzip has packed.

    python3 rust/packed.py PROGRAM [WORD]

PROGRAM is the built program, WORD one that the names of the cases have which are run, all if it is left out. What is left out is said, and why.
The last line is 'N passed, M failed'.
"""
import argparse
import gzip
import os
import random
import subprocess
import sys
import tempfile
import time
import zlib
from functools import partial
from shutil import which

sys.dont_write_bytecode = True
sys.path.insert(0, os.path.join(os.path.dirname(os.path.dirname(os.path.abspath(__file__))), "tests"))
from capture_streams import LONG, contents_of, done, shown  # noqa: E402
from made_captures import CLASSIC, CLASSIC_LINES, FIRST_LINES, INPUT, SECTIONS, SECTION_LINES, secrets  # noqa: E402
from programs import count, interrupted, run_apart  # noqa: E402

CUT, DAMAGED = "the gzip data is cut\n", "the gzip data is damaged\n"
HERE, NAMED = "ether_capture: standard input: ", "packed: can't be read: "
NO_HEADER = INPUT + ": byte 0: The header of a pcap file needs 24 byte(s); only 0 are available.\n"
MAGIC = INPUT + ": byte 0: The magic number 0x{} is not that of a pcap file.\n"
DRAWN = random.Random(1)
# Packets of 256 bytes that can hardly be packed.
NOISE = CLASSIC[:24] + b"".join(CLASSIC[24:32] + b"\0\0\1\0" * 2 + bytes(12) + b"\x88\xB5" + DRAWN.randbytes(242) for _ in range(400))


def packed(data, level=9):
    return gzip.compress(data, level, mtime=0)


def with_header(data):
    """Packed bytes whose header has further fields: extra bytes, a name and a comment."""
    plain = packed(data)
    return plain[:3] + b"\x1C" + plain[4:10] + b"\4\0more" + b"a name\0" + b"a comment\0" + plain[10:]


def flushed(parts, flush=zlib.Z_FULL_FLUSH):
    """The packed bytes of each part. They end at a whole byte; those of the last part also end the stream."""
    packer = zlib.compressobj(wbits=31)
    pieces = [packer.compress(it) + packer.flush(flush) for it in parts]
    return [*pieces[:-1], pieces[-1] + packer.flush()]


# What is packed, and how that is called.
FORMS = [
    ("a member", packed), ("stored", lambda data: packed(data, 0)), ("packed fast", lambda data: packed(data, 1)), ("more in the header", with_header),
    ("two members", lambda data: packed(data[:70]) + packed(data[70:])), ("a member without bytes", lambda data: packed(b"") + packed(data) + packed(b"")),
    ("a member for each byte", lambda data: b"".join(packed(data[at:at + 1]) for at in range(len(data)))),
    ("flushed in between", lambda data: b"".join(flushed([data[:30], data[30:99], data[99:]]))),
]


def alike(program):
    """What is printed of packed captures: the same as of others."""
    for name, form in FORMS:
        for what, capture, text in (("a classic capture", CLASSIC, CLASSIC_LINES), ("pcapng", SECTIONS, SECTION_LINES)):
            yield f"{name}, {what}", partial(run_apart, program, [], form(capture)), (text, "", 1)
            yield f"{name}, {what}, a file", partial(in_a_file, program, [], form(capture)), (text, "", 1)
            yield f"{name}, {what}, in pieces", partial(run_apart, program, [], form(capture), 1), (text, "", 1)
    for name, capture in (("many packets", LONG), ("a block of 16 MiB", secrets(16_777_216, 16_777_216)), ("noise", NOISE), ("a cut packet", LONG[:-5])):
        for words in ([], ["--format", "json"], ["--stats"], ["--plain", "--select", "vlan"]):
            wanted = partial(run_apart, program, words, capture)
            yield f"{name} {words}", partial(run_apart, program, words, packed(capture)), wanted
        yield f"{name}, a copy", partial(copy_of, program, packed(capture)), partial(copy_of, program, capture)
    files = {"packed": packed(CLASSIC), "other": SECTIONS}
    text = run_apart(program, ["/dev/stdin"], CLASSIC + CLASSIC[24:])[0]
    yield "a packed capture among others", partial(done, program, ["packed", "-", "packed"], packed(CLASSIC), files), (*third(text, CLASSIC_LINES), files)
    yield "one packet", partial(run_apart, program, ["-c", "1"], packed(CLASSIC)), (FIRST_LINES + "total frames 1 skipped 0\n", "", 1)
    yield "a packet that has come, of a capture that goes on", partial(first_packet, program), FIRST_LINES
    yield "the first byte comes alone", partial(later, program, packed(CLASSIC)), (CLASSIC_LINES, 1)
    yield "the first byte comes alone, and is not that of gzip", partial(later, program, CLASSIC), (CLASSIC_LINES, 1)


def third(text, lines):
    """What is printed of the capture three times, by what is printed of it twice."""
    last = lines[:lines.index("total")]
    for number in (2, 1):
        last = last.replace(f"frame {number} ", f"frame {number + 4} ")
    return text[:text.index("total")] + last + "total frames 6 skipped 0\n", "", 1


def in_a_file(program, words, given):
    """The same of a file, which has no ending in its name."""
    with tempfile.TemporaryDirectory() as folder:
        with open(os.path.join(folder, "packed"), "wb") as file:
            file.write(given)
        return run_apart(program, [*words, "packed"], b"", cwd=folder)


def copy_of(program, given):
    """The bytes of a copy in a file, what is said and the status."""
    with tempfile.TemporaryDirectory() as folder:
        found = run_apart(program, ["-w", "copy"], given, cwd=folder)
        return contents_of(folder, "copy"), found


def later(program, given):
    """What is printed of bytes that come a while after the first of them, and the status."""
    with subprocess.Popen([program], stdin=subprocess.PIPE, stdout=subprocess.PIPE, bufsize=0) as child:
        child.stdin.write(given[:1])
        time.sleep(0.3)
        text = child.communicate(given[1:])[0].decode()
    return text, child.returncode


def first_packet(program):
    """The lines that are printed of a packet while the program waits for further bytes."""
    first, rest = flushed([CLASSIC[:59], CLASSIC[59:]], zlib.Z_SYNC_FLUSH)
    with tempfile.TemporaryFile() as out, subprocess.Popen([program], stdin=subprocess.PIPE, stdout=out, bufsize=0) as child:
        child.stdin.write(first)
        for _ in range(500):
            time.sleep(0.01)
            if os.fstat(out.fileno()).st_size >= len(FIRST_LINES):
                break
        size = os.fstat(out.fileno()).st_size
        child.communicate(rest)
        out.seek(0)
        return out.read(size).decode()


# ---- what can't be unpacked

def faults(program):
    """Packed bytes that are cut or damaged: what came before is printed, and the last line says it."""
    given = packed(CLASSIC)
    for length in (2, 9, 10, 11):
        yield f"cut after {length} bytes", partial(run_apart, program, [], given[:length]), ("", HERE + CUT, 4)
        yield f"a file cut after {length} bytes", partial(in_a_file, program, [], given[:length]), ("", NAMED + CUT, 4)
    no_total = CLASSIC_LINES[:CLASSIC_LINES.index("total")]
    for length in (1, 4, 8):
        yield f"cut {length} bytes before the end", partial(run_apart, program, [], given[:-length]), (no_total, HERE + CUT, 4)
    yield "cut in a second member", partial(run_apart, program, [], packed(CLASSIC[:59]) + packed(CLASSIC[59:])[:-9]), (no_total, HERE + CUT, 4)
    for name, place in (("checksum", -6), ("length", -2)):
        wrong = bytearray(given)
        wrong[place] ^= 1
        yield f"another {name}", partial(run_apart, program, [], bytes(wrong)), (no_total, HERE + DAMAGED, 4)
        yield f"another {name}, a file", partial(in_a_file, program, [], bytes(wrong)), (no_total, NAMED + DAMAGED, 4)
    yield "another method", partial(run_apart, program, [], given[:2] + b"\7" + given[3:]), ("", HERE + DAMAGED, 4)
    yield "bytes after a member", partial(run_apart, program, [], given + bytes(50)), (no_total, HERE + DAMAGED, 4)
    yield "a member that gives no byte", partial(run_apart, program, [], packed(b"")), ("", NO_HEADER, 3)
    yield "no capture in it", partial(run_apart, program, [], packed(b"no capture" * 3)), ("", MAGIC.format("6E6F2063"), 3)
    yield "packed twice", partial(run_apart, program, [], packed(given)), ("", MAGIC.format("1F8B0800")[:-1] + " This looks like gzip: zcat unpacks it.\n", 3)
    yield "the first byte alone", partial(run_apart, program, [], b"\x1F"), ("", NO_HEADER.replace("only 0", "only 1"), 3)
    yield "the first byte, and another one", partial(run_apart, program, [], b"\x1F" + bytes(23), 1), ("", MAGIC.format("1F000000"), 3)
    yield "a damaged block", partial(damaged_block, program), (True, HERE + DAMAGED, 4)
    files = {"packed": given[:-3], "two": b"what the file had before"}
    yield "a copy of one that is cut", partial(done, program, ["-w", "two", "packed"], b"", files), ("", NAMED + CUT, 4, files)
    found = partial(done, program, ["packed", "none", "packed"], b"", {"packed": given[:-3]})
    twice = no_total + no_total.replace("frame 2 ", "frame 4 ").replace("frame 1 ", "frame 3 ") + "total frames 4 skipped 0\n"
    yield "several that are cut", found, (twice, NAMED + CUT + "none: can't be opened: there is no such file\n" + NAMED + CUT, 4, {"packed": given[:-3]})


def damaged_block(program):
    """Whether all packets but the last few before a block of a type that does not exist are printed, what is said, and the status."""
    first, second = flushed([NOISE[:24 + 272 * 300], NOISE[24 + 272 * 300:]])
    text, said, status = run_apart(program, ["--plain"], first + b"\7" + second[1:])
    wanted = run_apart(program, ["--plain"], NOISE)[0]
    walk = len(wanted) // 400
    return wanted.startswith(text) and 295 * walk <= len(text) <= 300 * walk, said, status


# ---- progress and signals

def progress(program):
    """What is shown of reading, and calls that signals interrupt."""
    given = packed(NOISE)
    with tempfile.TemporaryDirectory() as folder:
        with open(os.path.join(folder, "packed"), "wb") as file:
            file.write(given)
        found = run_apart(program, ["--progress", "--plain", "packed"], b"", cwd=folder)
        yield "--progress counts packed bytes", shown(found[1])[1:], ((str(len(given)), str(len(given))), "")
    yield "a file that the system can't read", partial(run_apart, program, ["/proc/self/mem"], b""), ("", "/proc/self/mem: can't be read\n", 4)
    if not which("strace"):
        print("left out: interrupted calls, since there is no strace")
        return
    for words in ([], ["in"]):
        yield f"interrupted reads and writes {words}", partial(interrupted, program, words, packed(CLASSIC[:59]) + packed(CLASSIC[59:])), (CLASSIC_LINES, "", 1)
        yield f"many interrupted reads {words}", partial(interrupted, program, words, packed(NOISE)), partial(run_apart, program, [], NOISE)


def read_by_tshark(program):
    """Numbers, times and lengths of packets, as tshark reads them of the same packed files."""
    if not which("tshark"):
        print("left out: packed captures read by tshark, since that is not there")
        return
    fields = ["frame.number", "frame.time_epoch", "frame.cap_len", "frame.len"]
    ours = ["number", "time", "captured", "original"]
    for name, capture in (("a classic capture", CLASSIC), ("pcapng", SECTIONS), ("many packets", LONG), ("noise", NOISE)):
        with tempfile.TemporaryDirectory() as folder:
            with open(os.path.join(folder, "f.gz"), "wb") as file:
                file.write(packed(capture))
            words = ["tshark", "-r", "f.gz", "-T", "fields", *(word for it in fields for word in ("-e", it))]
            read = subprocess.run(words, cwd=folder, capture_output=True, text=True, check=False)
            lines = [line.split() for line in run_apart(program, ["f.gz"], b"", cwd=folder)[0].splitlines()]
        frames = [dict(zip(line[::2], line[1::2])) | {"number": line[1]} for line in lines if line[0] == "frame"]
        found = [[frame[it].replace("-", "") for it in ours] for frame in frames]
        yield f"tshark, {name}", found, [line.split("\t") for line in read.stdout.splitlines()]


def main():
    words = argparse.ArgumentParser(description=__doc__, formatter_class=argparse.RawDescriptionHelpFormatter)
    words.add_argument("program", metavar="PROGRAM")
    words.add_argument("word", metavar="WORD", nargs="?", default="")
    given = words.parse_args()
    program = os.path.realpath(given.program)
    return count((it for more in (alike, faults, progress, read_by_tshark) for it in more(program)), given.word)


if __name__ == "__main__":
    sys.exit(main())
