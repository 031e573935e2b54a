"""Tests `ether_capture --jobs N`, as cargo builds it: what it prints and says, and its status, are those of a run with one thread.

    python3 rust/threads.py PROGRAM [WORD]

PROGRAM is the built program, WORD one that the names of the cases have which are run, all if it is left out. What is left out is said, and why.
The last line is 'N passed, M failed'.
"""
import argparse
import gzip
import itertools
import os
import random
import signal
import subprocess
import sys
import tempfile
import time
from functools import partial
from shutil import which

sys.dont_write_bytecode = True
TOP = os.path.dirname(os.path.dirname(os.path.abspath(__file__)))
sys.path[:0] = [f"{TOP}/tests", f"{TOP}/captures"]
import make  # noqa: E402
from capture_streams import done, shown, until  # noqa: E402
from made_captures import CLASSIC, SECTION_HEADER, SIX, classic, secrets  # noqa: E402
from programs import count, on_a_full_disk, run_apart, run_until_a_fault  # noqa: E402

JOBS = (2, 3, 8)
SIZE = 1_200_000  # of a capture that is cut into some pieces
DRAWN = random.Random(3)
WORDS = [
    [], ["--plain"], ["--format", "json"], ["--format", "brief"], ["--fields", "frame.number,frame.time,vlan.vid,fault.at", "--header"], ["--limit", "1"],
    ["--select", "vlan 5 or arp"], ["--select", "vlan.vid >= 5", "--undecided", "keep"], ["--select", "arp", "--undecided", "drop", "--format", "json"],
    ["-c", "1"], ["-c", "5000"], ["-c", "4097", "--select", "arp"], ["-c", "4294967295"], ["--status-on-fault", "no"], ["--stats"],
    ["--stats", "--by", "vlan.vid,eth.type"], ["--select", "refused", "-c", "700", "--fields", "frame.number,fault"],
]


def repeated(units, size=SIZE):
    """A capture of these units: the first of a classic one once, and the others as often as they are needed."""
    first, *others = units
    front, part = (first, b"".join(others)) if first[:4] != SECTION_HEADER[:4] else (b"", b"".join(units))
    return front + part * (size // max(len(part), 1) + 1) if part else front


def drawn(size=SIZE):
    """A classic capture of drawn frames, some of them long."""
    frames, have = [], 0
    while have < size:
        frames.append(DRAWN.choice(SIX) + DRAWN.randbytes(DRAWN.choice([0, 1, 46, 300, 1400, 60_000])))
        have += len(frames[-1]) + 16
    return classic(*frames, original=70_000)


def made_captures():
    """Captures of all kinds, each with its name."""
    for capture in make.captures():
        if capture.units:
            yield capture.name, repeated([unit for unit, _ in capture.units])
    pcapng = [capture for capture in make.captures() if capture.data()[:4] == SECTION_HEADER[:4]]
    yield "sections of all kinds", repeated([capture.data() for capture in pcapng])
    yield "drawn frames", drawn()
    yield "a block of 16 MiB", secrets(16_777_216, 16_777_216)
    yield "many interfaces", SECTION_HEADER + interfaces(3_000) + b"".join(packets_of(number) for number in range(3_000)) * 4
    yield "an interface before each packet", SECTION_HEADER + b"".join(interfaces(1, number) + packets_of(number) for number in range(9_000))


def interfaces(number, before=0):
    """Descriptions of interfaces, whose link types and units of time differ."""
    return b"".join(bytes.fromhex("0100000020000000") + (1 if it % 3 else 113).to_bytes(2, "little") + bytes(6)
                    + bytes.fromhex("0900010006000000" if it % 2 else "0900010009000000") + bytes.fromhex("0000000020000000") for it in range(before, before + number))


def packets_of(number):
    """A packet of the interface of this number."""
    packet = SIX[number % 6]
    padded = packet + bytes(-len(packet) % 4)
    body = number.to_bytes(4, "little") + bytes(8) + len(packet).to_bytes(4, "little") * 2 + padded
    length = (12 + len(body)).to_bytes(4, "little")
    return (6).to_bytes(4, "little") + length + body + length


# ---- the same as with one thread

def in_a_file(program, words, given):
    """What is printed of a file, what is said, and the status."""
    return done(program, [*words, "capture"], b"", {"capture": given})[:3]


def in_pieces(program, words, given):
    """The same of what comes through a pipe."""
    return run_apart(program, words, given, 7_001)


WAYS = [in_a_file, run_apart, in_pieces]


def pairs(program, name, given, several_words):
    """Runs with threads, and what a run without them shows, in turns of a file, standard input and a pipe."""
    for (at, words), jobs in itertools.product(enumerate(several_words), JOBS):
        way = WAYS[(at + jobs) % 3]
        yield f"{name} {words} {jobs}, {way.__name__}", partial(way, program, [*words, "--jobs", str(jobs)], given), partial(way, program, words, given)


def alike(program):
    """Captures of all kinds."""
    for at, (name, given) in enumerate(made_captures()):
        chosen = WORDS if at % 8 == 0 or "drawn" in name or "section" in name else WORDS[at % 4::4]
        yield from pairs(program, name, given, chosen)


def damaged(program):
    """Captures that are cut, and captures with bytes that are changed."""
    whole = [given for _, given in made_captures() if len(given) > SIZE // 2]
    for at in range(60):
        given = DRAWN.choice(whole)
        if at % 2:
            yield from pairs(program, f"cut {at}", given[:DRAWN.randrange(len(given))], [WORDS[at % len(WORDS)]])
        else:
            changed = bytearray(given)
            for _ in range(DRAWN.choice([1, 3, 30])):
                changed[DRAWN.randrange(len(changed))] = DRAWN.randrange(256)
            yield from pairs(program, f"changed {at}", bytes(changed), [WORDS[at % len(WORDS)]])


def several(program):
    """Several files, one of them standard input, one that is damaged, and one that does not exist."""
    first, second = drawn(), drawn(300_000)
    files = {"first": first, "damaged": first[:-7], "second": second, "packed": gzip.compress(second, 1), "none of these": b"no capture", "empty": b""}
    for names in (["first", "second", "first"], ["first", "-", "packed", "second"], ["damaged", "none", "none of these", "empty", "second"], ["second"] * 20):
        for words, jobs in itertools.product(([], ["--format", "json"], ["-c", "9000"], ["--stats"], ["--select", "arp", "--undecided", "keep"]), JOBS):
            wanted = partial(done, program, [*words, *names], second, files)
            yield f"{names} {words} {jobs}", partial(done, program, [*words, "--jobs", str(jobs), *names], second, files), wanted


def others(program):
    """What else a run may meet."""
    given = drawn()
    for jobs in JOBS:
        words = ["--jobs", str(jobs)]
        for name, form in (("packed", gzip.compress(given, 1)), ("cut and packed", gzip.compress(given, 1)[:-9000]), ("a member for each byte", gzip.compress(given[:24]) + gzip.compress(given[24:], 1))):
            for way in WAYS:
                yield f"{name} {jobs}, {way.__name__}", partial(way, program, words, form), partial(way, program, [], form)
        yield f"a full disk {jobs}", partial(on_a_full_disk, program, words, given), partial(on_a_full_disk, program, [], given)
        yield f"a closed output {jobs}", partial(closed, program, words, given), partial(closed, program, [], given)
        cut = given[:100_000]
        yield f"a reader that fails {jobs}", partial(run_until_a_fault, program, words, cut), partial(run_until_a_fault, program, [], cut)
        yield f"a copy {jobs}", partial(done, program, [*words, "-w", "copy", "--select", "arp"], given, {}), partial(done, program, ["-w", "copy", "--select", "arp"], given, {})
        yield f"progress {jobs}", partial(progress, program, words, given), progress(program, [], given)
        yield f"a folder {jobs}", partial(run_apart, program, [*words, "/proc/self/mem"], b""), partial(run_apart, program, ["/proc/self/mem"], b"")
    for value in ("0", "", "x", "-1", "4294967296"):
        found = run_apart(program, ["--jobs", value], CLASSIC)
        yield f"--jobs '{value}'", (found[0], found[2], "--jobs" in found[1] or value == "-1"), ("", 2, True)
    yield "--jobs 4294967295", partial(run_apart, program, ["--jobs", "4294967295"], given), partial(run_apart, program, [], given)


def unread(program):
    """Reads of threads that fail: the bytes are read again, so that nothing is lost, or that the message has the reason."""
    if not which("strace"):
        print("left out: reads that fail, since there is no strace")
        return
    given = drawn(3_000_000)
    for when, jobs in itertools.product(("1", "3", "2+3", "5+"), JOBS):
        fails = partial(with_faults, program, ["--jobs", str(jobs)], given)
        yield f"threads can't read {when} {jobs}", partial(fails, f"pread64:error=EIO:when={when}"), partial(run_apart, program, ["--plain"], given)
    for jobs in JOBS:
        text, said, status = with_faults(program, ["--jobs", str(jobs)], given, "pread64:error=EIO", "read:error=EIO:when=2+")
        begins = text and run_apart(program, ["--plain"], given)[0].startswith(text)
        yield f"nothing can be read {jobs}", (bool(begins), said, status), (True, "capture: can't be read\n", 4)


def with_faults(program, words, given, *injected):
    """What is printed of a file if reads of it fail."""
    with tempfile.TemporaryDirectory() as folder:
        path = os.path.join(os.path.realpath(folder), "capture")
        with open(path, "wb") as file:
            file.write(given)
        traced = ["strace", "-f", "-qq", "-o", "/dev/null", "-P", path, *(word for it in injected for word in ("-e", f"inject={it}"))]
        return run_apart(traced[0], [*traced[1:], program, "--plain", *words, "capture"], b"", cwd=folder)


def nested(program):
    """Packets that have records of captures in them: no thread may take these for records."""
    inner = classic(*SIX)[24:]
    later = inner.replace(bytes.fromhex("6553f100"), bytes.fromhex("6553f101"))
    frames = [DRAWN.randbytes(DRAWN.randrange(40)) + DRAWN.choice([inner, later]) * DRAWN.randrange(1, 300) for _ in range(300)]
    yield from pairs(program, "captures in packets", classic(*frames), WORDS[:6])
    same = classic(*[bytes(64)] * 30_000)
    yield from pairs(program, "equal packets", same, WORDS[:6])
    at = bytes.fromhex("6553f100")
    years = b"".join(same[24:][place:place + 80].replace(at, (DRAWN.randrange(1 << 32)).to_bytes(4, "big")) for place in range(0, 800_000, 80))
    yield from pairs(program, "packets of all years", same[:24] + years, WORDS[:6])


def progress(program, words, given):
    """The last bytes that are shown, their number in all, and what is said besides."""
    return shown(in_a_file(program, ["--progress", "--plain", *words], given)[1])[1:]


def closed(program, words, given):
    """The status, and what is said, where nobody reads the output any more."""
    with tempfile.TemporaryFile() as file, subprocess.Popen([program, *words], stdin=subprocess.PIPE, stdout=subprocess.PIPE, stderr=file, bufsize=0) as child:
        child.stdout.close()
        try:
            child.stdin.write(given)
            child.stdin.close()
        except BrokenPipeError:
            pass
        child.wait()
        file.seek(0)
        return file.read(), child.returncode


# ---- as it comes

def trickle(program, words, parts, end=None):
    """Whether the lines of each part are printed before the next one comes, and the status. Then a signal comes, if there is one, and the pipe stays
    open; else it is closed."""
    with tempfile.TemporaryFile() as out, tempfile.TemporaryFile() as said, \
            subprocess.Popen([program, "--plain", *words], stdin=subprocess.PIPE, stdout=out, stderr=said, bufsize=0) as child:
        sent, came = b"", []
        for part in parts:
            sent += part
            child.stdin.write(part)
            wanted = len(run_apart(program, ["--plain"], sent)[0])
            came.append(until(lambda: os.fstat(out.fileno()).st_size == wanted))  # noqa: B023
        if end:
            child.send_signal(end)
        else:
            child.stdin.close()
        child.wait()
        said.seek(0)
        return came, said.read().decode(), child.returncode


def coming(program):
    """A pipe through which packets come one at a time, and many at once."""
    units = [classic(it)[24:] for it in SIX]
    many = units[0] * 40_000
    for jobs in JOBS:
        words = ["--jobs", str(jobs)]
        for name, parts in (("each packet", [CLASSIC[:24] + units[0], *units[1:]]), ("many packets, and one", [CLASSIC[:24] + many, units[1], many, many, units[2]])):
            yield f"{name} {jobs}", partial(trickle, program, words, parts), ([True] * len(parts), "", 0)
            by = "ether_capture: ended by SIGTERM: the rest of the input was not read\n"
            yield f"{name} {jobs}, and a signal", partial(trickle, program, words, parts, signal.SIGTERM), ([True] * len(parts), by, 143)
        yield f"-c {jobs}", partial(enough, program, words), (6, 0)


def enough(program, words):
    """How many packets are printed of a pipe that stays open, and the status."""
    with subprocess.Popen([program, "--format", "brief", "-c", "6", *words], stdin=subprocess.PIPE, stdout=subprocess.PIPE, bufsize=0) as child:
        child.stdin.write(CLASSIC[:24])
        for unit in classic(*SIX)[24:], classic(*SIX)[24:]:
            time.sleep(0.1)
            try:
                child.stdin.write(unit)
            except BrokenPipeError:
                pass
        return child.stdout.read().count(b"\n"), child.wait(10)


def read_by_tshark(program):
    """Numbers, lengths and addresses of packets, as tshark reads them."""
    if not which("tshark"):
        print("left out: captures read by tshark, since that is not there")
        return
    fields = ["frame.number", "frame.cap_len", "frame.len", "eth.dst", "eth.src"]
    with tempfile.TemporaryDirectory() as folder:
        path = os.path.join(folder, "capture")
        with open(path, "wb") as file:
            file.write(drawn())
        ran = subprocess.run(["tshark", "-r", path, "-T", "fields", *(word for it in fields for word in ("-e", it))], stdout=subprocess.PIPE,
                             stderr=subprocess.DEVNULL, text=True, check=True)
        columns = "frame.number,frame.captured,frame.original,eth.dst,eth.src"
        for jobs in JOBS:
            yield f"tshark {jobs}", run_apart(program, ["--fields", columns, "--jobs", str(jobs), path], b"")[0], ran.stdout


def main():
    words = argparse.ArgumentParser(description=__doc__, formatter_class=argparse.RawDescriptionHelpFormatter)
    words.add_argument("program", metavar="PROGRAM")
    words.add_argument("word", metavar="WORD", nargs="?", default="")
    given = words.parse_args()
    program = os.path.realpath(given.program)
    return count((it for group in (alike, damaged, nested, several, others, unread, coming, read_by_tshark) for it in group(program)), given.word)


if __name__ == "__main__":
    sys.exit(main())
