"""Tests of `ether_capture` on long words, long names, many files, and of how often it reads."""

import os
import subprocess
import tempfile
import time
from functools import partial

from made_captures import CLASSIC, CLASSIC_LINES, NO_FILE, ONE_LINES, SECTIONS, SECTION_LINES, SIX, classic, plain
from capture_files import part, totals
from programs import run, run_apart

# Words of an expression: 192 are the most.
MOST = "not refused" + " or refused" * 95
assert len(MOST.split()) == 192
# The primitive that is wrong begins 2,000 bytes behind the others.
LATE = "refused or" + " " * 1_990 + "vlan 4096"
LONG_NAME = "a/" * 2_000


def selecting(program):
    """Long expressions: what is said of them, and of the packets."""
    selected = {
        "192 words": (MOST, (CLASSIC_LINES.replace("skipped 0", "skipped 0 undecided 1"), "", 1)),
        "193 words": (MOST + " or refused", ("", f"--select: At byte {len(MOST) + 1}: an expression has at most 192 words.\n", 2)),
        "a word that is wrong far behind": (LATE, ("", "--select: At byte 2005: expected a number up to 4095.\n", 2)),
        "blanks alone": (" " * 5_000, ("", "--select: At byte 5000: expected a primitive, `not` or `(`.\n", 2)),
    }
    return [(name, partial(run_apart, program, ["--select", text], CLASSIC), wanted) for name, (text, wanted) in selected.items()]


def names(program):
    """Files with long names that differ at their end alone, one that is not there, and many files."""
    with tempfile.TemporaryDirectory() as folder:
        deep = os.path.join(folder, *["d" * 100] * 3)
        os.makedirs(deep)
        paths = [os.path.join(deep, name) for name in ("1.pcap", "2.pcap")]
        for path, capture in zip(paths, (CLASSIC, SECTIONS)):
            with open(path, "wb") as file:
                file.write(capture)
        one, two = paths
        both = part(CLASSIC_LINES, 0) + part(SECTION_LINES, 2) + totals(6, 1)
        many = "".join(part(CLASSIC_LINES, 2 * i) for i in range(300)) + totals(600, 0)
        yield from [
            ("a long name", partial(run, program, [one], b""), (CLASSIC_LINES, 1)),
            ("another one, longer alike", partial(run, program, [two], b""), (SECTION_LINES, 1)),
            ("both", partial(run, program, [one, two], b""), (both, 1)),
            ("a name of 4,000 bytes", partial(run_apart, program, [LONG_NAME], b""), ("", LONG_NAME + NO_FILE, 4)),
            ("the same before a file", partial(run_apart, program, ["--plain", LONG_NAME, one], b""), (plain(CLASSIC_LINES), LONG_NAME + NO_FILE, 4)),
            ("300 files", partial(run, program, [one] * 300, b""), (many, 1)),
        ]


def reads(program):
    """Whether it reads a mebibyte that comes through a pipe, which has room for 64 KiB, in few reads."""
    given = classic(*SIX) + classic(*SIX)[24:] * 4_000
    with subprocess.Popen([program, "--plain"], stdin=subprocess.PIPE, stdout=subprocess.DEVNULL, bufsize=0) as child:
        child.stdin.write(given)
        time.sleep(0.2)
        with open(f"/proc/{child.pid}/io", encoding="ascii") as file:
            counts = dict(line.split(": ") for line in file)
        child.stdin.close()
    few = 10 + 4 * (len(given) >> 12)
    return len(given) > 1 << 20, int(counts["syscr"]) <= few


def limits(program):
    yield from selecting(program)
    yield from names(program)
    yield "reads of at least a page", partial(reads, program), (True, True)
