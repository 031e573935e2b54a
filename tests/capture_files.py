"""Tests of `ether_capture` over several files."""

import gzip
import json
import os
import subprocess
import tempfile
from functools import partial

from made_captures import (
    CLASSIC, CLASSIC_LINES, DISK_IS_FULL, DOUBLE, FCS_LINES, FIRST_LINES, INPUT, IS_FOLDER, NO_FILE, ONE_LINES, SECTIONS, SECTION_LINES, SIX, TAGGED_V2,
    V2_LINE, WITH_FCS, classic, plain, record_is_cut, secrets,
)
from programs import on_a_full_disk, run_apart, run_until_a_fault, without_memory


def part(lines, before):
    """The lines of a capture that comes after so many packets, without the totals."""
    found = []
    for line in lines.splitlines(True):
        if line.startswith("frame "):
            _, number, rest = line.split(" ", 2)
            line = f"frame {int(number) + before} {rest}"
        if not line.startswith("total"):
            found.append(line)
    return "".join(found)


def totals(frames, skipped, end=""):
    return f"total frames {frames} skipped {skipped}{end}\n"


# Several files: those that are there, and the words, the lines, the status of each run over some of them, and what is said on standard error.
FILES = {"one.pcap": CLASSIC, "two.pcapng": SECTIONS, "fcs.pcap": WITH_FCS, "cut.pcap": CLASSIC[:120], "none.pcap": CLASSIC[:24], "empty": b"",
         "packed.gz": gzip.compress(CLASSIC, mtime=0), "six.pcap": classic(*SIX), "v2.pcap": TAGGED_V2}
ODD_NAME = 'a "b",\tc\\d \u00e9.pcap'
FILES[ODD_NAME] = WITH_FCS
CUT_FAULT = "cut.pcap" + record_is_cut(59, 62, 61)
EMPTY_FAULT = "empty: byte 0: The header of a pcap file needs 24 byte(s); only 0 are available.\n"
ONE_TWO = part(CLASSIC_LINES, 0) + part(SECTION_LINES, 2)
THIRD = part(SECTION_LINES, 2)[:part(SECTION_LINES, 2).index("frame 4")]
SEVERAL_FILES = [
    ("both formats", ["one.pcap", "two.pcapng"], ONE_TWO + totals(6, 1), 1),
    ("the walks of both", ["--plain", "one.pcap", "two.pcapng"], plain(ONE_TWO), 1),
    ("a file twice", ["two.pcapng", "two.pcapng"], part(SECTION_LINES, 0) + part(SECTION_LINES, 4) + totals(8, 2), 1),
    ("three files", ["fcs.pcap", "one.pcap", "none.pcap"], part(FCS_LINES, 0) + part(CLASSIC_LINES, 2) + totals(4, 0), 1),
    ("no frame that is refused", ["fcs.pcap", "none.pcap", "fcs.pcap"], part(FCS_LINES, 0) + part(FCS_LINES, 2) + totals(4, 0), 0),
    ("no packet", ["none.pcap", "none.pcap"], totals(0, 0), 0),
    ("a file that is not there", ["one.pcap", "no.pcap", "two.pcapng"],
     ONE_TWO + totals(6, 1), 4, "no.pcap" + NO_FILE),
    ("no file that is there", ["--plain", "no.pcap", ""], "", 4, "no.pcap" + NO_FILE + NO_FILE),
    ("a folder", [os.curdir, "fcs.pcap"], FCS_LINES, 4, "." + IS_FOLDER),
    ("a fault in the first", ["cut.pcap", "one.pcap"], FIRST_LINES + part(CLASSIC_LINES, 1) + totals(3, 0), 3, CUT_FAULT),
    ("a fault in the last", ["--plain", "one.pcap", "cut.pcap"], plain(CLASSIC_LINES) + plain(FIRST_LINES), 3, CUT_FAULT),
    ("faults, and a file that is not there", ["empty", "no.pcap", "cut.pcap"],
     FIRST_LINES + totals(1, 0), 4, EMPTY_FAULT + "no.pcap" + NO_FILE + CUT_FAULT),
    ("packets of two files", ["-c", "3", "one.pcap", "two.pcapng"], part(CLASSIC_LINES, 0) + THIRD + totals(3, 0), 1),
    ("packets of the first alone", ["-c", "2", "one.pcap", "no.pcap"], CLASSIC_LINES, 1),
    ("all packets there are", ["-c", "6", "one.pcap", "two.pcapng", "no.pcap"], ONE_TWO + totals(6, 1), 1),
    ("more than there are", ["-c", "7", "one.pcap", "two.pcapng"], ONE_TWO + totals(6, 1), 1),
    ("a packet before a fault, and one after it", ["-c", "2", "cut.pcap", "one.pcap", "no.pcap"],
     FIRST_LINES + part(FIRST_LINES, 1) + totals(2, 0), 3, CUT_FAULT),
    ("the second packet that a filter selects", ["-c", "2", "--select", "not refused and vlan 291", "one.pcap", "two.pcapng", "cut.pcap"],
     part(CLASSIC_LINES, 0).replace(FIRST_LINES, "") + part(SECTION_LINES, 2)[part(SECTION_LINES, 2).index("frame 5"):part(SECTION_LINES, 2).index("frame 6")]
     + totals(5, 0, " undecided 2"), 0),
    ("standard input first", ["-", "two.pcapng"], ONE_TWO + totals(6, 1), 1),
    ("standard input last", ["fcs.pcap", "-"], part(FCS_LINES, 0) + part(CLASSIC_LINES, 2) + totals(4, 0), 1),
    ("standard input among others", ["none.pcap", "-", "two.pcapng"], ONE_TWO + totals(6, 1), 1),
    ("packets before standard input", ["-c", "2", "fcs.pcap", "-"], FCS_LINES, 0),
    ("standard input and the rows of columns", ["--fields", "frame.number,vlan.vid", "none.pcap", "-"], "1\t1\n2\t291\n", 1),
    ("the names of files", ["--fields", "frame.file,frame.number", "one.pcap", "-", "./fcs.pcap"],
     "one.pcap\t1\none.pcap\t2\n\t3\n\t4\n./fcs.pcap\t5\n./fcs.pcap\t6\n", 1),
    ("the name of one file", ["--fields", "frame.file", "-r", "fcs.pcap"], "fcs.pcap\nfcs.pcap\n", 0),
    ("counts of files", ["--stats", "--by", "frame.file", "fcs.pcap", "one.pcap", "fcs.pcap"],
     "frame.file\tfcs.pcap\t4\t80\nframe.file\tone.pcap\t2\t106\ntotal\t\t6\t186\n", 1),
    ("a name in rows", ["--fields", "frame.file", "-c", "1", ODD_NAME], 'a "b",\\tc\\\\d \u00e9.pcap\n', 0),
    ("a name in CSV", ["--format", "csv", "--fields", "frame.file", "-c", "1", ODD_NAME], '"a ""b"",\tc\\d \u00e9.pcap"\r\n', 0),
    ("a limit", ["--limit", "0", "--plain", "--select", "outer vlan 100", "six.pcap", "six.pcap"], 2 * (plain(DOUBLE) + "rest 14 23 type 0x88A8\n"), 0),
    ("a limit after a header of cooked capture v2", ["--plain", "--limit", "0", "none.pcap", "v2.pcap"], V2_LINE + "rest 20 25 type 0x8100\n", 0),
]

PACKED = ["packed.gz", "fcs.pcap"]
UNPACKED = part(CLASSIC_LINES, 0) + part(FCS_LINES, 2) + totals(4, 0), "", 1
NOT_UNPACKED = FCS_LINES, "packed.gz: byte 0: The magic number 0x1F8B0800 is not that of a pcap file. This looks like gzip: zcat unpacks it.\n", 3


def names(program, files):
    """The name of each packet's file, as JSON has it."""
    return [json.loads(it)["file"] for it in run_apart(program, ["--format", "json", *files], CLASSIC)[0].splitlines()]


def several(program, unpacks):
    """Runs over several files, also with little memory, to a full disk and to a reader that has gone."""
    with tempfile.TemporaryDirectory() as folder:
        for name, capture in FILES.items():
            with open(os.path.join(folder, name), "wb") as file:
                file.write(capture)
        with open(os.path.join(folder, "large"), "wb") as file:
            file.write(secrets(16_777_216, 16_777_216))
        here = os.getcwd()
        os.chdir(folder)
        try:
            for name, words, text, status, *said in SEVERAL_FILES:
                yield f"several files: {name}", partial(run_apart, program, words, CLASSIC), (text, "".join(said), status)
            yield "several files: a packed capture", partial(run_apart, program, PACKED, CLASSIC), UNPACKED if unpacks else NOT_UNPACKED
            yield "several files: names as JSON", partial(names, program, [ODD_NAME, "-", "one.pcap"]), [ODD_NAME] * 2 + [None] * 2 + ["one.pcap"] * 2
            found = partial(run_apart, program, ["--plain", "one.pcap", "-"], CLASSIC[:120])
            wanted = plain(CLASSIC_LINES) + plain(FIRST_LINES), INPUT + record_is_cut(59, 62, 61), 3
            yield "several files, a fault of standard input", found, wanted
            found = partial(run_until_a_fault, program, ["--plain", "one.pcap", "-"], CLASSIC[:59])
            yield "several files, standard input that can't be read", found, (plain(CLASSIC_LINES) + plain(FIRST_LINES), 4)
            found = partial(without_memory, program, b"", ["no", "large", "fcs.pcap"])
            wanted = ONE_LINES + part(FCS_LINES, 1) + totals(3, 0), "no" + NO_FILE + "large: out of memory\n", 5
            yield "several files, no memory for a block", found, wanted
            yield "several files, a full disk", partial(on_a_full_disk, program, ["one.pcap", "two.pcapng"], b""), DISK_IS_FULL
            said, status = on_a_full_disk(program, ["no", "none.pcap"], b"")
            yield "no file and one without packets, a full disk", (said, status), ("no" + NO_FILE + DISK_IS_FULL[0], 4)
            gone, end = os.pipe()
            os.close(gone)
            with os.fdopen(end, "wb") as out:
                done = subprocess.run([program, "one.pcap", "two.pcapng", "no"], stdin=subprocess.DEVNULL, stdout=out, stderr=subprocess.PIPE, check=False)
            yield "several files that nobody reads", (done.stderr.decode(), done.returncode), ("", 4)
        finally:
            os.chdir(here)
