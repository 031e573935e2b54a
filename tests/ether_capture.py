"""Tests what `ether_capture` prints and how it ends, with nothing but Python.

    python3 tests/ether_capture.py [--emulated N] [--gzip] PROGRAM [WORD]

PROGRAM is the built program, WORD one that the names of the cases have which are run, all if it is left out. The captures were written by
hand and checked with tshark. The last line is 'N passed, M failed'.
"""

import argparse
import bz2
import gzip
import itertools
import os
import subprocess
import sys
import tempfile
from dataclasses import dataclass
from functools import partial

from made_captures import (
    CLASSIC, CLASSIC_LINES, CUT_PACKET, DISK_IS_FULL, DOUBLE, ENHANCED, FCS_LINES, FIRST_LINES, INNER, INPUT, IS_FOLDER, LOOPBACK_V1, MACS, NO_FILE,
    OBSOLETE, ONE_LINES, OUTER, SECTIONS, SECTION_HEADER, SECTION_LINES, SELECTED, SIX, TAGGED_V1, TAGGED_V2, V1_LINE, V2_LINE, WITH_FCS, block,
    classic, cooked, cooked_lines, frame, interface, joined, long_record, plain, record_is_cut, secrets,
)
from capture_copies import copied, copies, copies_of_copies, copies_that_fail, long_copy_in_pieces
from capture_files import several
from capture_limits import limits
from capture_streams import streams
from counts import examples as counts
from formats import examples
from programs import count, on_a_full_disk, run, run_apart, run_until_a_fault, without_memory
from written_files import capture_cases

USAGE = """usage: ether_capture [-r FILE | FILE..] [SELECTION] [--limit N] [--jobs N]
                     [--progress] [--status-on-fault yes|no] [--plain |
                     --format lines|brief|json [--bytes] | --fields COLUMNS
                     [--format csv] [--header] | --stats [--fields COLUMNS |
                     --by COLUMNS] [--format json]]
       ether_capture [-r FILE | FILE] [SELECTION] [--jobs N] [--progress]
                     --write | -w COPY [--cut-to-headers | --pop-vlan |
                     --push-vlan TPID:ID | --set-vlan A:B]
       ether_capture --merge [--format json]
SELECTION is [--select EXPR [--undecided keep|drop]] [-c N].
"""


@dataclass
class Case:
    """A capture, the words after the program's name, what is printed, the exit status and what is said on standard error."""

    name: str
    words: list
    capture: bytes
    text: str
    status: int
    said: str = ""


UNEQUAL = bytearray(SECTIONS)
UNEQUAL[44] = 0x18

CASES = [
    Case("a classic capture", [], CLASSIC, CLASSIC_LINES, 1),
    Case("its walks alone", ["--plain"], CLASSIC, plain(CLASSIC_LINES), 1),
    Case("threads", ["--jobs", "4"], CLASSIC, CLASSIC_LINES, 1),
    Case("more threads than there can be", ["--plain", "--jobs=4294967295"], CLASSIC, plain(CLASSIC_LINES), 1),
    Case("one thread", ["--jobs", "1", "-c", "1"], CLASSIC, FIRST_LINES + "total frames 1 skipped 0\n", 1),
    Case("faults that are a failure", ["--status-on-fault", "yes"], CLASSIC, CLASSIC_LINES, 1),
    Case("faults that are none", ["--status-on-fault", "no"], CLASSIC, CLASSIC_LINES, 0),
    Case("walks whose faults are none", ["--plain", "--status-on-fault=no"], CLASSIC, plain(CLASSIC_LINES), 0),
    Case("faults of a column that are none", ["--fields", "fault.kind", "--status-on-fault", "no"], CLASSIC, "length\n\n", 0),
    Case("a file that is not there, though faults are none", ["--status-on-fault", "no", "no/such.pcap"], CLASSIC, "", 4,
         "no/such.pcap" + NO_FILE),
    Case("frames with a check sequence", [], WITH_FCS, FCS_LINES, 0),
    Case("their walks alone", ["--plain"], WITH_FCS, plain(FCS_LINES), 0),
    Case("two sections", [], SECTIONS, SECTION_LINES, 1),
    Case("no packet", [], CLASSIC[:24], "total frames 0 skipped 0\n", 0),
    Case("the walks of no packet", ["--plain"], CLASSIC[:24], "", 0),
    Case("a file that is not there", ["no/such.pcap"], CLASSIC, "", 4, "no/such.pcap" + NO_FILE),
    Case("no name", [""], CLASSIC, "", 4, NO_FILE),
    Case("a folder", [os.curdir], CLASSIC, "", 4, "." + IS_FOLDER),
    Case("the version", ["--version"], CLASSIC, "ether_capture 3.0.0\n", 0),
    Case("a word that is no text", [b"\xff"], CLASSIC, "", 4, "ether_capture: an argument is not UTF-8\n"),
    Case("a record that is cut", [], CLASSIC[:120], FIRST_LINES, 3, INPUT + record_is_cut(59, 62, 61)),
    Case("a record's header that is cut", [], CLASSIC[:60], FIRST_LINES, 3, INPUT + record_is_cut(59, 16, 1)),
    Case("a cut record, its walks alone", ["--plain"], CLASSIC[:58], "", 3, INPUT + record_is_cut(24, 35, 34)),
    Case("another magic number", [], CLASSIC[4:], "", 3, INPUT + ": byte 0: The magic number 0x00020004 is not that of a pcap file.\n"),
    Case("a capture packed by bzip2", [], bz2.compress(CLASSIC),
         "", 3, INPUT + ": byte 0: The magic number 0x425A6839 is not that of a pcap file. This looks like bzip2: bzcat unpacks it.\n"),
    Case("one packed by lz4", [], joined("04224d18") + CLASSIC,
         "", 3, INPUT + ": byte 0: The magic number 0x04224D18 is not that of a pcap file. This looks like lz4: lz4cat unpacks it.\n"),
    Case("a variant of pcap", [], joined("a1b2cd34") + CLASSIC[4:],
         "", 3, INPUT + ": byte 0: The magic number 0xA1B2CD34 is not that of a pcap file. This is a variant of pcap: editcap converts it.\n"),
    Case("an older version", [], joined("a1b2c3d4 0002 0003") + CLASSIC[8:],
         "", 3, INPUT + ": byte 0: Version 2.3 of the pcap format is not supported, only 2.4. editcap converts it.\n"),
    Case("no byte", [], b"", "", 3, INPUT + ": byte 0: The header of a pcap file needs 24 byte(s); only 0 are available.\n"),
    Case("lengths that differ", [], bytes(UNEQUAL),
         "", 3, INPUT + ": byte 28: A block of a pcapng file begins with length 20 and ends with 24.\n"),
    Case("a packet of no interface", [], SECTION_HEADER + CUT_PACKET,
         "", 3, INPUT + ": byte 28: A packet of a pcapng file names interface 0, which its section does not describe.\n"),
    Case("the longest record", [], long_record(262_144, 262_144),
         "frame 1 time 0.000000000 link 1 captured 262144 original 0\n"
         "ethernet2 0 000000000000 000000000000 0x0000\nrest 14 262144 type 0x0000\ntotal frames 1 skipped 0\n", 0),
    Case("a record above the format's greatest length", [], long_record(262_145, 262_145),
         "", 3, INPUT + ": byte 24: A record of a pcap file cannot have 262145 captured byte(s), the maximum is 262144.\n"),
    Case("a long record that is cut", [], long_record(73_713, 84), "", 3, INPUT + record_is_cut(24, 73_729, 100)),
]

TWO_LINES = ONE_LINES + ONE_LINES.replace("frame 1", "frame 2") + "total frames 2 skipped 0\n"


def block_is_cut(found):
    return INPUT + f": byte 96: A block of a pcapng file needs 100000 byte(s); only {found} are available.\n"


CASES += [Case(f"a block of {length} bytes", [], secrets(length, length), TWO_LINES, 1)
          for length in (73_728, 73_732, 100_000, 16_777_216)]
CASES += [Case(f"a block that is cut after {found} bytes", [], secrets(100_000, 100_000, found), ONE_LINES, 3, block_is_cut(found))
          for found in (73_728, 80_000, 99_998)]
CASES += [
    Case("a long block with another length", [], secrets(100_000, 99_996),
         ONE_LINES, 3, INPUT + ": byte 96: A block of a pcapng file begins with length 100000 and ends with 99996.\n"),
    Case("a block above the format's greatest length", [], secrets(16_777_220, 16_777_220),
         ONE_LINES, 3, INPUT + ": byte 96: A block of a pcapng file cannot have 16777220 byte(s).\n"),
]


LONG = CASES[-9:]


# Options of an interface: times counted in microseconds, an hour later, at the same time and two hours earlier; check sequences of 32
# and 16 bits; and flags of a packet that give it four bytes and none.
OFFSETS = {"an hour later": ("0e000800 100e000000000000", 3600), "no offset": ("0e000800 0000000000000000", 0),
           "two hours earlier": ("0e000800 e0e3ffffffffffff", -7200)}
SHORT_LINES = "ethernet2 0 020000000001 020000000002 0x88B5"
MANY_INTERFACES = interface("") + block(1, "01000000 00000000") * 65_535


def one(seconds, walk):
    """The lines of one packet of 20 bytes."""
    return f"frame 1 time {seconds}.123456000 link 1 captured 20 original 20\n{walk}total frames 1 skipped 0\n"


WHOLE = f"{SHORT_LINES}\nrest 14 20 type 0x88B5\n"
WITHOUT_FOUR = f"{SHORT_LINES} fcs e9c0cdc8\nrest 14 16 type 0x88B5\n"
WITHOUT_TWO = f"{SHORT_LINES}\nrest 14 18 type 0x88B5\n"
CASES += [Case(f"times of {name}", [], interface(option) + frame(*ENHANCED), one(1_700_000_000 + offset, WHOLE), 0)
          for name, (option, offset) in OFFSETS.items()]
CASES += [
    Case("a time before 1970", [], interface("0e000800 00000000ffffffff") + frame(*ENHANCED),
         one(0, WHOLE).replace("0.123456000", "-"), 0),
    Case("an obsolete packet", [], interface("") + frame(*OBSOLETE), one(1_700_000_000, WHOLE), 0),
    Case("a check sequence in bits", [], interface("0d000100 20000000") + frame(*ENHANCED), one(1_700_000_000, WITHOUT_FOUR), 0),
    Case("one of two bytes in bits", [], interface("0d000100 10000000") + frame(*ENHANCED), one(1_700_000_000, WITHOUT_TWO), 0),
    Case("a check sequence by the packet's flags", [], interface("") + frame(*ENHANCED, "02000400 80000000"),
         one(1_700_000_000, WITHOUT_FOUR), 0),
    Case("flags before the interface", [], interface("0d000100 04000000") + frame(*OBSOLETE, "02000400 40000000"),
         one(1_700_000_000, WITHOUT_TWO), 0),
    Case("flags that don't say it", [], interface("0d000100 04000000") + frame(*ENHANCED, "02000400 01000000"),
         one(1_700_000_000, WITHOUT_FOUR), 0),
    Case("65,536 interfaces", [], MANY_INTERFACES + frame(6, "ffff0000"), one(1_700_000_000, WHOLE), 0),
    Case("an interface more", [], MANY_INTERFACES + block(1, "01000000 00000000"),
         "", 3, INPUT + f": byte {28 + 65_536 * 20}: A section of a pcapng file describes more interfaces than this reader keeps.\n"),
]


# What `tcpdump -i any` writes: protocol type, reserved, interface, hardware type, packet type, address length, address. tshark shows
# the same fields.
CASES += [
    Case("cooked capture v2", [], cooked("0800 0000 00000001 0304 00 06 0000000000000000 45"),
         cooked_lines(21, "linux_sll2 0 packet 0 hw 772 if 1 alen 6 addr 0000000000000000 0x0800\nrest 20 21 type 0x0800\n"), 0),
    Case("a tag after it", [], cooked("8100 0000 00000003 0001 04 06 0200000000010000 b123 0800 45"),
         cooked_lines(25, "linux_sll2 0 packet 4 hw 1 if 3 alen 6 addr 0200000000010000 0x8100\n"
                          "vlan 20 pcp 5 dei 1 vid 291 0x0800\nrest 24 25 type 0x0800\n"), 0),
    Case("a tag cut short after it", [], cooked("8100 0000 00000003 0001 04 06 0200000000010000 b123"),
         cooked_lines(22, "linux_sll2 0 packet 4 hw 1 if 3 alen 6 addr 0200000000010000 0x8100\n"
                          "fault 20 open length 4 2 slice\n"), 1),
    Case("netlink in it", [], cooked("0010 0000 00000002 0338 04 00 0000000000000000 14000000"),
         cooked_lines(24, "linux_sll2 0 packet 4 hw 824 if 2 alen 0 addr 0000000000000000 0x0010\n"
                          "rest 20 24 sll netlink 0x0010\n"), 0),
    Case("a header that is cut", [], cooked("0800 0000 00000001 0304 00 06 00000000000000"),
         cooked_lines(19, "fault 0 open length 20 19 slice\n"), 1),
    Case("packet type 8", [], cooked("0800 0000 00000001 0304 08 06 0000000000000000"),
         cooked_lines(20, "fault 0 open content sll_packet_type 8\n"), 1),
]


# Cooked capture v1 on links whose hardware types give protocol numbers no meaning of their own: 772 the loopback device, 512 PPP. tshark shows the
# same fields.
V1_TAG = "vlan 16 pcp 5 dei 1 vid 291 0x0800\nrest 20 21 type 0x0800\n"
CASES += [
    Case("the loopback device in cooked capture v1", [], LOOPBACK_V1,
         cooked_lines(17, "linux_sll 0 packet 0 hw 772 alen 6 addr 0000000000000000 0x0800\nrest 16 17 type 0x0800\n", 1), 0),
    Case("its walk alone", ["--plain"], LOOPBACK_V1,
         "linux_sll 0 packet 0 hw 772 alen 6 addr 0000000000000000 0x0800\nrest 16 17 type 0x0800\n", 0),
    Case("a tag after hardware type 512", [], TAGGED_V1, cooked_lines(21, V1_LINE + V1_TAG, 1), 0),
    Case("a tag cut short after it", [], cooked("0004 0200 0000 0000000000000000 8100 b123", 1),
         cooked_lines(18, V1_LINE + "fault 16 open length 4 2 slice\n", 1), 1),
    Case("no tag after it", ["--limit", "0"], TAGGED_V1, cooked_lines(21, V1_LINE + "rest 16 21 type 0x8100\n", 1), 0),
    Case("a filter after it", ["--select", "vlan 291"], TAGGED_V1, cooked_lines(21, V1_LINE + V1_TAG, 1, " undecided 0"), 0),
    Case("a filter that selects no tag", ["--select", "vlan 5"], TAGGED_V1, "total frames 1 skipped 0 undecided 0\n", 0),
    Case("a number that is no ether type", [], cooked("0000 0304 0006 0000000000000000 0004 aa", 1),
         cooked_lines(17, "linux_sll 0 packet 0 hw 772 alen 6 addr 0000000000000000 0x0004\nrest 16 17 type 0x0004\n", 1), 0),
    Case("packet type 8 of hardware type 772", [], cooked("0008 0304 0006 0000000000000000 0800 45", 1),
         cooked_lines(17, "fault 0 open content sll_packet_type 8\n", 1), 1),
    Case("a header of hardware type 772 that is cut", [], cooked("0000 0304 0006 0000000000000000 08", 1),
         cooked_lines(15, "fault 0 open length 16 15 slice\n", 1), 1),
    Case("netlink in cooked capture v1", [], cooked("0004 0338 0000 0000000000000000 0010 14000000", 1),
         cooked_lines(20, "linux_sll 0 packet 4 hw 824 alen 0 addr 0000000000000000 0x0010\nrest 16 20 sll netlink 0x0010\n", 1), 0),
]


def selections(program):
    """The packets of the six that each expression selects."""
    for text, wanted in SELECTED.items():
        yield f"--select {text!r}", partial(selected, program, text), (wanted, ["total frames 6 skipped 0 undecided 0"], 0)


def selected(program, text):
    """The packets of the six that an expression selects, by the numbers in their lines; the last line, and the status."""
    lines, status = run(program, ["--select", text], classic(*SIX))
    return tuple(int(line.split()[1]) for line in lines.splitlines() if line.startswith("frame")), lines.splitlines()[-1:], status


CASES += [
    Case("a filter that selects a packet", ["--select", "refused"], CLASSIC, FIRST_LINES + "total frames 2 skipped 0 undecided 1\n", 1),
    Case("one that leaves the refused frame out", ["--plain", "--select", "not refused"], CLASSIC,
         plain(CLASSIC_LINES).replace(plain(FIRST_LINES), ""), 0),
    Case("cut packets", ["--select", "cut"], CLASSIC, FIRST_LINES + "total frames 2 skipped 0 undecided 0\n", 1),
    Case("a filter after a header of cooked capture v2", ["--select", "vlan 291"],
         cooked("8100 0000 00000003 0001 04 06 0200000000010000 b123 0800 45"),
         cooked_lines(25, "linux_sll2 0 packet 4 hw 1 if 3 alen 6 addr 0200000000010000 0x8100\n"
                          "vlan 20 pcp 5 dei 1 vid 291 0x0800\nrest 24 25 type 0x0800\n", end=" undecided 0"), 0),
    Case("netlink, which no filter selects", ["--select", "not arp"], cooked("0010 0000 00000002 0338 04 00 0000000000000000 14000000"),
         "total frames 1 skipped 0 undecided 0\n", 0),
    Case("no expression", ["--select", "vlan 4096"], CLASSIC, "", 2, "--select: At byte 5: expected a number up to 4095.\n"),
    Case("a word after vlan", ["--select", "vlan abc"], CLASSIC, "", 2, "--select: At byte 5: expected a number up to 4095, `and`, `or`, `)` or the end.\n"),
    Case("and beside or", ["--select", "arp and ip or vlan"], CLASSIC, "", 2,
         "--select: At byte 11: `and` and `or` can be mixed only with parentheses.\n"),
    Case("options in another order", ["--select", "refused", "--plain"], CLASSIC, plain(FIRST_LINES), 1),
    Case("a filter that looks like an option", ["--select=--plain"], CLASSIC, "", 2, "--select: At byte 0: expected a primitive, `not` or `(`.\n"),
]

# Packets that were cut too short to tell: of the first one the identifier of the first VLAN tag is known, 1, and nothing after it.
OPEN, SECOND_LINES = "total frames 2 skipped 0 undecided 1\n", CLASSIC_LINES.replace(FIRST_LINES, "").replace("skipped 0", "skipped 0 undecided 1")
NO_HEADER_V2 = cooked("8100 0000 00000003 0001 04 06 0200000000010000"[:-4], original=25)
CASES += [
    Case("an identifier that may still come", ["--select", "vlan 5"], CLASSIC, OPEN, 0),
    Case("that is kept", ["--select", "vlan 5", "--undecided", "keep"], CLASSIC, FIRST_LINES + OPEN, 1),
    Case("that is dropped", ["--undecided", "drop", "--select", "vlan 5"], CLASSIC, OPEN, 0),
    Case("not an identifier that may still come", ["--select", "not vlan 5", "--undecided=keep"], CLASSIC, FIRST_LINES + SECOND_LINES, 1),
    Case("not one, that is dropped", ["--select", "not vlan 5", "--undecided=drop"], CLASSIC, SECOND_LINES, 0),
    Case("the first identifier", ["--select", "outer vlan 1", "--undecided", "drop"], CLASSIC, FIRST_LINES + OPEN.replace("1\n", "0\n"), 1),
    Case("an identifier of a packet that is too short", ["--select", "vlan 5 and greater 100"], CLASSIC, OPEN.replace("1\n", "0\n"), 0),
    Case("a header of cooked capture v2 that is cut", ["--select", "greater 1"], NO_HEADER_V2, "total frames 1 skipped 0 undecided 1\n", 0),
    Case("its lines", ["--plain", "--select", "greater 1", "--undecided", "keep"], NO_HEADER_V2, "fault 0 open length 20 18 slice\n", 1),
]

# A number of packets: the run ends with the last of them, as if the capture ended there.
CASES += [
    Case("one packet", ["-c", "1"], CLASSIC, FIRST_LINES + "total frames 1 skipped 0\n", 1),
    Case("all packets there are", ["-c", "2"], CLASSIC, CLASSIC_LINES, 1),
    Case("more packets than there are", ["-c", "3"], CLASSIC, CLASSIC_LINES, 1),
    Case("the walk of one packet", ["--plain", "-c", "1"], CLASSIC, plain(FIRST_LINES), 1),
    Case("one packet, and a record that is cut", ["-c", "1"], CLASSIC[:60], FIRST_LINES + "total frames 1 skipped 0\n", 1),
    Case("two packets, and a record that is cut", ["-c", "2"], CLASSIC[:60], FIRST_LINES, 3, INPUT + record_is_cut(59, 16, 1)),
    Case("the second packet, by a filter", ["-c", "0x1", "--plain", "--select", "not refused"], CLASSIC,
         plain(CLASSIC_LINES).replace(plain(FIRST_LINES), ""), 0),
    Case("three packets of two sections", ["-c", "3"], SECTIONS, SECTION_LINES[:SECTION_LINES.index("frame 4")] + "total frames 3 skipped 0\n", 1),
    Case("no packet that is asked for", ["-c", "1", "--select", "macsec"], CLASSIC, "total frames 2 skipped 0 undecided 1\n", 0),
]

# A limit on VLAN tags and SecTags: what is not read begins the rest. The header of the link and an ARP packet don't count.
ALL_TAGS = DOUBLE + OUTER + INNER + "rest 22 23 type 0x0800\ntotal frames 1 skipped 0\n"
CASES += [
    Case("no tag", ["--limit", "0"], classic(SIX[5]), DOUBLE + "rest 14 23 type 0x88A8\ntotal frames 1 skipped 0\n", 0),
    Case("one tag", ["--limit", "1"], classic(SIX[5]), DOUBLE + OUTER + "rest 18 23 type 0x8100\ntotal frames 1 skipped 0\n", 0),
    Case("both tags", ["--limit", "2"], classic(SIX[5]), ALL_TAGS, 0),
    Case("more tags than there are", ["--limit", "0xffffffff"], classic(SIX[5]), ALL_TAGS, 0),
    Case("one tag, the walk alone", ["--limit", "1", "--plain"], classic(SIX[5]), plain(DOUBLE) + OUTER + "rest 18 23 type 0x8100\n", 0),
    Case("a limit before a tag that is cut", ["--plain", "--limit", "1"], CLASSIC,
         plain(CLASSIC_LINES).replace("fault 18 open length 4 1 slice", "rest 18 19 type 0x8100"), 0),
    Case("no SecTag", ["--plain", "--limit", "0"], classic(joined(MACS, "88e5 00 06 00000001 8100 a005 0800 eeee")),
         "ethernet2 0 ffffffffffff 020000000001 0x88E5\nrest 14 28 type 0x88E5\n", 0),
    Case("no tag, but ARP", ["--plain", "--limit", "0"], classic(SIX[0]),
         "ethernet2 0 ffffffffffff 020000000001 0x0806\narp 14 hw 0 proto 0x0000 hlen 0 plen 0 op 0\nrest 22 42 after_arp\n", 0),
    Case("no tag after a header of cooked capture v2", ["--limit", "0"], TAGGED_V2, cooked_lines(25, V2_LINE + "rest 20 25 type 0x8100\n"), 0),
    Case("one tag after it", ["--limit", "1"], TAGGED_V2,
         cooked_lines(25, V2_LINE + "vlan 20 pcp 5 dei 1 vid 291 0x0800\nrest 24 25 type 0x0800\n"), 0),
    Case("a limit, and a filter that looks further", ["--plain", "--limit", "0", "--select", "inner vlan 5", "-c", "1"], classic(*SIX),
         plain(DOUBLE) + "rest 14 23 type 0x88A8\n", 0),
]


# Words that are wrong, and what standard error says of them.
def wrong(reason):
    """The line that says what is wrong with the words."""
    return f"ether_capture: {reason}; try --help\n"


def unknown(word):
    return wrong(f"{word}: there is no such option")


def missing(option):
    return wrong(f"{option}: its value is missing")


def expected(option, value):
    return wrong(f"{option} '{value}': expected {EXPECTED[option]}")


def no_column(name):
    return wrong(f"--fields: there is no column '{name}'")


def lacking(option, needed):
    return wrong(f"{option} needs {needed}")


def surplus(name):
    return wrong(f"{name}: this is one FILE too many")


EXPECTED = {
    "-c": "a number from 1 to 4294967295",
    "--jobs": "a number from 1 to 4294967295",
    "--limit": "a number up to 4294967295",
    "--format": "lines, brief, json or csv",
    "--fields": "at most 32 columns, as vlan.vid,eth.src",
    "--by": "at most 32 columns, as vlan.vid,eth.src",
    "--status-on-fault": "yes or no",
    "--undecided": "keep or drop",
    "--push-vlan": "a TPID of VLAN tags and an identifier up to 4095, as 0x8100:5",
    "--set-vlan": "two identifiers up to 4095, as 5:6",
}
TWICE = wrong("an option occurs twice, or has a value and takes none")
CLASH = wrong("these options do not go together")
EDITS = wrong("--cut-to-headers, --pop-vlan, --push-vlan and --set-vlan do not go together")
WRONG = [
    ("no number of packets", ["-c"], missing("-c")),
    ("no packets", ["-c", "0"], expected("-c", "0")),
    ("a number that is none", ["-c", "x"], expected("-c", "x")),
    ("a number of packets of more than 32 bits", ["-c", "4294967296"], expected("-c", "4294967296")),
    ("two numbers of packets", ["-c", "1", "-c", "2"], TWICE),
    ("no number of threads", ["--jobs"], missing("--jobs")),
    ("no threads", ["--jobs", "0"], expected("--jobs", "0")),
    ("threads that are no number", ["--jobs", "all"], expected("--jobs", "all")),
    ("two numbers of threads", ["--jobs", "2", "--jobs", "2"], TWICE),
    ("no limit", ["--limit"], missing("--limit")),
    ("a limit that is none", ["--limit", "x"], expected("--limit", "x")),
    ("a limit below zero", ["--limit", "-1"], unknown("-1")),
    ("a limit with a zero before it", ["--limit", "01"], expected("--limit", "01")),
    ("a limit of more than 32 bits", ["--limit", "4294967296"], expected("--limit", "4294967296")),
    ("two limits", ["--limit", "1", "--limit", "1"], TWICE),
    ("a limit of a copy", ["--write", "--limit", "1"], CLASH),
    ("a limit of an edited copy", ["--limit", "0", "--cut-to-headers", "--write"], CLASH),
    ("a copy of two files", ["--write", "one", "two"], surplus("two")),
    ("an edited copy of three files", ["--pop-vlan", "--write", "one", "two", "three"], surplus("two")),
    ("a format that is none", ["--format", "xml"], expected("--format", "xml")),
    ("no format", ["--format", ""], expected("--format", "")),
    ("a format in capitals", ["--format", "JSON"], expected("--format", "JSON")),
    ("two formats", ["--format", "json", "--format", "json"], TWICE),
    ("a format without its name", ["--format"], missing("--format")),
    ("plain JSON", ["--format", "json", "--plain"], CLASH),
    ("JSON and a copy", ["--write", "--format", "json"], CLASH),
    ("JSON and a copy to a file", ["-w", "copy", "--format", "json"], CLASH),
    ("no columns", ["--fields", ""], no_column("")),
    ("a column of no section", ["--fields", "ip.src"], no_column("ip.src")),
    ("a column of no member", ["--fields", "vlan.id"], no_column("vlan.id")),
    ("a section without its member", ["--fields", "vlan"], no_column("vlan")),
    ("a member of the place of all headers alone", ["--fields", "headers.vid"], no_column("headers.vid")),
    ("a comma after the last column", ["--fields", "vlan.vid,"], no_column("")),
    ("a space after a comma", ["--fields", "vlan.vid, eth.src"], no_column(" eth.src")),
    ("33 columns", ["--fields", ",".join(["eth.src"] * 33)], expected("--fields", ",".join(["eth.src"] * 33))),
    ("columns in capitals", ["--fields", "VLAN.VID"], no_column("VLAN.VID")),
    ("columns twice", ["--fields", "vlan.vid", "--fields", "eth.src"], TWICE),
    ("columns without their names", ["--fields"], missing("--fields")),
    ("a line of names without columns", ["--header"], lacking("--header", "--fields")),
    ("a line of names without columns, of a file", ["--header", "a.pcap"], lacking("--header", "--fields")),
    ("a line of names without columns, and a copy", ["--header", "--write"], lacking("--header", "--fields")),
    ("columns and JSON", ["--fields", "vlan.vid", "--format", "json"], CLASH),
    ("columns for the eye", ["--fields", "vlan.vid", "--format", "brief"], CLASH),
    ("CSV without columns", ["--format", "csv"], lacking("--format csv", "--fields")),
    ("CSV without columns, and their names", ["--format", "csv", "--header"], lacking("--header", "--fields")),
    ("CSV without columns, and a copy", ["--format", "csv", "--write"], lacking("--format csv", "--fields")),
    ("CSV and a copy", ["--format", "csv", "--fields", "vlan.vid", "--write"], CLASH),
    ("plain CSV", ["--format", "csv", "--fields", "vlan.vid", "--plain"], CLASH),
    ("counts as CSV", ["--stats", "--format", "csv"], CLASH),
    ("counts of columns as CSV", ["--stats", "--format", "csv", "--fields", "vlan.vid"], CLASH),
    ("columns together as CSV", ["--stats", "--format", "csv", "--by", "vlan.vid"], CLASH),
    ("bytes of lines", ["--bytes"], lacking("--bytes", "--format json")),
    ("bytes of lines that are named", ["--bytes", "--format", "lines"], lacking("--bytes", "--format json")),
    ("bytes for the eye", ["--bytes", "--format", "brief"], lacking("--bytes", "--format json")),
    ("bytes of columns", ["--bytes", "--fields", "vlan.vid"], lacking("--bytes", "--format json")),
    ("bytes as CSV", ["--bytes", "--format", "csv", "--fields", "vlan.vid"], lacking("--bytes", "--format json")),
    ("bytes of a copy", ["--bytes", "--write"], lacking("--bytes", "--format json")),
    ("bytes of counts", ["--bytes", "--stats"], lacking("--bytes", "--format json")),
    ("bytes of columns that are not counted", ["--bytes", "--by", "vlan.vid"], lacking("--bytes", "--format json")),
    ("bytes and columns of JSON", ["--bytes", "--format", "json", "--fields", "vlan.vid"], CLASH),
    ("bytes of JSON and a copy", ["--bytes", "--format", "json", "--write"], CLASH),
    ("plain bytes", ["--bytes", "--format", "json", "--plain"], CLASH),
    ("bytes of counts as JSON", ["--bytes", "--format", "json", "--stats"], CLASH),
    ("bytes of sums of counts", ["--bytes", "--format", "json", "--merge"], CLASH),
    ("bytes twice", ["--bytes", "--bytes", "--format", "json"], TWICE),
    ("bytes with a value", ["--bytes=5", "--format", "json"], TWICE),
    ("plain columns", ["--fields", "vlan.vid", "--plain"], CLASH),
    ("columns and a copy", ["--fields", "vlan.vid", "--write"], CLASH),
    ("plain counts", ["--stats", "--plain"], CLASH),
    ("counts with a line of names", ["--stats", "--header"], CLASH),
    ("counts with a line of names of columns", ["--stats", "--fields", "vlan.vid", "--header"], CLASH),
    ("counts for the eye", ["--stats", "--format", "brief"], CLASH),
    ("counts and a copy", ["--stats", "--write"], CLASH),
    ("counts and a copy to a file", ["--stats", "-w", "copy"], CLASH),
    ("counts of 32 columns", ["--stats", "--fields", ",".join(["eth.src"] * 32)], CLASH),
    ("counts of a column that is none", ["--stats", "--fields", "vlan.id"], no_column("vlan.id")),
    ("columns together that are not counted", ["--by", "vlan.vid"], lacking("--by", "--stats")),
    ("columns together, one of them none", ["--stats", "--by", "eth.src,vlan.id"], wrong("--by: there is no column 'vlan.id'")),
    ("33 columns together", ["--stats", "--by", ",".join(["eth.src"] * 33)], expected("--by", ",".join(["eth.src"] * 33))),
    ("32 columns together", ["--stats", "--by", ",".join(["eth.src"] * 32)], CLASH),
    ("columns together, and others", ["--stats", "--by", "vlan.vid", "--fields", "eth.src"], CLASH),
    ("columns together for the eye", ["--stats", "--by", "vlan.vid", "--format", "brief"], CLASH),
    ("columns together and a copy", ["--stats", "--by", "vlan.vid", "--write"], CLASH),
    ("columns together twice", ["--stats", "--by", "vlan.vid", "--by", "eth.src"], TWICE),
    ("columns together without their names", ["--stats", "--by"], missing("--by")),
    ("counts twice", ["--stats", "--stats"], TWICE),
    ("an option that is none", ["--plane"], unknown("--plane")),
    ("the beginning of an option", ["--pla"], unknown("--pla")),
    ("a letter that is none", ["-p"], unknown("-p")),
    ("a value of an option that has none", ["--plain=yes"], TWICE),
    ("no filter before an option", ["--select", "--plain"], missing("--select")),
    ("an option that is none, and help after it", ["--plane", "--help"], unknown("--plane")),
    ("a word twice", ["--plain", "--plain"], TWICE),
    ("an expression that is missing", ["--select"], missing("--select")),
    ("lines and a copy", ["--plain", "--write"], CLASH),
    ("a copy twice", ["--write", "--select", "arp", "--write"], TWICE),
    ("two filters", ["--select", "arp", "--select", "arp"], TWICE),
    ("headers without a copy", ["--cut-to-headers"], lacking("--cut-to-headers", "--write or -w")),
    ("headers twice", ["--write", "--cut-to-headers", "--cut-to-headers"], TWICE),
    ("a tag less without a copy", ["--pop-vlan"], lacking("--pop-vlan", "--write or -w")),
    ("a tag more without a copy", ["--push-vlan", "0x8100:5"], lacking("--push-vlan", "--write or -w")),
    ("no tag to put in", ["--write", "--push-vlan"], missing("--push-vlan")),
    ("a tag without a TPID", ["--write", "--push-vlan", "5"], expected("--push-vlan", "5")),
    ("a TPID of another kind", ["--write", "--push-vlan", "0x8101:5"], expected("--push-vlan", "0x8101:5")),
    ("a tag of 13 bits", ["--write", "--push-vlan", "0x8100:4096"], expected("--push-vlan", "0x8100:4096")),
    ("a tag in three parts", ["--write", "--push-vlan", "0x8100:5:6"], expected("--push-vlan", "0x8100:5:6")),
    ("an octal identifier", ["--write", "--push-vlan", "0x8100:05"], expected("--push-vlan", "0x8100:05")),
    ("a number of more than 32 bits", ["--write", "--push-vlan", "0x100008100:5"], expected("--push-vlan", "0x100008100:5")),
    ("two edits", ["--write", "--pop-vlan", "--cut-to-headers"], EDITS),
    ("another identifier without a copy", ["--set-vlan", "5:6"], lacking("--set-vlan", "--write or -w")),
    ("no identifiers", ["--write", "--set-vlan"], missing("--set-vlan")),
    ("one identifier", ["--write", "--set-vlan", "5"], expected("--set-vlan", "5")),
    ("no second identifier", ["--write", "--set-vlan", "5:"], expected("--set-vlan", "5:")),
    ("no first identifier", ["--write", "--set-vlan", ":5"], expected("--set-vlan", ":5")),
    ("a new identifier of 13 bits", ["--write", "--set-vlan", "5:4096"], expected("--set-vlan", "5:4096")),
    ("an old identifier of 13 bits", ["--write", "--set-vlan", "0x1000:5"], expected("--set-vlan", "0x1000:5")),
    ("an identifier that is no number", ["--write", "--set-vlan", "x:1"], expected("--set-vlan", "x:1")),
    ("three identifiers", ["--write", "--set-vlan", "5:6:7"], expected("--set-vlan", "5:6:7")),
    ("other identifiers twice", ["--write", "--set-vlan", "5:6", "--set-vlan", "6:7"], TWICE),
    ("another identifier and a tag less", ["--write", "--set-vlan", "5:6", "--pop-vlan"], EDITS),
    ("a tag more and another identifier", ["--write", "--push-vlan", "0x8100:5", "--set-vlan", "5:6"], EDITS),
    ("undecided packets that are neither kept nor dropped", ["--select", "vlan", "--undecided", "maybe"], expected("--undecided", "maybe")),
    ("a status on faults that is neither", ["--status-on-fault", "maybe"], expected("--status-on-fault", "maybe")),
    ("a status on faults without a value", ["--status-on-fault"], missing("--status-on-fault")),
    ("undecided packets without a filter", ["--undecided", "keep"], lacking("--undecided", "--select")),
    ("undecided packets of a file without a filter", ["--undecided", "keep", "a.pcap"], lacking("--undecided", "--select")),
    ("a file beside that of -r", ["-r", "one", "two", "three"], surplus("two")),
    ("standard input beside the file of -r", ["-r", "one", "-"], surplus("-")),
    ("standard input twice", ["-", "-"], wrong("-: standard input can be read only once")),
    ("standard input twice among others", ["-", "one", "-", "two"], wrong("-: standard input can be read only once")),
    ("a filter that is wrong, and an option that is none", ["--select", "vlan 4096", "-c", "0"], expected("-c", "0")),
]


def wrong_words_alone(program):
    """Wrong words if standard output is full, or there is no standard error."""
    silent = subprocess.run([program, "--plane"], stdin=subprocess.DEVNULL, stdout=subprocess.PIPE, preexec_fn=lambda: os.close(2), check=False)
    return [
        ("wrong words on a full disk", partial(on_a_full_disk, program, ["--plane"], b""), (unknown("--plane"), 2)),
        ("wrong words without standard error", (silent.stdout, silent.returncode), (b"", 2)),
    ]


def before_the_end(program, words, given):
    """What the program prints, and its status, while more may still come."""
    with subprocess.Popen([program, *words], stdin=subprocess.PIPE, stdout=subprocess.PIPE) as child:
        child.stdin.write(given)
        child.stdin.flush()
        text = child.stdout.read().decode()
        status = child.wait()
        child.stdin.close()
    return text, status


def run_on_a_folder(program):
    """What is said where standard input is a folder."""
    here = os.open(os.curdir, os.O_RDONLY)
    try:
        return subprocess.run([program], stdin=here, capture_output=True, check=False)
    finally:
        os.close(here)


def run_forbidden(program):
    """What is said of a file that may not be read. Root may read each, so the program runs as another there."""
    with tempfile.NamedTemporaryFile() as file:
        os.chmod(file.name, 0)
        other = {"user": 65_534} if os.getuid() == 0 else {}
        done = subprocess.run([program, file.name], capture_output=True, check=False, **other)
        return done.stdout.decode(), done.stderr.decode().replace(file.name, "FILE"), done.returncode


def reasons(program):
    """What standard error says of streams that fail, and of a file that is forbidden."""
    return [
        ("a folder as the input", run_on_a_folder(program).stderr.decode(), "ether_capture: standard input: Is a directory (os error 21)\n"),
        ("a file that may not be read", partial(run_forbidden, program), ("", "FILE: can't be opened: permission denied\n", 4)),
    ]


def in_files(program):
    """The first captures as files, and filters of files."""
    with tempfile.TemporaryDirectory() as folder:
        name = os.path.join(folder, "a capture")
        for case in CASES[:6]:
            with open(name, "wb") as file:
                file.write(case.capture)
            for words in ([*case.words, name], [name, *case.words], [*case.words, "--", name]):
                yield f"{case.name} from a file, {words}", partial(run, program, words, b""), (case.text, case.status)
        name = os.path.join(folder, "six")
        with open(name, "wb") as file:
            file.write(classic(*SIX))
        wanted = run(program, ["--plain", "--select", "arp"], classic(*SIX))
        yield "standard input by its name", partial(run, program, ["--plain", "--select", "arp", "-"], classic(*SIX)), wanted
        yield "a filter and a file", partial(run, program, ["--plain", "--select", "arp", name], b""), wanted


def helps(program):
    """The usage and the version, by all words that ask for them."""
    help_text, status = run(program, ["--help"], CLASSIC)
    yield "the usage", (help_text[: len(USAGE)], status), (USAGE, 0)
    for words in (["-h"], ["--plain", "--help"], ["one", "-h", "two"]):
        yield f"help by {words}", partial(run, program, words, CLASSIC), (help_text, 0)
    for words in (["-V"], ["one", "--version"]):
        yield f"the version by {words}", partial(run, program, words, CLASSIC), ("ether_capture 3.0.0\n", 0)


def alone(program):
    """Single packets, readers that fail, and where there is no memory or no disk."""
    one = FIRST_LINES + "total frames 1 skipped 0\n", 1
    yield "one packet of a capture that goes on", partial(before_the_end, program, ["-c", "1"], CLASSIC[:59]), one
    for words in (["-c1"], ["-c=1"]):
        yield f"one packet by {words}", partial(run, program, words, CLASSIC), one
    yield "a reader that fails", partial(run_until_a_fault, program, [], CLASSIC[:59]), (FIRST_LINES, 4)
    large = secrets(16_777_216, 16_777_216)
    yield "no memory for a block", partial(without_memory, program, large), (ONE_LINES, INPUT + ": out of memory\n", 5)
    for words in ([], ["--plain"], ["--help"]):
        yield f"a full disk, {words}", partial(on_a_full_disk, program, words, CLASSIC), DISK_IS_FULL
    yield "a block of 15 MiB in pieces of 4 KiB", partial(long_copy_in_pieces, program), (True, True)


# An emulator takes more memory and time than the program, and opens files and calls the system besides.
NOT_EMULATED = ["no memory", "without memory", "on the disk before", "a block of 15 MiB in pieces"]


def packed(program, unpacks):
    """A capture packed by gzip, which one of the builds unpacks."""
    hint = INPUT + ": byte 0: The magic number 0x1F8B0800 is not that of a pcap file. This looks like gzip: zcat unpacks it.\n"
    wanted = (CLASSIC_LINES, "", 1) if unpacks else ("", hint, 3)
    yield "a packed capture", partial(run_apart, program, [], gzip.compress(CLASSIC, mtime=0)), wanted


def tried(program, unpacks):
    """All cases: the name of each, what is found, and what is wanted."""
    for case in CASES:
        yield case.name, partial(run_apart, program, case.words, case.capture), (case.text, case.said, case.status)
    for cases, steps in ((CASES[:6], (1, 2, 3, 7, 16, 59, 64)), (LONG, (1_000, 65_537))):
        for case, step in itertools.product(cases, steps):
            found = partial(run_apart, program, case.words, case.capture, step)
            yield f"{case.name} in pieces of {step}", found, (case.text, case.said, case.status)
    for name, words, text in WRONG:
        yield name, partial(copied, program, words, CLASSIC), (b"", text, 2)
    for more in (packed, several):
        yield from more(program, unpacks)
    for more in (in_files, selections, limits, reasons, streams, examples, counts, copies, copies_of_copies, copies_that_fail, capture_cases,
                 wrong_words_alone, helps, alone):
        yield from more(program)


def main():
    words = argparse.ArgumentParser(description=__doc__, formatter_class=argparse.RawDescriptionHelpFormatter)
    words.add_argument("program", metavar="PROGRAM")
    words.add_argument("word", metavar="WORD", nargs="?", default="")
    words.add_argument("--emulated", metavar="N", type=int, help="an emulator runs the program: run each Nth case, but for those that it can't run")
    words.add_argument("--gzip", action="store_true", help="the program unpacks what gzip has packed, as that of cargo does")
    given = words.parse_args()
    cases = tried(os.path.realpath(given.program), given.gzip)
    if given.emulated:
        print(f"left out: cases with {', '.join(map(repr, NOT_EMULATED))}, and all others but each {given.emulated}th, since an emulator runs the program")
        cases = (it for it in cases if not any(name in it[0] for name in NOT_EMULATED))
    return count(cases, given.word, given.emulated or 1)


if __name__ == "__main__":
    sys.exit(main())
