"""Tests of the copies that `ether_capture` writes."""

import os
import resource
import subprocess
import tempfile
from dataclasses import dataclass
from functools import partial

from made_captures import (
    CLASSIC, COOKED, CUT_PACKET, DISK_IS_FULL, ETHERNET, INPUT, LOOPBACK_V1, NO_FILE, OBSOLETE, SECTIONS, SECTION_HEADER, SELECTED, SIX,
    TAGGED_V1, TAGGED_V2, UNKNOWN, WITH_FCS, block, classic, cooked, frame, interface, joined, long_record, record_is_cut, secrets,
)
from programs import on_a_full_disk, run_until_a_fault


@dataclass
class Copy:
    """A capture, the words after `--write`, the bytes that are written, the text on standard error and the exit status."""

    name: str
    words: list
    capture: bytes
    copy: bytes
    text: str = ""
    status: int = 0


# The units of the captures above that are no packets, and each packet.
SIMPLE = joined("03000000 24000000 12000000 ffffffffffff 3aeeb62ff6d7 8100 b123 0800 0000 24000000")
SECOND_SECTION = SECTIONS[SECTIONS.index(SIMPLE) + len(SIMPLE):][:48]
NO_PACKETS = SECTION_HEADER + ETHERNET + COOKED + UNKNOWN

COPIES = [Copy(f"all of capture {number}", [], capture, capture) for number, capture in enumerate((
    CLASSIC, WITH_FCS, SECTIONS, CLASSIC[:24], SECTION_HEADER, classic(*SIX), secrets(100_000, 100_000), secrets(16_777_216, 16_777_216),
    long_record(262_144, 262_144), interface("0e000800 100e000000000000") + frame(*OBSOLETE, "02000400 40000000")))]
COPIES += [Copy(f"only {text!r}", ["--select", text], classic(*SIX), classic(*(SIX[it - 1] for it in wanted))) for text, wanted in SELECTED.items()]
COPIES += [
    Copy("a cut packet, least significant byte first", ["--select", "cut"], WITH_FCS, WITH_FCS[:24] + WITH_FCS[60:]),
    Copy("a whole one", ["--select", "not cut"], WITH_FCS, WITH_FCS[:60]),
    Copy("one packet of two sections", ["--select", "vlan 291"], SECTIONS, NO_PACKETS + SIMPLE + SECOND_SECTION),
    Copy("the cut one of them", ["--select", "cut"], SECTIONS, NO_PACKETS + CUT_PACKET + SECOND_SECTION),
    Copy("none of them", ["--select", "macsec"], SECTIONS, NO_PACKETS + SECOND_SECTION),
    Copy("no packet of a link type that is not walked", ["--select", "greater 1"], SECTIONS, SECTIONS[:-36]),
    Copy("a packet that may match, as it is", ["--select", "vlan 5"], CLASSIC, CLASSIC[:24]),
    Copy("a packet that may match", ["--select", "vlan 5", "--undecided", "keep"], CLASSIC, CLASSIC[:59]),
    Copy("those that match for sure", ["--select", "not vlan 5", "--undecided", "drop"], CLASSIC, CLASSIC[:24] + CLASSIC[59:]),
    Copy("a long block between packets", ["--select", "macsec"], secrets(100_000, 100_000), secrets(100_000, 100_000)[:48]
         + secrets(100_000, 100_000)[96:-48]),
    Copy("a record that is cut", [], CLASSIC[:120], CLASSIC[:59], INPUT + record_is_cut(59, 62, 61), 3),
    Copy("one that would be left out", ["--select", "refused"], CLASSIC[:120], CLASSIC[:59], INPUT + record_is_cut(59, 62, 61), 3),
    Copy("a packet before it that is left out", ["--select", "not refused"], CLASSIC[:120], CLASSIC[:24], INPUT + record_is_cut(59, 62, 61), 3),
    Copy("no byte", [], b"", b"", INPUT + ": byte 0: The header of a pcap file needs 24 byte(s); only 0 are available.\n", 3),
    Copy("another magic number", [], CLASSIC[4:], b"", INPUT + ": byte 0: The magic number 0x00020004 is not that of a pcap file.\n", 3),
    Copy("a long block with another length", [], secrets(100_000, 99_996), secrets(100_000, 99_996)[:96],
         INPUT + ": byte 96: A block of a pcapng file begins with length 100000 and ends with 99996.\n", 3),
    Copy("a file that is not there", ["no/such.pcap"], CLASSIC, b"", "no/such.pcap" + NO_FILE, 4),
    Copy("no expression", ["--select", "vlan 4096"], CLASSIC, b"", "--select: At byte 5: expected a number up to 4095.\n", 2),
]

COPIES += [
    Copy("one packet", ["-c", "1"], CLASSIC, CLASSIC[:59]),
    Copy("all packets there are", ["-c", "2"], CLASSIC, CLASSIC),
    Copy("more packets than there are", ["-c", "5"], CLASSIC, CLASSIC),
    Copy("one packet that matches", ["-c", "1", "--select", "not refused"], CLASSIC, CLASSIC[:24] + CLASSIC[59:]),
    Copy("one packet, and a record that is cut", ["-c", "1"], CLASSIC[:120], CLASSIC[:59]),
    Copy("two packets, and a record that is cut", ["-c", "2"], CLASSIC[:120], CLASSIC[:59], INPUT + record_is_cut(59, 62, 61), 3),
    Copy("one packet and all blocks before it", ["-c", "1", "--select", "vlan 291"], SECTIONS, NO_PACKETS + SIMPLE),
    Copy("no packet that is asked for", ["-c", "1", "--select", "macsec"], SECTIONS, NO_PACKETS + SECOND_SECTION),
]

# The same captures; each packet ends where its headers do: a cooked capture takes 16 bytes, raw IP has no header.
CUT = "--cut-to-headers"
CUT_CLASSIC = CLASSIC[:24] + joined(
    "6553f100 0001e240 00000012 0000003c", "ffffffffffff 3aeeb62ff6d7 88a8 0001 8100",
    "6553f101 00000005 00000012 0000002e", "ffffffffffff 3aeeb62ff6d7 8100 b123 0800")
CUT_WITH_FCS = WITH_FCS[:24] + joined(
    "01000000 02000000 0e000000 14000000", "020000000001 020000000002 88b5", "01000000 ffc99a3b 0e000000 14000000", "020000000001 020000000002 88b5")
CUT_COOKED = joined("06000000 30000000 01000000 fe9c9717 15cd853d 10000000 11000000", "0004 0001 0006 0200000000010000 0800 30000000")
CUT_SECTIONS = NO_PACKETS + CUT_PACKET + CUT_COOKED + SIMPLE + SECOND_SECTION + SECTIONS[-36:-32] + joined("00000020") + SECTIONS[-28:-16] \
    + joined("00000000") + SECTIONS[-12:-8] + joined("00000020")
LONG_SIMPLE = joined("03000000 24000000 13000000 ffffffffffff 3aeeb62ff6d7 8100 b123 0800 45 00 24000000")
OPTIONS = "02000400 00000020 0400 0800 0000000000000007 00000000"  # epb_flags with a check sequence of 4 bytes, and epb_dropcount
LONG_PACKET = SECTION_HEADER + ETHERNET + joined(
    "06000000 4c000000 00000000 240a0600 40222018 13000000 2e000000 ffffffffffff 3aeeb62ff6d7 8100 b123 0800 45 00", OPTIONS, "4c000000")
CUT_LONG_PACKET = SECTION_HEADER + ETHERNET + joined(
    "06000000 4c000000 00000000 240a0600 40222018 12000000 2e000000 ffffffffffff 3aeeb62ff6d7 8100 b123 0800 00 00", OPTIONS, "4c000000")
CUT_LOOPBACK = LOOPBACK_V1[:24] + joined("6553f100 00000000 00000010 00000011", "0000 0304 0006 0000000000000000 0800")
CUT_TAGGED_V1 = TAGGED_V1[:24] + joined("6553f100 00000000 00000014 00000015", "0004 0200 0000 0000000000000000 8100 b123 0800")
COPIES += [
    Copy("headers of the loopback device in cooked capture v1", [CUT], LOOPBACK_V1, CUT_LOOPBACK),
    Copy("a tag after hardware type 512", [CUT], TAGGED_V1, CUT_TAGGED_V1),
    Copy("headers of a classic file", [CUT], CLASSIC, CUT_CLASSIC),
    Copy("headers of frames with a check sequence", [CUT], WITH_FCS, CUT_WITH_FCS),
    Copy("headers of two sections", [CUT], SECTIONS, CUT_SECTIONS),
    Copy("headers of the packets that match", [CUT, "--select", "not refused"], CLASSIC, CLASSIC[:24] + CUT_CLASSIC[58:]),
    Copy("a packet with options", [CUT], LONG_PACKET, CUT_LONG_PACKET),
    Copy("a simple packet that can't be cut", [CUT], NO_PACKETS + CUT_PACKET + LONG_SIMPLE + CUT_PACKET, NO_PACKETS + CUT_PACKET,
         INPUT + f": byte {len(NO_PACKETS) + 48}: This packet can't be written: its block has no number of captured bytes, or it would be too long.\n", 3),
    Copy("one that is left out", [CUT, "--select", "refused"], NO_PACKETS + LONG_SIMPLE + CUT_PACKET, NO_PACKETS + CUT_PACKET),
    Copy("one that is not reached", [CUT, "-c", "1"], NO_PACKETS + CUT_PACKET + LONG_SIMPLE, NO_PACKETS + CUT_PACKET),
]

# The same captures without the VLAN tag after the header of a link. The second tag of a frame that breaks off within it then is cut short.
POP = "--pop-vlan"
POPPED_CLASSIC = CLASSIC[:24] + joined(
    "6553f100 0001e240 0000000f 00000038", "ffffffffffff 3aeeb62ff6d7 8100 00",
    "6553f101 00000005 0000002a 0000002a", "ffffffffffff 3aeeb62ff6d7 0800", "4500001c00010000400100000a0900020a0900010800f7fd00010001")
TAGGED_WITH_FCS = WITH_FCS[:24] + joined(
    "01000000 02000000 18000000 18000000", "020000000001 020000000002 8100 0005 88b5 0102 aabbccdd",
    "01000000 ffc99a3b 16000000 18000000", "020000000001 020000000002 8100 0005 88b5 0102 aabb")
POPPED_WITH_FCS = WITH_FCS[:24] + joined(
    "01000000 02000000 14000000 14000000", "020000000001 020000000002 88b5 0102 aabbccdd",
    "01000000 ffc99a3b 12000000 14000000", "020000000001 020000000002 88b5 0102 aabb")
POPPED_LONG_PACKET = SECTION_HEADER + ETHERNET + joined(
    "06000000 48000000 00000000 240a0600 40222018 0f000000 2a000000 ffffffffffff 3aeeb62ff6d7 0800 45 00", OPTIONS, "48000000")
TAGGED_COOKED = NO_PACKETS + joined(
    "06000000 38000000 01000000 fe9c9717 15cd853d 15000000 15000000", "0004 0001 0006 0200000000010000 8100 b123 0800 45 000000 38000000")
POPPED_COOKED = NO_PACKETS + joined(
    "06000000 34000000 01000000 fe9c9717 15cd853d 11000000 11000000", "0004 0001 0006 0200000000010000 0800 45 000000 34000000")
TAGGED_OBSOLETE = SECTION_HEADER + ETHERNET + joined(
    "02000000 34000000 0000 0007 240a0600 40222018 12000000 12000000 ffffffffffff 3aeeb62ff6d7 88a8 b123 0800 0000 34000000")
POPPED_OBSOLETE = SECTION_HEADER + ETHERNET + joined(
    "02000000 30000000 0000 0007 240a0600 40222018 0e000000 0e000000 ffffffffffff 3aeeb62ff6d7 0800 0000 30000000")
BEFORE_SIMPLE = SECTIONS[:SECTIONS.index(SIMPLE)]
NOT_EDITED = "This packet can't be written: its block has no number of captured bytes, or it would be too long.\n"
COPIES += [
    Copy("a tag less in a classic file", [POP], CLASSIC, POPPED_CLASSIC),
    Copy("a tag less in the packets that match", [POP, "--select", "vlan 291"], CLASSIC, CLASSIC[:24] + POPPED_CLASSIC[55:]),
    Copy("a tag less in frames with a check sequence", [POP], TAGGED_WITH_FCS, POPPED_WITH_FCS),
    Copy("frames that have no tag", [POP], WITH_FCS, WITH_FCS),
    Copy("a tag less in a packet with options", [POP], LONG_PACKET, POPPED_LONG_PACKET),
    Copy("a tag less in a cooked capture", [POP], TAGGED_COOKED, POPPED_COOKED),
    Copy("a tag less in an obsolete packet block", [POP], TAGGED_OBSOLETE, POPPED_OBSOLETE),
    Copy("cooked capture v1 of hardware type 512 stays", [POP], TAGGED_V1, TAGGED_V1),
    Copy("cooked capture v2 stays", [POP], cooked("8100 0000 00000003 0001 04 06 0200000000010000 b123 0800 45"),
         cooked("8100 0000 00000003 0001 04 06 0200000000010000 b123 0800 45")),
    Copy("a tag of a simple packet", [POP], SECTIONS, BEFORE_SIMPLE, INPUT + f": byte {len(BEFORE_SIMPLE)}: {NOT_EDITED}", 3),
    Copy("a simple packet that is left out", [POP, "--select", "not vlan 291"], SECTIONS, BEFORE_SIMPLE + SECOND_SECTION),
]

# The same captures with a VLAN tag more after the header of a link, and a snap length that is 4 greater if there is one.
PUSH = "--push-vlan"
RAISED_HEADER = CLASSIC[:16] + joined("00010003 00000001")
PUSHED_CLASSIC = RAISED_HEADER + joined(
    "6553f100 0001e240 00000017 00000040", "ffffffffffff 3aeeb62ff6d7 8100 0005 88a8 0001 8100 00",
    "6553f101 00000005 00000032 00000032", "ffffffffffff 3aeeb62ff6d7 8100 0005 8100 b123 0800",
    "4500001c00010000400100000a0900020a0900010800f7fd00010001")
PUSHED_WITH_FCS = WITH_FCS[:16] + joined(
    "03000100 01000024",
    "01000000 02000000 18000000 18000000", "020000000001 020000000002 88a8 0fff 88b5 0102 e9c0cdc8",
    "01000000 ffc99a3b 16000000 18000000", "020000000001 020000000002 88a8 0fff 88b5 0102 e9c0")
PUSHED_LONG_PACKET = SECTION_HEADER + ETHERNET + joined(
    "06000000 50000000 00000000 240a0600 40222018 17000000 32000000 ffffffffffff 3aeeb62ff6d7 9100 0000 8100 b123 0800 45 00", OPTIONS, "50000000")
FULL = classic(bytes.fromhex("ffffffffffff3aeeb62ff6d70800") + bytes(262_130))
COPIES += [
    Copy("a tag more in a classic file", [PUSH, "0x8100:5"], CLASSIC, PUSHED_CLASSIC),
    Copy("a tag more, in decimal", [PUSH, "33024:0x005"], CLASSIC, PUSHED_CLASSIC),
    Copy("a tag more in the packets that match", [PUSH, "0x8100:5", "--select", "refused"], CLASSIC, PUSHED_CLASSIC[:63]),
    Copy("a tag more in frames with a check sequence", [PUSH, "0x88a8:4095"], WITH_FCS, PUSHED_WITH_FCS),
    Copy("a tag more in a packet with options", [PUSH, "0x9100:0"], LONG_PACKET, PUSHED_LONG_PACKET),
    Copy("the tag that was taken off a cooked capture", [PUSH, "0x8100:291"], POPPED_COOKED, TAGGED_COOKED.replace(b"\xb1\x23", b"\x01\x23")),
    Copy("a tag more in no frame", [PUSH, "0x8100:5"], TAGGED_V2, RAISED_HEADER[:20] + TAGGED_V2[20:]),
    Copy("a tag more in a simple packet", [PUSH, "0x8100:5"], NO_PACKETS + SIMPLE, NO_PACKETS, INPUT + f": byte {len(NO_PACKETS)}: {NOT_EDITED}", 3),
    Copy("a packet that would be too long", [PUSH, "0x8100:5"], FULL, RAISED_HEADER, INPUT + f": byte 24: {NOT_EDITED}", 3),
    Copy("a packet that is as long as it may be", [PUSH, "0x8100:5"], classic(FULL[40:-4]),
         RAISED_HEADER + classic(FULL[40:52] + joined("8100 0005") + FULL[52:-4])[24:]),
    Copy("an original length that has no room for four bytes more", [PUSH, "0x8100:5"], CLASSIC[:36] + joined("fffffffc") + CLASSIC[40:59],
         RAISED_HEADER, INPUT + f": byte 24: {NOT_EDITED}", 3),
]

# The same captures, and frames with several tags, with another identifier in the outermost tag that has the old one.
SET = "--set-vlan"
SET_CLASSIC = CLASSIC[:59] + joined(
    "6553f101 00000005 0000002e 0000002e", "ffffffffffff 3aeeb62ff6d7 8100 b005 0800", "4500001c00010000400100000a0900020a0900010800f7fd00010001")
SET_WITH_FCS = WITH_FCS[:24] + joined(
    "01000000 02000000 18000000 18000000", "020000000001 020000000002 8100 0fff 88b5 0102 aabbccdd",
    "01000000 ffc99a3b 16000000 18000000", "020000000001 020000000002 8100 0fff 88b5 0102 aabb")
SET_LONG_PACKET = SECTION_HEADER + ETHERNET + joined(
    "06000000 4c000000 00000000 240a0600 40222018 13000000 2e000000 ffffffffffff 3aeeb62ff6d7 8100 b005 0800 45 00", OPTIONS, "4c000000")
SET_COOKED = NO_PACKETS + joined(
    "06000000 38000000 01000000 fe9c9717 15cd853d 15000000 15000000", "0004 0001 0006 0200000000010000 8100 b005 0800 45 000000 38000000")
SET_OBSOLETE = SECTION_HEADER + ETHERNET + joined(
    "02000000 34000000 0000 0007 240a0600 40222018 12000000 12000000 ffffffffffff 3aeeb62ff6d7 88a8 b005 0800 0000 34000000")
# Two equal tags, an inner one, one in the payload of a SecTag, a fourth one, another identifier, and a SecTag whose payload is encrypted.
SEVERAL = [joined("ffffffffffff 3aeeb62ff6d7", it) for it in (
    "8100 2005 8100 4005 0800 45", "88a8 0064 8100 b005 0800 45", "88e5 00 06 00000001 8100 a005 0800 eeee",
    "8100 0001 88a8 0002 9100 0003 8100 0005 0800 45", "8100 0006 0800 45", "88e5 0c 06 00000001 8100 a005 0800 eeee")]
SET_SEVERAL = [joined("ffffffffffff 3aeeb62ff6d7", it) for it in (
    "8100 2abc 8100 4005 0800 45", "88a8 0064 8100 babc 0800 45", "88e5 00 06 00000001 8100 aabc 0800 eeee",
    "8100 0001 88a8 0002 9100 0003 8100 0abc 0800 45", "8100 0006 0800 45", "88e5 0c 06 00000001 8100 a005 0800 eeee")]
# The identifier of a tag whose ether type is cut off, and a whole tag before it.
CUT_TAGS = CLASSIC[:24] + joined(
    "6553f100 0001e240 00000010 0000003c", "ffffffffffff 3aeeb62ff6d7 8100 0005",
    "6553f100 0001e240 00000014 0000003c", "ffffffffffff 3aeeb62ff6d7 88a8 0007 8100 0005")
COPIES += [
    Copy("another identifier in a classic file", [SET, "291:5"], CLASSIC, SET_CLASSIC),
    Copy("another identifier, in hexadecimal", [SET, "0x123:0x5"], CLASSIC, SET_CLASSIC),
    Copy("the same identifier again", [SET, "291:291"], CLASSIC, CLASSIC),
    Copy("another identifier in the packets that match", [SET, "291:5", "--select", "not refused"], CLASSIC, CLASSIC[:24] + SET_CLASSIC[59:]),
    Copy("another identifier in frames with a check sequence", [SET, "5:4095"], TAGGED_WITH_FCS, SET_WITH_FCS),
    Copy("another identifier in a packet with options", [SET, "291:5"], LONG_PACKET, SET_LONG_PACKET),
    Copy("another identifier in a cooked capture", [SET, "291:5"], TAGGED_COOKED, SET_COOKED),
    Copy("another identifier in an obsolete packet block", [SET, "291:5"], TAGGED_OBSOLETE, SET_OBSOLETE),
    Copy("another identifier among several tags", [SET, "5:0xabc"], classic(*SEVERAL), classic(*SET_SEVERAL)),
    Copy("a cut tag keeps its identifier", [SET, "5:6"], CUT_TAGS, CUT_TAGS),
    Copy("a whole tag before a cut one", [SET, "7:0"], CUT_TAGS, CUT_TAGS[:-6] + joined("0000 8100 0005")),
    Copy("an identifier that no tag has", [SET, "7:5"], SECTIONS, SECTIONS),
    Copy("an identifier after hardware type 512 stays", [SET, "291:5"], TAGGED_V1, TAGGED_V1),
    Copy("an identifier in cooked capture v2 stays", [SET, "291:5"], cooked("8100 0000 00000003 0001 04 06 0200000000010000 b123 0800 45"),
         cooked("8100 0000 00000003 0001 04 06 0200000000010000 b123 0800 45")),
    Copy("another identifier in a simple packet", [SET, "291:5"], SECTIONS, BEFORE_SIMPLE, INPUT + f": byte {len(BEFORE_SIMPLE)}: {NOT_EDITED}", 3),
]

# A section whose header says its length, with a snap length of 96, 16 and none, and custom blocks that may be copied and that may not; then its
# copy with what is true of that: the section length of -1, which is none, and the raised snap lengths.
MAY_BE_COPIED = block(0x0000_0BAD, "d97e0000 01020304")
NOT_TO_BE_COPIED = block(0x4000_0BAD, "d97e0000 01020304")
SNAPPED = block(1, "01000000 60000000", "02000400 65746830 00000000") + block(1, "65000000 10000000") + block(1, "01000000 00000000")
RAISED = block(1, "01000000 64000000", "02000400 65746830 00000000") + block(1, "65000000 14000000") + block(1, "01000000 00000000")
ARP_PACKET = frame(6, "00000000")
IP_PACKET = block(6, "01000000 240a0600 40222018 10000000 3c000000", "4500003c" + 12 * "00")
ALL_BLOCKS = SNAPPED + MAY_BE_COPIED + ARP_PACKET + NOT_TO_BE_COPIED + IP_PACKET
KEPT_BLOCKS = SNAPPED + MAY_BE_COPIED + ARP_PACKET + IP_PACKET
PUSHED_PACKET = block(6, "00000000 240a0600 40222018 18000000 18000000", "020000000001 020000000002 8100 0005 88b5 0102 e9c0cdc8")


def section(length, *blocks):
    """A section of these blocks, whose header gives this length."""
    return block(0x0A0D_0D0A, "4d3c2b1a 01000000", length.to_bytes(8, "little", signed=True).hex()) + b"".join(blocks)


KNOWN_LENGTH = section(len(ALL_BLOCKS), ALL_BLOCKS)
BEGUN = section(-1, RAISED)
CUT_SIMPLE = block(3, "28000000", "4500 0028" + 12 * "00")
RAW = section(-1, block(1, "65000000 10000000"))
COPIES += [
    Copy("a section with its length and all blocks", [], KNOWN_LENGTH, KNOWN_LENGTH),
    Copy("all packets by a filter", ["--select", "not arp or arp"], KNOWN_LENGTH, section(-1, SNAPPED, MAY_BE_COPIED, ARP_PACKET)),
    Copy("a section up to a packet", ["-c", "1"], KNOWN_LENGTH, section(-1, SNAPPED, MAY_BE_COPIED, ARP_PACKET)),
    Copy("a section in which no packet is edited", [POP], KNOWN_LENGTH, section(-1, KEPT_BLOCKS)),
    Copy("raised snap lengths", [PUSH, "0x8100:5"], KNOWN_LENGTH, section(-1, RAISED, MAY_BE_COPIED, PUSHED_PACKET, IP_PACKET)),
    Copy("a snap length that packets nearly reach", [PUSH, "0x8100:5"], CLASSIC[:16] + joined("0003fffe") + CLASSIC[20:24],
         CLASSIC[:16] + joined("00040000 00000001")),
    Copy("a snap length that no packet exceeds", [PUSH, "0x8100:5"], CLASSIC[:16] + joined("00040000") + CLASSIC[20:24],
         CLASSIC[:16] + joined("00040000 00000001")),
    Copy("the greatest snap length", [PUSH, "0x8100:5"], CLASSIC[:16] + joined("ffffffff") + CLASSIC[20:24], CLASSIC[:16] + joined("ffffffff 00000001")),
    Copy("no snap length", [PUSH, "0x8100:5"], CLASSIC[:16] + joined("00000000") + CLASSIC[20:24], CLASSIC[:16] + joined("00000000 00000001")),
    Copy("a simple packet that was cut, where no snap length is raised", [POP], RAW + CUT_SIMPLE, RAW + CUT_SIMPLE),
    Copy("one where it is", [PUSH, "0x8100:5"], RAW + CUT_SIMPLE, section(-1, block(1, "65000000 14000000")), INPUT + f": byte {len(RAW)}: {NOT_EDITED}", 3),
    Copy("one that was not cut", [PUSH, "0x8100:5"], RAW + block(3, "08000000 4500000800000000"),
         section(-1, block(1, "65000000 14000000"), block(3, "08000000 4500000800000000"))),
]


def copied(program, words, capture, **how):
    """What the program writes, what it says on standard error, and its status."""
    with tempfile.TemporaryFile() as file:
        file.write(capture)
        file.seek(0)
        done = subprocess.run([program, *words], stdin=file, capture_output=True, check=False, **how)
    return done.stdout, done.stderr.decode(), done.returncode


def copied_in_pieces(program, words, capture, step):
    """The same of a capture that comes some bytes at a time."""
    with subprocess.Popen([program, *words], stdin=subprocess.PIPE, stdout=subprocess.PIPE, stderr=subprocess.PIPE, bufsize=0) as child:
        try:
            for at in range(0, len(capture), step):
                child.stdin.write(capture[at:at + step])
        except BrokenPipeError:
            pass  # the program has ended
        out, said = child.communicate()
    return out, said.decode(), child.returncode


def copies(program):
    """Each copy, and each again of what was written; some in pieces, and with options in another order."""
    for it in COPIES:
        wanted = (it.copy, it.text, it.status)
        yield f"a copy: {it.name}", partial(copied, program, ["--write", *it.words], it.capture), wanted
        if it.words[:1] == ["--select"]:
            yield f"a copy after its filter: {it.name}", partial(copied, program, [*it.words, "--write"], it.capture), wanted
        if it.copy:
            words = [] if {POP, PUSH, SET} & set(it.words) else it.words  # with another tag less, or with no match, it is another copy
            yield f"a copy of it: {it.name}", partial(copied, program, ["--write", *words], it.copy), (it.copy, "", 0)
        if len(it.capture) < 500 and it.status == 0:
            for step in (1, 7, 59):
                yield f"a copy in pieces of {step}: {it.name}", partial(copied_in_pieces, program, ["--write", *it.words], it.capture, step), wanted


def copied_twice(program, first, second, capture):
    """What an expression selects from the copy of what another one selects."""
    between, _, _ = copied(program, ["--write", "--select", first], capture)
    return copied(program, ["--write", "--select", second], between)


def copies_of_copies(program):
    """Packets that are selected from a copy of selected packets, and those that both expressions select at once."""
    texts = ["vlan", "not arp", "refused or cut", "greater 46"]
    for number, capture in enumerate((classic(*SIX), SECTIONS, WITH_FCS, CLASSIC)):
        for first in texts:
            for second in texts:
                twice = partial(copied_twice, program, first, second, capture)
                both = partial(copied, program, ["--write", "--select", f"({first}) and ({second})"], capture)
                yield f"capture {number}: {second!r} of {first!r}", twice, both
            again = partial(copied, program, ["--write", "--select", first], capture)
            yield f"capture {number}: {first!r} again", partial(copied_twice, program, first, first, capture), again


def long_copy_in_pieces(program):
    """Whether a block of 15 MiB that comes in pieces of 4 KiB is copied, and in less than a second of processor time."""
    large = secrets(15 << 20, 15 << 20)
    before = resource.getrusage(resource.RUSAGE_CHILDREN)
    found = copied_in_pieces(program, ["--write"], large, 4096)
    after = resource.getrusage(resource.RUSAGE_CHILDREN)
    return found == (large, "", 0), after.ru_utime - before.ru_utime < 1


def copies_that_fail(program):
    """Copies to a full disk and to a reader that has gone, without standard error, and from a reader that fails."""
    gone, end = os.pipe()
    os.close(gone)
    with os.fdopen(end, "wb") as out:
        done = subprocess.run([program, "--write"], input=CLASSIC, stdout=out, stderr=subprocess.PIPE, check=False)
    silent = subprocess.run([program, "--write"], input=CLASSIC[:120], stdout=subprocess.PIPE, preexec_fn=lambda: os.close(2), check=False)
    limit = lambda: resource.setrlimit(resource.RLIMIT_AS, (8 << 20, 8 << 20))  # noqa: E731
    large = secrets(16_777_216, 16_777_216)
    return [
        ("a copy to a full disk", partial(on_a_full_disk, program, ["--write"], CLASSIC), DISK_IS_FULL),
        ("a copy that nobody reads", (done.stderr.decode(), done.returncode), ("", 4)),
        ("a copy without standard error", (silent.stdout, silent.returncode), (CLASSIC[:59], 3)),
        ("a copy without memory", partial(copied, program, ["--write"], large, preexec_fn=limit), (large[:96], INPUT + ": out of memory\n", 5)),
        ("a copy of a reader that fails",
         partial(run_until_a_fault, program, ["--write", "--select", "arp"], SECTION_HEADER + ETHERNET + CUT_PACKET + CUT_PACKET[:20]),
         ((SECTION_HEADER + ETHERNET).decode("latin-1"), 4)),
    ]
