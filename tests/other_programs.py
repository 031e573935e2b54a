"""Tests what the programs write with the programs that read it: libpcap by tcpdump, Wireshark's reader by tshark, captures of dumpcap, and
JSON by jq, Miller and pandas.

    python3 tests/other_programs.py PROGRAM

PROGRAM is the built `ether_capture`. A line says which tests are left out, because a program is missing or may not capture. The last line is
'N passed, M failed'.
"""

import argparse
import os
import re
import socket
import subprocess
import sys
import tempfile
import time
from shutil import which

from made_captures import TAGGED_V1, block, classic, cooked, joined
from counts import counted_by_tshark
from display_filters import agreement
from formats import flags_and_comments, interface_names, interfaces, llc_lengths, readers
from programs import count

PUSH = ["--write", "--push-vlan", "0x8100:5"]
FRAME = bytes.fromhex("02000000000a" "020000000014" "88b5") + bytes(range(256)) * 4


def cut(length, original=1038):
    """The first bytes of a frame, as a record's header and packet, most significant byte first."""
    return joined("6553f100 00000000") + length.to_bytes(4, "big") + original.to_bytes(4, "big") + FRAME[:length]


def snapped(snap_len, *lengths):
    """A classic capture with a snap length."""
    return classic()[:16] + snap_len.to_bytes(4, "big") + classic()[20:24] + b"".join(cut(it) for it in lengths)


def packet(length, number=0):
    """An enhanced packet of the interface with this number."""
    front = b"".join(it.to_bytes(4, "little") for it in (number, 0, 1_000_000, length, 1038))
    return block(6, (front + FRAME[:length] + bytes(-length % 4)).hex())


def section(length, *blocks):
    """A section of these blocks, whose header gives this length; of the right one, if none is given."""
    found = b"".join(blocks)
    number = len(found) if length is None else length
    return block(0x0A0D_0D0A, "4d3c2b1a 01000000", number.to_bytes(8, "little", signed=True).hex()) + found


def interface(snap_len):
    return block(1, "01000000", snap_len.to_bytes(4, "little").hex())


def copied(program, words, capture):
    done = subprocess.run([program, *words], input=capture, capture_output=True, check=False)
    return done.stdout, done.stderr.decode(), done.returncode


def tcpdump_lengths(capture):
    """The captured length and the number of bytes that tcpdump prints of each packet, and what it complains of."""
    with tempfile.NamedTemporaryFile(suffix=".pcap") as file:
        file.write(capture)
        file.flush()
        done = subprocess.run(["tcpdump", "-n", "-t", "-xx", "-r", file.name], capture_output=True, text=True, check=False)
    bytes_of, found = re.compile(r"^\s+0x[0-9a-f]+:\s+((?:[0-9a-f]+ ?)+)"), []
    for line in done.stdout.splitlines():
        told = bytes_of.match(line)
        if told:
            found[-1] += len(told[1].replace(" ", "")) // 2
        else:
            found.append(0)
    said = [line for line in done.stderr.splitlines() if not line.startswith(("reading from file", "Warning"))]
    return found, said


def tshark_fields(capture, *fields):
    """Fields of each packet, and the status."""
    words = ["tshark", "-n", "-r", "-", "-T", "fields", *(word for it in fields for word in ("-e", it))]
    done = subprocess.run(words, input=capture, capture_output=True, check=False)
    return [tuple(line.split("\t")) for line in done.stdout.decode().splitlines()], done.returncode


def snap_lengths(program):
    """Packets that grow are still within the snap length: libpcap reads all bytes of all of them."""
    files = {"a classic file": snapped(96, 96, 60, 96), "a pcapng file": section(-1, interface(96), packet(96), packet(60), packet(96))}
    tried = []
    for name, file in files.items():
        copy, said, status = copied(program, PUSH, file)
        tried.append((f"{name} with a snap length, after --push-vlan", (tcpdump_lengths(copy), said, status), (([100, 64, 100], []), "", 0)))
    return tried


def several_interfaces(program):
    """Two interfaces whose snap lengths are one to libpcap, which reads no other capture: 0, 262144 and what exceeds 31 bits are the same."""
    tried = []
    for pair in ((96, 96), (0, 0), (0, 262_144), (262_144, 0), (65_535, 65_535), (262_142, 262_142), (300_000, 300_000), (262_144, 0xFFFF_FFFF), (0x8000_0000, 0)):
        file = section(-1, interface(pair[0]), packet(60), interface(pair[1]), packet(96, 1), packet(60))
        copy, said, status = copied(program, PUSH, file)
        read = tcpdump_lengths(file), tcpdump_lengths(copy)
        tried.append((f"interfaces with snap lengths {pair}, before and after --push-vlan", (*read, said, status),
                      (([60, 96, 60], []), ([64, 100, 64], []), "", 0)))
    return tried


def sections(program):
    """A copy without some packets, of two sections that give their lengths."""
    one = section(None, interface(0), packet(60), block(0x4000_0BAD, "d97e0000 01020304"), packet(1038))
    copy, said, status = copied(program, ["--write", "--select", "cut"], one + one)
    lengths = [int.from_bytes(copy[at + 16:at + 24], "little", signed=True) for at in (0, copy.index(b"\x0a\x0d\x0d\x0a", 4))]
    read = tshark_fields(copy, "frame.cap_len", "frame.len")
    return [
        ("two sections without some packets", (read, said, status), (([("60", "1038")] * 2, 0), "", 0)),
        ("their lengths", lengths, [-1, -1]),
        ("a custom block that is not to be copied", (0x4000_0BAD).to_bytes(4, "little") in copy, False),
    ]


# Packet type, hardware type, address length, address, protocol type and payload: the loopback device, PPP, a tunnel of IPv4 in IPv4, a link without
# a hardware type, and VLAN tags on PPP.
COOKED_PACKETS = [
    "0000 0304 0006 0000000000000000 0800 4500", "0004 0200 0000 0000000000000000 0800 4500", "0001 0300 0004 7f00000100000000 86dd 6000",
    "0004 fffe 0000 0000000000000000 0806" + 28 * "00", "0004 0200 0000 0000000000000000 88a8 0064 8100 b123 0800 4500",
]
HEADER = re.compile(r"linux_sll 0 packet (\d+) hw (\d+) alen (\d+) addr [0-9a-f]{16} 0x([0-9A-F]{4})")


def cooked_headers(program):
    """Headers of cooked capture v1 whose hardware types give protocol numbers no meaning of their own, and the tags after them."""
    capture = TAGGED_V1 + b"".join(cooked(it, 1)[24:] for it in COOKED_PACKETS)
    lines, said, status = copied(program, ["--plain"], capture)
    found = []
    for line in lines.decode().splitlines():
        told = HEADER.fullmatch(line)
        if told:
            found.append([*told.groups()[:3], f"0x{told[4].lower()}", []])
        elif line.startswith("vlan"):
            found[-1][-1].append(line.split()[line.split().index("vid") + 1])
    read, read_status = tshark_fields(capture, "sll.pkttype", "sll.hatype", "sll.halen", "sll.etype", "ieee8021ad.id", "vlan.id")
    shown = [[*it[:4], [tag for tag in it[4:] if tag]] for it in read]
    return [("headers of cooked capture v1", (found, said, status), (shown, "", read_status))]


def captured(words, seconds=10):
    """What dumpcap captures of the loopback device while datagrams cross it, or nothing if it may not."""
    with tempfile.NamedTemporaryFile() as file:
        child = subprocess.Popen(["dumpcap", "-q", "-i", "lo", "-f", "udp port 20947", "-c", "3", "-w", file.name, *words],
                                 stdout=subprocess.DEVNULL, stderr=subprocess.DEVNULL)
        end = time.monotonic() + seconds
        with socket.socket(socket.AF_INET, socket.SOCK_DGRAM) as out:
            while child.poll() is None and time.monotonic() < end:
                out.sendto(bytes(500), ("127.0.0.1", 20947))
                time.sleep(0.05)
        if child.poll() is None:
            child.kill()
        child.wait()
        file.seek(0)
        return file.read() if child.returncode == 0 else b""


def live(program):
    """A capture of dumpcap with a snap length, in either format."""
    tried = []
    for name, words in (("a classic capture of dumpcap", ["-P"]), ("a capture of dumpcap", [])):
        file = captured(["-s", "96", *words])
        if not file:
            print("left out: captures of dumpcap, which may not capture here")
            return tried
        copy, said, status = copied(program, PUSH, file)
        tried.append((name, (tcpdump_lengths(copy), said, status), (([100] * 3, []), "", 0)))
    return tried


def main():
    words = argparse.ArgumentParser(description=__doc__, formatter_class=argparse.RawDescriptionHelpFormatter)
    words.add_argument("program", metavar="PROGRAM")
    program = os.path.realpath(words.parse_args().program)
    tried = []
    for needed, tests in (("tcpdump", snap_lengths), ("tcpdump", several_interfaces), ("tshark", sections), ("tshark", cooked_headers),
                          ("tshark", readers), ("tshark", interfaces), ("capinfos", interface_names), ("tshark", flags_and_comments), ("tcpdump", llc_lengths),
                          ("tshark", counted_by_tshark), ("tshark", agreement), ("dumpcap", live)):
        missing = [it for it in {needed, "tcpdump"} if not which(it)]
        if missing:
            print(f"left out: {tests.__name__.replace('_', ' ')}, since there is no {' and no '.join(missing)}")
        else:
            tried += tests(program)
    return count(tried)


if __name__ == "__main__":
    sys.exit(main())
