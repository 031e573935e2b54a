"""Tests `ether_capture --select` by tshark: 240 drawn expressions over fields, on 20,000 drawn packets.

`other_programs.py` runs `agreement`. Only what means the same in both is drawn: tags are announced by 0x8100, since tshark names the fields of other
tags differently, and values fit in their fields. tshark says in one run which packets each display filter selects: the packets are a second apart,
and it counts them by the second.
"""
import random
import subprocess
import tempfile
from datetime import UTC, datetime
from shutil import which

from formats import drawn

PACKETS, EXPRESSIONS = 20_000, 240
BEGIN = 1_700_000_000  # the second of the first packet
# Our names, those of tshark, and for numbers how many bits they have.
NUMBERS = [("vlan.vid", "vlan.id", 12), ("vlan.pcp", "vlan.priority", 3), ("vlan.dei", "vlan.dei", 1), ("vlan.type", "vlan.etype", 16),
           ("eth.type", "eth.type", 16), ("arp.op", "arp.opcode", 16), ("arp.hrd", "arp.hw.type", 16), ("arp.pro", "arp.proto.type", 16),
           ("arp.hln", "arp.hw.size", 8), ("arp.pln", "arp.proto.size", 8), ("macsec.an", "macsec.AN", 2), ("macsec.pn", "macsec.PN", 32)]
ADDRESSES = [("eth.dst", "eth.dst"), ("eth.src", "eth.src"), ("arp.sha", "arp.src.hw_mac"), ("arp.tha", "arp.dst.hw_mac")]
INTERNET = [("arp.spa", "arp.src.proto_ipv4"), ("arp.tpa", "arp.dst.proto_ipv4")]
LENGTHS = [("frame.original", "frame.len"), ("frame.captured", "frame.cap_len")]
LIKELY = {16: [0x0806, 0x88E5, 0x88B5, 0x8100, 1, 2, 0x0800], 8: [4, 6], 3: range(8), 2: range(4), 1: range(2)}
# Sets, which can't be among the filters of one run, since commas separate these.
SETS = [(f"{ours} in {{{told}}}", f"{theirs} in {{{told}}}") for ours, theirs, told in
        [("arp.op", "arp.opcode", "1, 3"), ("vlan.vid", "vlan.id", "1, 291, 4094, 17, 2000"), ("vlan.type", "vlan.etype", "0x0806, 0x88E5")]]
RELATIONS = ["==", "!=", "<", "<=", ">", ">="]


def number(draw, bits):
    return draw.choice(LIKELY[bits]) if bits in LIKELY and draw.random() < .8 else draw.randrange(1 << bits)


def of_number(draw):
    """A test of a number, as we write it and as tshark does."""
    ours, theirs, bits = draw.choice(NUMBERS)
    kind = draw.randrange(8)
    if kind == 0:
        return ours, theirs
    if kind == 1:
        values = [str(number(draw, bits)) for _ in range(draw.randrange(1, 5))]
        return f"{ours} in {{{', '.join(values)}}}", f"({' or '.join(f'{theirs} == {it}' for it in values)})"
    mask = f" & {hex(draw.randrange(1, 1 << bits))}" if kind == 2 and bits > 1 else ""
    test = f"{mask} {draw.choice(RELATIONS)} {number(draw, bits)}"
    return ours + test, theirs + test


def of_address(draw, frames):
    """.. of an address of Ethernet, or of some of its bytes."""
    ours, theirs = draw.choice(ADDRESSES)
    frame = draw.choice(frames)
    at = draw.choice([0, 6])
    if draw.randrange(2):
        test = f" {draw.choice(RELATIONS)} {frame[at:at + 6].hex(':')}"
    else:
        first = draw.randrange(5)
        count = draw.randrange(2, 7 - first)
        test = f"[{first}:{count}] {draw.choice(RELATIONS)} {frame[at + first:at + first + count].hex(':')}"
    return ours + test, theirs + test


def of_internet(draw):
    """.. of an address of the Internet Protocol."""
    ours, theirs = draw.choice(INTERNET)
    test = f" {draw.choice(RELATIONS)} {'.'.join(str(draw.randrange(256)) for _ in range(4))}"
    return ours + test, theirs + test


def of_length(draw, frames):
    """.. of the length of a packet. Of one frame in two some bytes were not captured."""
    ours, theirs = draw.choice(LENGTHS)
    mask = f" & {hex(draw.randrange(1, 128))}" if draw.randrange(4) == 0 else ""
    test = f"{mask} {draw.choice(RELATIONS)} {len(draw.choice(frames)) + draw.choice([0, 0, 7, 8])}"
    return ours + test, theirs + test


def of_time(draw):
    """.. of the time of a packet."""
    half = draw.randrange(2 * PACKETS)
    moment = datetime.fromtimestamp(BEGIN + half // 2, UTC).strftime("%Y-%m-%dT%H:%M:%S") + draw.choice([".5Z", ".500000000Z"] if half % 2 else ["Z", ".0Z"])
    relation = draw.choice(RELATIONS)
    return f"frame.time {relation} " + draw.choice([moment, f'"{moment}"']), f'frame.time {relation} "{moment}"'


def expression(draw, frames, depth):
    """An expression, as we write it and as tshark does."""
    kind = draw.randrange(6) if depth else 0
    if kind < 3:
        kinds = [of_number, of_number, of_number, lambda it: of_address(it, frames), of_internet, lambda it: of_length(it, frames), of_time]
        return draw.choice(kinds)(draw)
    if kind == 3:
        ours, theirs = expression(draw, frames, depth - 1)
        return f"{draw.choice(['not', '!'])} ({ours})", f"not ({theirs})"
    operator = draw.choice(["and", "or", "&&", "||"])
    left, right = expression(draw, frames, depth - 1), expression(draw, frames, depth - 1)
    return f"({left[0]}) {operator} ({right[0]})", f"({left[1]}) {operator} ({right[1]})"


def capture(frames):
    """A classic capture in which the packets are a second apart; each second packet has lost seven bytes. One follows that
    is not compared, since tshark does not count a packet at the very end."""
    front = bytes.fromhex("a1b2c3d4 0002 0004 00000000 00000000 0000ffff 00000001")
    numbers = ((BEGIN + at, 0, len(it), len(it) + at % 2 * 7) for at, it in enumerate([*frames, bytes(60)]))
    records = (b"".join(it.to_bytes(4, "big") for it in number) + frame for number, frame in zip(numbers, [*frames, bytes(60)]))
    return front + b"".join(records)


def selected_by_tshark(path, filters):
    """For each display filter the numbers of the packets that it selects, from 1 on."""
    done = subprocess.run(["tshark", "-n", "-q", "-r", path, "-z", "io,stat,1," + ",".join(filters)], capture_output=True, text=True, check=False)
    found = [set() for _ in filters]
    for line in done.stdout.splitlines():
        if "<>" in line:
            _, second, *counts = line.split("|")
            for at, count in enumerate(counts[:-1:2]):
                if int(count):
                    found[at].add(int(second.split()[0]) + 1)
    return found


def selected_by_one(path, display_filter):
    """.. and those of one display filter alone."""
    words = ["-Y", display_filter, "-T", "fields", "-e", "frame.number"]
    done = subprocess.run(["tshark", "-n", "-r", path, *words], capture_output=True, text=True, check=False)
    return {int(line) for line in done.stdout.split()} - {PACKETS + 1}


def selected(program, path, text):
    """.. and those that the program selects."""
    words = ["--select", text, "--fields", "frame.number", path]
    done = subprocess.run([program, *words], capture_output=True, text=True, check=False)
    return {int(line) for line in done.stdout.split()} - {PACKETS + 1} if done.returncode == 0 else done.stderr


def agreement(program):
    """Each expression selects the packets that tshark's display filter selects."""
    if not which("tshark"):
        print("left out: expressions with tshark, since it is not there")
        return []
    draw = random.Random(20261130)
    frames = [it for it in drawn(2 * PACKETS) if it[12:14] != b"\x88\xa8"][:PACKETS]
    pairs = [expression(draw, frames, 2) for _ in range(EXPRESSIONS)]
    with tempfile.NamedTemporaryFile(suffix=".pcap") as file:
        file.write(capture(frames))
        file.flush()
        theirs = selected_by_tshark(file.name, [it for _, it in pairs])
        theirs += [selected_by_one(file.name, it) for _, it in SETS]
        pairs += SETS
        tried = [(f"expression {ours}", selected(program, file.name, ours), wanted) for (ours, _), wanted in zip(pairs, theirs)]
    some = sum(0 < len(it) < PACKETS for it in theirs)
    return [*tried, ("expressions that select some packets", some > EXPRESSIONS // 2, True)]
