"""Compares the packets that `ether_capture --select` selects with those that tcpdump selects, where the words of both mean the same.

    python3 captures/filters.py PROGRAM [EXPRESSIONS] [PACKETS]

PROGRAM is the built program. Expressions and frames are drawn by a fixed seed: expressions without `vlan` over frames without tags, and
`vlan`, with an identifier or without, over frames with at most one tag. The last line is 'N passed, M failed'.
"""

import argparse
import os
import random
import shutil
import struct
import subprocess
import sys
import tempfile

ADDRESSES = [bytes.fromhex(it) for it in ("ffffffffffff", "01005e000001", "020000000001", "020000000002", "3aeeb62ff6d7")]
TYPES = [0x0800, 0x0806, 0x86DD, 0x88B5, 0x0026]
IDS = [1, 5, 7, 291, 4095]


def frame(draw, tagged):
    """A frame, and its length before it was cut."""
    front = draw.choice(ADDRESSES) + draw.choice(ADDRESSES)
    if tagged and draw.random() < 0.7:
        front += struct.pack(">HH", 0x8100, draw.choice(IDS) | draw.randrange(16) << 12)
    whole = front + struct.pack(">H", draw.choice(TYPES)) + draw.randbytes(draw.randrange(28, 120))
    return whole, len(whole) + draw.choice((0, 0, 100))


def capture(draw, count, tagged):
    """A classic capture whose packets have their numbers as seconds."""
    parts = [struct.pack("<IHHIIII", 0xA1B2C3D4, 2, 4, 0, 0, 262144, 1)]
    for number in range(1, count + 1):
        bytes_, original = frame(draw, tagged)
        parts += [struct.pack("<IIII", number, 0, len(bytes_), original), bytes_]
    return b"".join(parts)


def colons(address):
    return ":".join(f"{it:02x}" for it in address)


def written(draw, address):
    """An address with colons or without."""
    return draw.choice((colons, bytes.hex))(address)


def primitive(draw):
    """A word or words that both programs have."""
    kind = draw.randrange(9)
    if kind < 2:
        return draw.choice(("arp", "ip", "ip6"))
    if kind == 2:
        return f"ether proto {draw.choice(TYPES[:4])}"
    if kind < 6:
        return f"ether {draw.choice(('src', 'dst', 'host'))} {written(draw, draw.choice(ADDRESSES))}"
    if kind == 6:
        return draw.choice(("ether broadcast", "ether multicast"))
    return f"{draw.choice(('less', 'greater'))} {draw.randrange(40, 240)}"


def expression(draw, depth):
    """An expression without `vlan`, with parentheses wherever two operators meet."""
    kind = draw.randrange(4) if depth else 0
    if kind == 0:
        return primitive(draw)
    if kind == 1:
        return f"not ({expression(draw, depth - 1)})"
    operator = draw.choice(("and", "or"))
    return f" {operator} ".join(f"({expression(draw, depth - 1)})" for _ in range(draw.randrange(2, 4)))


def by_program(program, words, name):
    lines = subprocess.run([program, "--select", words, name], stdout=subprocess.PIPE, check=False).stdout.decode()
    return [int(line.split()[1]) for line in lines.splitlines() if line.startswith("frame")]


def by_tcpdump(words, name):
    """The packets that tcpdump writes, by their seconds."""
    run = subprocess.run(["tcpdump", "-r", name, "-w", "-", words], capture_output=True, check=False)
    if b"expression rejects all packets" in run.stderr:
        return []
    run.check_returncode()
    made, found, at = run.stdout, [], 24
    while at < len(made):
        number, _, captured, _ = struct.unpack_from("<IIII", made, at)
        found.append(number)
        at += 16 + captured
    return found


def main():
    words = argparse.ArgumentParser(description=__doc__, formatter_class=argparse.RawDescriptionHelpFormatter)
    words.add_argument("program", metavar="PROGRAM")
    words.add_argument("expressions", metavar="EXPRESSIONS", nargs="?", type=int, default=200)
    words.add_argument("packets", metavar="PACKETS", nargs="?", type=int, default=20_000)
    given = words.parse_args()
    program, expressions, packets = os.path.realpath(given.program), given.expressions, given.packets
    if not shutil.which("tcpdump"):
        print("left out: tcpdump is not installed\n0 passed, 0 failed")
        return 0
    draw = random.Random(5)
    passed = 0
    with tempfile.TemporaryDirectory() as folder:
        names = [os.path.join(folder, it) for it in ("untagged", "tagged")]
        for name, tagged in zip(names, (False, True)):
            with open(name, "wb") as file:
                file.write(capture(draw, packets, tagged))
        asked = [(expression(draw, 3), names[0]) for _ in range(expressions - 6)]
        asked += [(words, names[1]) for words in ("vlan", *(f"vlan {it}" for it in IDS))]
        for words, name in asked:
            same = by_program(program, words, name) == by_tcpdump(words, name)
            passed += same
            if not same:
                print(f"{words}: other packets")
    print(f"{passed} passed, {len(asked) - passed} failed")
    return 1 if passed < len(asked) else 0


if __name__ == "__main__":
    sys.exit(main())
