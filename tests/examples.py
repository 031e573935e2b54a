"""Tests what two examples print: the switch and the rewriter of VLAN identifiers, with nothing but Python.

    python3 tests/examples.py SWITCH REWRITER

SWITCH and REWRITER are the built programs. The last line is 'N passed, M failed'.
"""

import argparse
import os
import subprocess
import sys

from programs import count, run


def captured(interfaces, packets):
    """A pcapng capture: the link types of its interfaces, and of each packet the number of its interface and its bytes."""
    blocks = [(0x0A0D0D0A, bytes.fromhex("1a2b3c4d 00010000 ffffffffffffffff"))]
    blocks += [(1, link_type.to_bytes(2, "big") + bytes(6)) for link_type in interfaces]
    for interface, packet in packets:
        head = interface.to_bytes(4, "big") + bytes(8) + len(packet).to_bytes(4, "big") * 2
        blocks.append((6, head + packet + bytes(-len(packet) % 4)))
    return b"".join(
        kind.to_bytes(4, "big") + (12 + len(body)).to_bytes(4, "big") + body + (12 + len(body)).to_bytes(4, "big") for kind, body in blocks
    )


def address(first, last):
    return f"{first:02x}{last:010x}"


def tagged(destination, source, vlan_id):
    """A frame of Ethernet II with one VLAN tag before IPv4."""
    return address(*destination) + address(*source) + f"8100b0{vlan_id:02x}0800"


A, B, ALL, GROUP = (2, 0xA), (2, 0xB), (0xFF, 0xFF), (3, 0xA)
# The port of a frame, the frame, and the ports that it goes to of three trunks.
ON_TRUNKS = [
    ("A was never seen", 2, tagged(A, B, 10), [1, 3]),
    ("B was seen on port 2", 1, tagged(B, A, 10), [2]),
    ("A was seen on port 1", 2, tagged(A, B, 10), [1]),
    ("a broadcast", 1, tagged(ALL, A, 10), [2, 3]),
    ("a group that is A but for one bit", 2, tagged(GROUP, B, 10), [1, 3]),
    ("back to where it came from", 2, tagged(B, (2, 0xC), 10), []),
    ("from a group", 1, tagged(B, GROUP, 10), []),
    ("A in another VLAN", 2, tagged(A, B, 11), [1, 3]),
    ("B in the other VLAN, on port 2", 3, tagged(B, A, 11), [2]),
    ("A in the other VLAN, on port 3", 2, tagged(A, B, 11), [3]),
    ("A is still on port 1 in the first", 2, tagged(A, B, 10), [1]),
    ("B moves to port 3", 3, tagged(A, B, 10), [1]),
    ("B is on port 3 now", 1, tagged(B, A, 10), [3]),
    ("to itself", 1, tagged(A, A, 10), []),
    ("A moves, and is where it came from", 2, tagged(A, A, 10), []),
    ("A is on port 2 now", 3, tagged(A, B, 10), [2]),
]
NOT_SWITCHED = [
    ("no tag", 1, tagged(B, A, 10)[:24] + "08", []),
    ("a tag cut short", 1, tagged(B, A, 10)[:34], []),
    ("a header cut short", 1, tagged(B, A, 10)[:26], []),
    ("A is not learned", 2, tagged(A, B, 10), [1, 3]),
]
# More stations than the table has places for, at port 3 and in another VLAN: those of other ports and VLANs are still known.
FLOODED = [("A on port 1", 1, tagged(ALL, A, 10), [2, 3]), ("B on port 2", 2, tagged(ALL, B, 10), [1, 3])]
FLOODED += [(f"station {n} on port 3", 3, tagged(ALL, (2, n << 8), 10), [1, 2]) for n in range(1, 1000)]
FLOODED += [(f"station {n} in VLAN 11", 2, tagged(ALL, (2, n << 8), 11), [1, 3]) for n in range(1, 1000)]
FLOODED += [("A is still known", 3, tagged(A, (2, 1), 10), [1]), ("B is still known", 3, tagged(B, (2, 1), 10), [2])]

# From 02::0A to all stations, and from 02::0B to it: without a tag, and with one of VLAN 10, for the second PCP 7 and DEI 1.
REQUEST, TAGGED_REQUEST = "ffffffffffff02000000000a080645", "ffffffffffff02000000000a8100000a080645"
REPLY, TAGGED_REPLY = "02000000000a02000000000b080645", "02000000000a02000000000b8100f00a080645"
# Ports 1 and 2 are access ports of VLAN 10, 3 and 5 trunks, 4 an access port of VLAN 20: a frame, and those that leave.
MIXED = ["10", "10", "trunk", "20", "trunk"]
ON_MIXED = [
    ("a request", 1, REQUEST, [(2, REQUEST), (3, TAGGED_REQUEST), (5, TAGGED_REQUEST)]),
    ("A was seen on port 1", 3, TAGGED_REPLY, [(1, REPLY)]),
    ("A in another VLAN", 4, REPLY, [(port, "02000000000a02000000000b81000014080645") for port in (3, 5)]),
    ("B moves to port 2", 2, REPLY, [(1, REPLY)]),
    ("a tag at an access port", 1, TAGGED_REPLY, []),
    ("no tag at a trunk", 3, REPLY, []),
    ("cut short", 1, REPLY[:26], []),
    ("no byte", 1, "", []),
    ("A moves to port 3", 3, TAGGED_REQUEST, [(1, REQUEST), (2, REQUEST), (5, TAGGED_REQUEST)]),
    ("to it with its tag", 5, TAGGED_REPLY, [(3, TAGGED_REPLY)]),
    ("a service tag at a trunk", 5, TAGGED_REPLY.replace("8100f00a", "88a8f00a"), []),
    ("a priority alone", 2, TAGGED_REPLY.replace("f00a", "e000"), [(3, TAGGED_REPLY.replace("f00a", "e00a"))]),
    ("a second tag at a trunk", 3, TAGGED_REQUEST.replace("8100000a", "8100000a81000014"), []),
    ("a second tag after a priority alone", 1, TAGGED_REQUEST.replace("8100000a", "8100000081000014"), []),
    ("the identifier 4095", 3, TAGGED_REQUEST.replace("8100000a", "81000fff"), []),
    ("a bridge protocol data unit", 1, "0180c200000002000000000c0026424203", []),
]

MULTICAST_VLAN_5 = "01005e000001020000000001810000050800"
# A link type, a packet, and its line if VLAN 5 becomes VLAN 7.
REWRITTEN = [
    ("a tag", 1, MULTICAST_VLAN_5, MULTICAST_VLAN_5.replace("81000005", "81000007")),
    ("another identifier", 1, MULTICAST_VLAN_5.replace("0005", "0006"), MULTICAST_VLAN_5.replace("0005", "0006")),
    ("a cooked capture of Ethernet", 113, "00040001000602000000000100008100" + "e0050800", "00040001000602000000000100008100" + "e0070800"),
    ("cooked capture v2", 276, "8100000000000003000100060200000000010000" + "00050800", "00070800"),
    ("raw IP", 101, "45000014", None),
]


def passed(switch, ports, rows):
    """What a switch prints for the frames of these rows, one after the other, and what it should."""
    packets = [(port - 1, bytes.fromhex(frame)) for _, port, frame, _ in rows]
    text, status = run(switch, ports, captured([1] * len(ports), packets))
    lines = text.splitlines()
    for name, _, frame, leaving in rows:
        wanted = [f"{one} {frame}" if isinstance(one, int) else f"{one[0]} {one[1]}" for one in leaving]
        yield name, lines[: len(wanted)], wanted
        del lines[: len(wanted)]
    yield "all frames", (lines, status), ([], 0)


def refused(program, words, capture):
    """What a program prints before it gives up, whether it says why, and its status."""
    done = subprocess.run([program, *words], input=capture, capture_output=True, check=False)
    return done.stdout.decode(), bool(done.stderr), done.returncode


def main():
    words = argparse.ArgumentParser(description=__doc__, formatter_class=argparse.RawDescriptionHelpFormatter)
    words.add_argument("switch", metavar="SWITCH")
    words.add_argument("rewriter", metavar="REWRITER")
    given = words.parse_args()
    switch, rewriter = os.path.realpath(given.switch), os.path.realpath(given.rewriter)
    trunks = ["trunk"] * 3
    tried = [*passed(switch, trunks, ON_TRUNKS), *passed(switch, trunks, NOT_SWITCHED), *passed(switch, trunks, FLOODED)]
    tried += passed(switch, MIXED, ON_MIXED)
    for name, link_type, packet, line in REWRITTEN:
        found = run(rewriter, ["5", "7"], captured([link_type], [(0, bytes.fromhex(packet))]))
        tried.append((name, found, (f"{line}\n" if line else "", 0)))
    request = captured([1, 1, 1], [(0, bytes.fromhex(REQUEST)), (2, bytes.fromhex(REPLY))])
    sent = f"2 {REQUEST}\n"
    tried.append(("an interface that is no port", refused(switch, ["10", "10"], request), (sent, True, 1)))
    tried.append(("another link type", refused(switch, ["10"], captured([113], [(0, b"")])), ("", True, 1)))
    tried.append(("a cut capture", refused(switch, ["10", "10", "10"], request[:-1]), (f"2 {REQUEST}\n3 {REQUEST}\n", True, 1)))
    tried += passed(switch, ["10"] * 255, [("as many ports as there can be", 255, REQUEST, [(port, REQUEST) for port in range(1, 255)])])
    tried.append(("one port more", refused(switch, ["10"] * 256, request), ("", True, 1)))
    for words in (["0"], ["4095"], ["4096"], ["access"], ["10", ""]):
        tried.append((f"ports {words}", refused(switch, words, request), ("", True, 1)))
    for words in ([], ["5"], ["5", "4096"]):
        tried.append((f"identifiers {words}", refused(rewriter, words, request), ("", True, 1)))
    tried.append(("no capture", refused(rewriter, ["5", "7"], b""), ("", True, 1)))
    return count(tried)


if __name__ == "__main__":
    sys.exit(main())
