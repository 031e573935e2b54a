"""Runs the examples of the crate, which cargo has built, on made input, and compares what they print."""
import os
import subprocess
import tempfile

from building import CRATE

TOP = os.path.dirname(os.path.dirname(CRATE))
ADDRESSES = "ffffffffffff 3aeeb62ff6d7"
TAGGED, UNTAGGED = f"{ADDRESSES} 8100 b123 0800 4500", f"{ADDRESSES} 0800 4500"
TWICE, CUT = f"{ADDRESSES} 88a8 0005 8100 0007 0806", f"{ADDRESSES} 8100 b1"
SOURCE, DESTINATION = "[58, 238, 182, 47, 246, 215]", "[255, 255, 255, 255, 255, 255]"
LINK = f"Ethernet2Header {{ source: {SOURCE}, destination: {DESTINATION}, ether_type: "
C_TAG = "0x8100 (Customer VLAN Tag (C-TAG) as defined in IEEE Std 802.1Q)"
TAG = "SingleVlanHeader { pcp: VlanPcp(5), drop_eligible_indicator: true, vlan_id: VlanId(291), ether_type: "
IPV4 = "0x0800 (Internet Protocol version 4 (IPv4))"


def capture(*frames):
    """A classic capture file of Ethernet frames."""
    file = bytes.fromhex("a1b2c3d4 0002 0004 00000000 00000000 0000ffff 00000001")
    for frame in map(bytes.fromhex, frames):
        file += bytes(8) + len(frame).to_bytes(4, "big") * 2 + frame
    return file


def run(name, *words, given=""):
    program = os.path.join(CRATE, "target", "debug", "examples", name)
    ran = subprocess.run([program, *words], input=given, capture_output=True, text=True)
    return ran.stdout + ran.stderr


def failures():
    """For each example None, or what is wrong."""
    with tempfile.TemporaryDirectory() as folder:
        path, copy = os.path.join(folder, "f.pcap"), os.path.join(folder, "copy.pcap")
        with open(path, "wb") as file:
            file.write(capture(TAGGED, UNTAGGED, TWICE, CUT))
        with open(os.path.join(CRATE, "examples", "walk.rs"), encoding="utf-8") as source:
            program = source.read().split("\n", 1)[1]
        with open(os.path.join(TOP, "README.md"), encoding="utf-8") as page:
            told = f"```rust\n{program}```\n\n`cargo run` prints `{run('walk').strip()}`." in page.read()
        yield None if told else "README.md does not have the example walk, or what it prints"
        headers = run("headers", given=f"{TAGGED.replace(' ', '')}\n{CUT.replace(' ', '')}\n").split("\n")
        wanted = [
            f"{LINK}{C_TAG} }}",
            f"{TAG}{IPV4} }}",
            f"2 bytes are left, EtherType({IPV4})",
            f"{LINK}{C_TAG} }}",
            headers[4] if headers[4].startswith("at offset 14: VLAN Header Error: ") else "a fault at offset 14",
            f"1 bytes are left, EtherType({C_TAG})",
            "",
        ]
        yield None if headers == wanted else f"the example headers printed {headers}"
        found = run("vlans", path)
        yield None if found == "[]: 2\n[5, 7]: 1\n[291]: 1\n" else f"the example vlans printed {found}"
        found = run("filter", "vlan 7 or cut or refused", path)
        yield None if found == "3: 22 bytes\n4: 15 bytes\n" else f"the example filter printed {found}"
        found = run("rewriter", "5", "100", path, copy)
        with open(copy, "rb") as file:
            same = file.read() == capture(TAGGED, UNTAGGED, TWICE.replace("0005", "0064"), CUT)
        yield None if same and not found else f"the example rewriter wrote something else, and printed {found}"
