"""`ether_capture --write --select`, compared with `tcpdump -w` with a filter that selects the same packets."""
import random
import struct

from . import callgrind

TERMS, PACKETS = [1, 4, 16, 64], 20_000


def capture(is_tagged, numbers):
    """A capture of packets of 64 bytes that have one VLAN tag, or none."""
    records = [struct.pack("<IHHiIII", 0xA1B2C3D4, 2, 4, 0, 0, 262_144, 1)]
    for second in range(PACKETS):
        tag = struct.pack(">HH", 0x8100, numbers.randint(1, 4094)) if is_tagged else b""
        frame = bytes.fromhex("ffffffffffff020000000001") + tag + b"\x08\x00"
        records.append(struct.pack("<IIII", second, 0, 64, 64) + frame.ljust(64, b"\0"))
    return b"".join(records)


def rows(build, room):
    """Of each number of terms the name, the instructions of a packet, and those of tcpdump."""
    numbers = random.Random(1)
    ids = numbers.sample(range(1, 4095), max(TERMS))
    for packets in ("tagged", "untagged"):
        path = f"{room}/{packets}.pcap"
        with open(path, "wb") as file:
            file.write(capture(packets == "tagged", numbers))
        for terms in TERMS:
            own = " or ".join(f"vlan {it}" for it in ids[:terms])
            other = "vlan and (" + " or ".join(f"ether[14:2] & 0xfff = {it}" for it in ids[:terms]) + ")"
            here = callgrind.total([build.capture, "--write", "--select", own], path) / PACKETS
            there = callgrind.total(["tcpdump", "-r", "-", "-w", "-", other], path) / PACKETS
            yield f"{packets}, {terms} terms", here, there
