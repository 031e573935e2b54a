#!/usr/bin/env python3
"""make.py FOLDER MEGABYTES: classic captures of about so many megabytes, made from a fixed seed.

mixed.pcap: one packet of three has tags, a SecTag or ARP, the others are IPv4 frames of 60 to 1,500 bytes. small.pcap: frames of 64 bytes, a fifth
of them tagged.
"""
import argparse
import os
import random
import struct

BEFORE = bytes.fromhex("ffffffffffff020000000001")
ARP = bytes.fromhex("08060001080006040001020000000001c0000201000000000000c0000202")


def tagged(rng):
    """Up to two VLAN tags, a SecTag, or none, and what follows."""
    tags = b"".join(struct.pack(">HH", rng.choice([0x8100, 0x88A8]), rng.randrange(65536)) for _ in range(rng.randrange(3)))
    sec_tag = struct.pack(">HBBI", 0x88E5, 0, 0, rng.randrange(1 << 32)) if rng.randrange(4) == 0 else b""
    return BEFORE + tags + sec_tag + (ARP if rng.randrange(2) else b"\x08\x00" + rng.randbytes(rng.randrange(40)))


def ipv4(rng, size):
    return BEFORE + b"\x08\x00" + rng.randbytes(size - 14)


def small(rng):
    tag = struct.pack(">HH", 0x8100, rng.randrange(65536)) if rng.randrange(5) == 0 else b""
    return (BEFORE + tag + b"\x08\x00" + rng.randbytes(50))[:64]


def write(path, frames, size):
    """A capture of the frames that the function makes, up to the size."""
    with open(path, "wb") as file:
        file.write(struct.pack("<IHHIIII", 0xA1B2C3D4, 2, 4, 0, 0, 262144, 1))
        count = 0
        while file.tell() < size:
            frame = frames(count)
            file.write(struct.pack("<IIII", 1700000000 + count // 1000, count % 1000000, len(frame), len(frame)) + frame)
            count += 1
    print(f"{path}: {count} packets")


def main():
    words = argparse.ArgumentParser(description=__doc__, formatter_class=argparse.RawDescriptionHelpFormatter)
    words.add_argument("folder", metavar="FOLDER")
    words.add_argument("megabytes", metavar="MEGABYTES", type=float)
    given = words.parse_args()
    folder, size = given.folder, int(given.megabytes * 1_000_000)
    os.makedirs(folder, exist_ok=True)
    rng = random.Random(5)
    pool = [tagged(rng) for _ in range(500)] + [ipv4(rng, rng.randrange(60, 1501)) for _ in range(1000)]
    write(f"{folder}/mixed.pcap", lambda count: pool[rng.randrange(500)] if count % 3 == 0 else pool[500 + rng.randrange(1000)], size)
    pool = [small(rng) for _ in range(1000)]
    write(f"{folder}/small.pcap", lambda count: pool[rng.randrange(1000)], size)


if __name__ == "__main__":
    main()
