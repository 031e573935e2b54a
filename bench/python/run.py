"""Times `etherpeel.walk` next to dpkt, which reads the same headers, over frames with no protocol of dpkt above them; and
`etherpeel.select` over a capture of 100,000 of these frames in turn.

    python3 bench/python/run.py

It needs both packages: `pip install ./c/python`, and Debian's python3-dpkt or dpkt of PyPI. A line of `walk` has the
microseconds of a frame, the least of nine turns over 1,000 frames, and the ratio; one of `select` the packets that are
selected, and the microseconds of a packet, the least of three turns.
"""
import argparse
import time

MACS = bytes.fromhex("ffffffffffff 020000000001")
ARP = bytes.fromhex("0806 0001 0800 06 04 0001 020000000001 0a000001 000000000000 0a000002") + bytes(18)
TYPE = bytes.fromhex("88b5")  # local experimental
FRAMES = {
    "Ethernet II alone": MACS + TYPE + bytes(46),
    "one VLAN tag": MACS + bytes.fromhex("81000005") + TYPE + bytes(46),
    "two VLAN tags": MACS + bytes.fromhex("88a80005 81000006") + TYPE + bytes(46),
    "ARP": MACS + ARP,
}


def least(read, frames):
    """The microseconds of a frame."""
    times = []
    for _ in range(9):
        begun = time.perf_counter()
        for frame in frames:
            read(frame)
        times.append(time.perf_counter() - begun)
    return min(times) * 1e6 / len(frames)


def captured(frames):
    """A classic capture with these frames."""
    header = bytes.fromhex("a1b2c3d4 00020004 00000000 00000000 0000ffff 00000001")
    return header + b"".join(bytes(8) + len(frame).to_bytes(4, "big") * 2 + frame for frame in frames)


def selecting(etherpeel, expression, capture):
    """How many packets are selected, and the microseconds of a packet, of 100,000."""
    times = []
    for _ in range(3):
        begun = time.perf_counter()
        number = sum(1 for _ in etherpeel.select(expression, etherpeel.capture(capture)))
        times.append(time.perf_counter() - begun)
    return number, min(times) * 1e6 / 100_000


def main():
    argparse.ArgumentParser(description=__doc__, formatter_class=argparse.RawDescriptionHelpFormatter).parse_args()
    import dpkt
    import etherpeel
    sets = {name: [frame] * 1000 for name, frame in FRAMES.items()}
    sets["all of these in turn"] = list(FRAMES.values()) * 250
    for name, frames in sets.items():
        ours, others = least(etherpeel.walk, frames), least(dpkt.ethernet.Ethernet, frames)
        print(f"{name:21} {ours:5.2f} {others:5.2f} {ours / others:5.2f}")
    capture = captured(list(FRAMES.values()) * 25_000)
    for expression in ("vlan 7", "inner vlan 6", "not arp", "greater 1"):
        number, microseconds = selecting(etherpeel, expression, capture)
        print(f"select {expression!r:14} {number:7,} {microseconds:5.2f}")


if __name__ == "__main__":
    main()
