"""Each output of `ether_capture`, over captures of bench/captures/make.py, compared with its lines."""
import re
import struct
import sys

from . import builds, callgrind

OUTPUTS = {
    "lines": [], "--plain": ["--plain"], "brief": ["--format", "brief"], "json": ["--format", "json"],
    "one column": ["--fields", "vlan.vid"], "two columns": ["--fields", "vlan.vid,eth.src"],
    "four columns": ["--fields", "eth.dst,eth.src,eth.type,vlan.vid"],
    "eight columns": ["--fields", "frame.number,frame.time,eth.src,eth.dst,eth.type,vlan.vid,arp.spa,rest.type"],
    "--stats": ["--stats"], "--stats of one column": ["--stats", "--fields", "vlan.vid"], "--write": ["--write"],
    "--write --cut-to-headers": ["--write", "--cut-to-headers"], "--write --select arp": ["--write", "--select", "arp"],
}
CAPTURES = {"mixed": "60 to 1,500 bytes", "small": "64 bytes"}
MEGABYTES = 4
# What is also counted of the second capture as a pcapng file.
PCAPNG = ["lines", "--plain", "--write"]


def rows(build, room):
    """Of each output and capture the name, the instructions of a packet, and those of the lines."""
    made = builds.run(sys.executable, f"{builds.TOP}/bench/captures/make.py", f"{room}/captures", str(MEGABYTES))
    for name, packets in CAPTURES.items():
        count, lines = int(re.search(rf"{name}\.pcap: (\d+) packets", made)[1]), None
        for output, words in OUTPUTS.items():
            here = callgrind.total([build.capture, *words], f"{room}/captures/{name}.pcap") / count
            lines = lines or here
            yield f"{output}: {packets}", here, None if output == "lines" else lines
    classic, path = f"{room}/captures/small.pcap", f"{room}/captures/small.pcapng"
    with open(classic, "rb") as source, open(path, "wb") as file:
        file.write(as_pcapng(source.read()))
    for output in PCAPNG:
        here = callgrind.total([build.capture, *OUTPUTS[output]], path) / count
        yield f"{output}: {packets}, pcapng", here, lines


def as_pcapng(capture):
    """A classic capture, little-endian and in microseconds, as a section with one interface and an enhanced packet for each record."""
    blocks, at = [block(0x0A0D0D0A, struct.pack("<IHHq", 0x1A2B3C4D, 1, 0, -1)), block(1, struct.pack("<HHI", 1, 0, 262_144))], 24
    while at < len(capture):
        seconds, micros, captured, original = struct.unpack_from("<IIII", capture, at)
        time = seconds * 1_000_000 + micros
        packet = capture[at + 16:at + 16 + captured]
        blocks.append(block(6, struct.pack("<IIIII", 0, time >> 32, time & 0xFFFFFFFF, captured, original) + packet.ljust(-(-captured // 4) * 4, b"\0")))
        at += 16 + captured
    return b"".join(blocks)


def block(kind, body):
    """A block of a pcapng file."""
    size = struct.pack("<I", 12 + len(body))
    return struct.pack("<I", kind) + size + body + size
