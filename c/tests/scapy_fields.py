"""Compares the package with scapy, field by field, on 20,000 made frames: scapy_fields.py FOLDER, where FOLDER has the package.

The frames are whole, with each of their fields drawn from a fixed seed. Then captures of them that scapy writes, packet by packet. The
last line is 'N passed, M failed'.
"""
import logging
import random
import socket
import sys
import tempfile

from checks import words

logging.getLogger("scapy").setLevel(logging.ERROR)
sys.path.insert(0, words("FOLDER")[0])
import etherpeel
from scapy.contrib.macsec import MACsec
from scapy.layers.l2 import ARP, CookedLinux, Dot1AD, Dot1Q, Ether
from scapy.packet import bind_layers
from scapy.utils import PcapNgWriter, PcapWriter, RawPcapReader

FRAMES = 20000
VLAN_TYPES, MACSEC, ARP_TYPE = (0x8100, 0x88A8, 0x9100), 0x88E5, 0x0806
draw = random.Random(2)

# scapy knows neither the older type of a VLAN tag nor what follows a cooked capture but for a few types
for lower, field in ((Ether, "type"), (Dot1Q, "type"), (Dot1AD, "type"), (CookedLinux, "proto")):
    for upper, number in ((Dot1Q, 0x8100), (Dot1AD, 0x88A8), (Dot1Q, 0x9100), (MACsec, MACSEC), (ARP, ARP_TYPE)):
        bind_layers(lower, upper, **{field: number})

# ---- frames


def u16(n):
    return n.to_bytes(2, "big")


def some_bytes(n):
    return draw.getrandbits(8 * n).to_bytes(n, "big") if n else b""


def typed(depth=0):
    """An ether type and what it announces, with no more than five tags."""
    kinds = ("vlan", "vlan", "macsec", "arp", "other") if depth < 5 else ("arp", "other")
    kind = draw.choice(kinds)
    if kind == "vlan":
        return u16(draw.choice(VLAN_TYPES)) + some_bytes(2) + typed(depth + 1)
    if kind == "macsec":
        return u16(MACSEC) + sec_tag(depth)
    if kind == "arp":
        return u16(ARP_TYPE) + arp()
    return u16(draw.choice((0x0A00, 0x1234, 0x9999))) + some_bytes(draw.randrange(40))


def sec_tag(depth):
    """A SecTag and its payload, to the end of the frame or of the length that it names."""
    control = draw.randrange(128)
    payload = some_bytes(draw.randrange(1, 40)) if control & 0x0C else typed(depth + 1)
    short_len = len(payload) if len(payload) < 48 and draw.random() < 0.5 else 0
    after = some_bytes(16) if short_len else b""
    sci = some_bytes(8) if control & 0x20 else b""
    return bytes((control, draw.choice((0, 64, 128, 192)) + short_len)) + some_bytes(4) + sci + payload + after


def arp():
    """An ARP packet and its padding, mostly of Ethernet and IPv4."""
    n, m = draw.choice(((6, 4), (6, 4), (6, 16), (draw.randrange(20), draw.randrange(20))))
    front = u16(draw.choice((1, 1, 6, 32))) + u16({4: 0x0800, 16: 0x86DD}.get(m, 0x1234)) + bytes((n, m)) + u16(draw.randrange(1, 10))
    return front + some_bytes(2 * n + 2 * m) + some_bytes(draw.choice((0, 18)))


def frame():
    """What a frame begins with, and the frame."""
    if draw.random() < 0.75:
        return etherpeel.Start.ETHERNET2, some_bytes(12) + typed()
    return etherpeel.Start.LINUX_SLL, u16(draw.randrange(8)) + u16(1) + some_bytes(2) + some_bytes(8) + typed()


# ---- fields


def address(value):
    """An address as bytes, which scapy has as text or as bytes, or as None if it is empty."""
    if value is None or isinstance(value, bytes):
        return value or b""
    if value.count(":") == 5 and len(value) == 17:
        return bytes.fromhex(value.replace(":", ""))
    return socket.inet_pton(socket.AF_INET6 if ":" in value else socket.AF_INET, value)


def by_scapy(start, frame):
    """The headers of a frame as scapy has them, and the bytes after the last one."""
    layer, headers = (Ether if start == etherpeel.Start.ETHERNET2 else CookedLinux)(frame), []
    while True:
        kind = type(layer)
        rest = bytes(layer.payload)
        if kind is Ether:
            headers.append(("ethernet2", address(layer.dst), address(layer.src), layer.type))
        elif kind is CookedLinux:
            headers.append(("sll", layer.pkttype, layer.lladdrtype, layer.lladdrlen, layer.src, layer.proto))
        elif kind in (Dot1Q, Dot1AD):
            headers.append(("vlan", layer.prio, layer.id, layer.vlan, layer.type))
        elif kind is ARP:
            headers.append(("arp", layer.hwtype, layer.ptype, layer.op, address(layer.hwsrc), address(layer.psrc),
                            address(layer.hwdst), address(layer.pdst)))
            return headers, rest
        elif kind is MACsec:
            # scapy reads neither the ether type after a SecTag nor, by its length, the end of the payload
            plain = not (layer.E or layer.C)
            sci = int.from_bytes(bytes(layer.SCI), "big") if layer.SC else None
            after, rest = (rest[:layer.SL], rest[layer.SL:]) if layer.SL else (rest, b"")
            number = int.from_bytes(after[:2], "big") if plain else None
            headers.append(("macsec", layer.ES, layer.SCB, layer.E, layer.C, layer.AN, layer.SL, layer.PN, sci, number))
            if not plain:
                return headers, after
            layer = Ether(bytes(12) + after)
        else:
            return headers, bytes(layer)
        layer = layer.payload


def by_package(start, frame):
    headers = []
    for unit in etherpeel.walk(frame, start):
        it = unit.header
        if isinstance(it, etherpeel.Ethernet2):
            headers.append(("ethernet2", it.destination, it.source, it.ether_type))
        elif isinstance(it, etherpeel.LinuxSll):
            headers.append(("sll", it.packet_type, it.hardware_type, it.address_len, it.address, it.protocol))
        elif isinstance(it, etherpeel.Vlan):
            headers.append(("vlan", it.pcp, it.dei, it.vid, it.ether_type))
        elif isinstance(it, etherpeel.Macsec):
            headers.append(("macsec", it.end_station, it.single_copy_broadcast, it.encrypted, it.changed, it.association_number,
                            it.short_len, it.packet_number, it.sci, it.ether_type))
        else:
            headers.append(("arp", *it))
    found = etherpeel.summary(frame, start)
    return headers, frame[found.rest_start:found.rest_end]


def captures_differ():
    """How many of a classic file, one with nanoseconds and a pcapng file have other packets than those that scapy wrote."""
    made = [it for start, it in (frame() for _ in range(2000)) if start == etherpeel.Start.ETHERNET2]
    times = [1_700_000_000 + draw.randrange(10**6) / 2**10 for _ in made]
    differ = 0
    for writer, words in ((PcapWriter, {}), (PcapWriter, {"nano": True}), (PcapNgWriter, {})):
        with tempfile.NamedTemporaryFile() as file:
            with writer(file.name, **words) as written:
                for time, it in zip(times, made):
                    packet = Ether(it)
                    packet.time = time
                    written.write(packet)
            found = [(bytes(it.packet), it.start, it.original_len) for it in etherpeel.capture(open(file.name, "rb"))]
            late = max(abs(it.time_ns / 10**9 - time) for it, time in zip(etherpeel.capture(open(file.name, "rb")), times))
            expected = [(it, etherpeel.Start.ETHERNET2, len(it)) for it in made]
            read = [it for it, _ in RawPcapReader(file.name)]
        if found != expected or read != made or late > 2e-6:
            print(f"the packets of {writer.__name__} {words} differ, or their times by {late}")
            differ += 1
    return differ


def main():
    differ, seen = 0, {}
    for _ in range(FRAMES):
        start, made = frame()
        expected, found = by_scapy(start, made), by_package(start, made)
        if found != expected:
            differ += 1
            if differ < 5:
                print(f"{start.name} {made.hex()}: {found} and not {expected}")
        for name, *_ in found[0]:
            seen[name] = seen.get(name, 0) + 1
    enough = len(seen) == 5 and min(seen.values()) > 2000
    if not enough:
        print(f"too few headers: {seen}")
    failed = (differ > 0) + (not enough) + captures_differ()
    print(f"{5 - failed} passed, {failed} failed")


main()
