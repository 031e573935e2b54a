"""Prints drawn frames, one line of hexadecimal digits each: frames.py eth | fcs | sll | XXXX COUNT

Stacks of VLAN tags, SecTags of all kinds and ARP packets, some with values that are refused, and a third of them cut
at random. The seed is fixed.
"""
import random

from checks import words

VLAN, MACSEC, ARP = (0x8100, 0x88A8, 0x9100), 0x88E5, 0x0806
kind, count = words("START", "COUNT")
draw = random.Random(kind)


def u16(n):
    return n.to_bytes(2, "big")


def some_bytes(n):
    return bytes(draw.randrange(256) for _ in range(n))


def announced(ether_type):
    """Bytes as this ether type announces them."""
    if ether_type in VLAN:
        return some_bytes(2) + typed()
    return {MACSEC: sec_tag, ARP: arp}.get(ether_type, lambda: some_bytes(draw.randrange(40)))()


def typed():
    """An ether type, and the bytes that it announces."""
    ether_type = draw.choice(VLAN + (MACSEC, MACSEC, ARP, 0x0800, 0x86DD, draw.randrange(65536)))
    return u16(ether_type) + announced(ether_type)


def sec_tag():
    """A SecTag with its payload: a version bit that is refused now and then, each of the other bits, and a short length
    that is 0, right or drawn."""
    control = draw.randrange(128) & draw.choice((0x73, 0x7F)) | (0x80 if draw.random() < 0.03 else 0)
    payload = some_bytes(draw.randrange(48)) if control & 0x0C else typed()
    right = len(payload) if len(payload) < 48 else 0
    short_len = draw.choice((0, right, right, draw.randrange(256)))
    sci = some_bytes(8) if control & 0x20 else b""
    return bytes((control, short_len)) + some_bytes(4) + sci + payload + some_bytes(draw.choice((0, 16)))


def arp():
    """An ARP packet and its padding, mostly with addresses of Ethernet and IPv4."""
    sizes = draw.choice(((6, 4), (6, 4), (draw.randrange(20), draw.randrange(20)), (draw.randrange(256), 4)))
    front = u16(draw.choice((1, 6, draw.randrange(65536)))) + u16(0x0800) + bytes(sizes) + u16(draw.randrange(1, 4))
    return front + some_bytes(2 * sum(sizes) + draw.randrange(8))


def cooked_capture():
    """A header of Linux cooked capture v1, and what it announces."""
    hardware = draw.choice((1, 1, 1, 1, 770, 778, 803, 824, draw.randrange(1000)))
    front = u16(draw.choice((0, 1, 2, 3, 4, 5, 6, 7, draw.randrange(65536)))) + u16(hardware)
    after = typed() if draw.random() < 0.8 else u16(draw.randrange(1536)) + some_bytes(9)
    return front + u16(draw.choice((6, 8, draw.randrange(65536)))) + some_bytes(8) + after


def frame(mode):
    if mode in ("eth", "fcs"):
        whole = some_bytes(12) + typed() + (some_bytes(4) if mode == "fcs" else b"")
    else:
        whole = cooked_capture() if mode == "sll" else announced(int(mode, 16))
    return whole[:draw.randrange(len(whole) + 1)] if draw.random() < 0.33 else whole[:2048]


for _ in range(int(count)):
    print(frame(kind).hex())
