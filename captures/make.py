"""Makes small capture files of both formats in a folder.

    python3 make.py FOLDER

Each capture is built from units, the pieces that a reader takes one after another: the header and the records of a classic pcap
file, or the blocks of a pcapng file. `captures()` returns the captures with what is known of their packets, for `compare.py`.
"""

import argparse
import pathlib
import struct
from dataclasses import dataclass, field

ETHERNET, RAW_IP, LINUX_SLL, LINUX_SLL2 = 1, 101, 113, 276
NANOSECONDS = 10**9


@dataclass
class Packet:
    """What a capture says of a packet."""

    time: int | None  # nanoseconds since 1970, rounded down
    link: int
    fcs_len: int
    data: bytes  # the bytes that were captured
    original: int
    overflows: bool = False  # the ticks within the second, times 10 to the power of 9, exceed 64 bits


@dataclass
class Capture:
    """A capture: its units, and the packets of those units that are packets."""

    name: str
    units: list = field(default_factory=list)  # pairs of bytes and a packet or None

    def data(self):
        return b"".join(unit for unit, _ in self.units)

    def packets(self):
        return [packet for _, packet in self.units if packet is not None]


# Frames

STATION = bytes.fromhex("020000000001")
OTHER = bytes.fromhex("020000000002")
PAYLOAD = bytes(range(0x40, 0x6E))  # 46 bytes


def ethernet(ether_type, payload, destination=STATION):
    return destination + OTHER + struct.pack(">H", ether_type) + payload


def vlan(vid, ether_type, payload, pcp=0, dei=0):
    """A VLAN tag after the ether type that announces it."""
    return struct.pack(">HH", pcp << 13 | dei << 12 | vid, ether_type) + payload


def sec_tag(payload, sci=None, short_len=0, bits=0, ether_type=0x0800):
    """A SecTag after its ether type. The payload has an ether type unless the bits E or C are set."""
    first = bits | (0x20 if sci else 0)
    typed = b"" if bits & 0x0C else struct.pack(">H", ether_type)
    return struct.pack(">BBI", first, short_len, 0x01020304) + (sci or b"") + typed + payload


def arp():
    return struct.pack(">HHBBH", 1, 0x0800, 6, 4, 1) + OTHER + bytes([192, 0, 2, 1]) + bytes(6) + bytes([192, 0, 2, 2])


def cooked(packet_type, hardware, address, protocol, payload):
    return struct.pack(">HHH8sH", packet_type, hardware, len(address), address, protocol) + payload


SCI = bytes.fromhex("0200000000020001")

PLAIN = ethernet(0x88B5, PAYLOAD)
VLAN_ONE = ethernet(0x8100, vlan(291, 0x88B5, PAYLOAD[:4], pcp=5, dei=1))
VLAN_TWO = ethernet(0x88A8, vlan(7, 0x8100, vlan(8, 0x88B5, PAYLOAD[:5])))
VLAN_THREE = ethernet(0x88A8, vlan(7, 0x8100, vlan(8, 0x8100, vlan(4095, 0x88B5, PAYLOAD[:6]))))
MACSEC = ethernet(0x88E5, sec_tag(PAYLOAD, ether_type=0x88B5))
MACSEC_SCI = ethernet(0x88E5, sec_tag(PAYLOAD, sci=SCI, ether_type=0x88B5))
MACSEC_SHORT = ethernet(0x88E5, sec_tag(PAYLOAD[:8] + bytes(20), short_len=10, ether_type=0x88B5))
MACSEC_SHORT_SCI = ethernet(0x88E5, sec_tag(PAYLOAD[:7] + bytes(9), sci=SCI, short_len=9, ether_type=0x88B5))
MACSEC_ENCRYPTED = ethernet(0x88E5, sec_tag(PAYLOAD, sci=SCI, bits=0x0C))
MACSEC_VERSION = ethernet(0x88E5, sec_tag(PAYLOAD, bits=0x80))
ARP = ethernet(0x0806, arp(), destination=b"\xff" * 6)
ARP_IN_VLAN = ethernet(0x8100, vlan(1, 0x0806, arp()))
COOKED = cooked(0, 1, OTHER, 0x88B5, PAYLOAD[:9])
COOKED_ARP = cooked(1, 1, OTHER, 0x0806, arp())
COOKED_LOOPBACK = cooked(0, 772, bytes(6), 0x0800, PAYLOAD[:3])
RAW = bytes.fromhex("4500001c0001000040010000c0000201c0000202") + bytes(8)
CHECK_SEQUENCE = bytes.fromhex("e9c0cdc8")

FRAMES = [PLAIN, VLAN_ONE, VLAN_TWO, VLAN_THREE, MACSEC, MACSEC_SCI, MACSEC_SHORT, MACSEC_SHORT_SCI, MACSEC_ENCRYPTED,
          MACSEC_VERSION, ARP, ARP_IN_VLAN]


# Classic pcap


def classic(name, order, packets, link=ETHERNET, nanoseconds=False, fcs_len=None, start=1_700_000_000):
    """A classic file of pairs of captured bytes and original length. `order` is `<` or `>`."""
    magic = 0xA1B23C4D if nanoseconds else 0xA1B2C3D4
    field_of_link = link if fcs_len is None else link | 1 << 26 | fcs_len // 2 << 28
    capture = Capture(name)
    capture.units.append((struct.pack(order + "IHHIIII", magic, 2, 4, 0, 0, 262_144, field_of_link), None))
    for number, (data, original) in enumerate(packets):
        parts = (number * 123_456_789 if nanoseconds else number * 123_457) % (10**9 if nanoseconds else 10**6)
        time = (start + number) * NANOSECONDS + parts * (1 if nanoseconds else 1000)
        record = struct.pack(order + "IIII", start + number, parts, len(data), original) + data
        capture.units.append((record, Packet(time, link, fcs_len or 0, data, original)))
    return capture


def whole(frames):
    return [(frame, len(frame)) for frame in frames]


# Pcapng


def padded(data):
    return data + bytes(-len(data) % 4)


class Pcapng:
    """Builds a pcapng file block by block."""

    def __init__(self, name):
        self.capture = Capture(name)
        self.order = "<"
        self.interfaces = []

    def block(self, kind, body, packet=None):
        length = 12 + len(padded(body))
        data = struct.pack(self.order + "II", kind, length) + padded(body) + struct.pack(self.order + "I", length)
        self.capture.units.append((data, packet))
        return self

    def option(self, code, value):
        return struct.pack(self.order + "HH", code, len(value)) + padded(value)

    def options(self, *options):
        """The options, each a pair of code and bytes, and the end of options."""
        if not options:
            return b""
        return b"".join(self.option(code, value) for code, value in options) + self.option(0, b"")

    def section(self, order, minor=0, options=()):
        self.order, self.interfaces = order, []
        fixed = struct.pack(order + "IHHq", 0x1A2B3C4D, 1, minor, -1)
        return self.block(0x0A0D0D0A, fixed + self.options(*options))

    def interface(self, link=ETHERNET, snap_len=0, resolution=None, fcs_len=None, offset=None, others=()):
        options = list(others)
        if resolution is not None:
            options.append((9, bytes([resolution])))
        if fcs_len is not None:
            options.append((13, bytes([fcs_len])))
        if offset is not None:
            options.append((14, struct.pack(self.order + "q", offset)))
        self.interfaces.append((link, snap_len, resolution, {32: 4, 16: 2}.get(fcs_len, fcs_len) or 0, offset or 0))
        return self.block(1, struct.pack(self.order + "HHI", link, 0, snap_len) + self.options(*options))

    def packet(self, data, ticks, interface=0, original=None, options=(), obsolete=False, flags=None):
        link, _, resolution, fcs_len, offset = self.interfaces[interface]
        original = len(data) if original is None else original
        units = 10**6 if resolution is None else 10**resolution if resolution < 128 else 2 ** (resolution - 128)
        if flags is not None:
            options = [*options, (2, struct.pack(self.order + "I", flags))]
            fcs_len = flags >> 5 & 15 or fcs_len
        number = struct.pack(self.order + "HH", interface, 7) if obsolete else struct.pack(self.order + "I", interface)
        fixed = number + struct.pack(self.order + "IIII", ticks >> 32, ticks & 0xFFFFFFFF, len(data), original)
        overflows = ticks % units * NANOSECONDS >= 2**64
        known = Packet(ticks * NANOSECONDS // units + offset * NANOSECONDS, link, fcs_len, data, original, overflows)
        return self.block(2 if obsolete else 6, fixed + padded(data) + self.options(*options), known)

    def simple(self, data, original=None):
        link, _, _, fcs_len, _ = self.interfaces[0]
        original = len(data) if original is None else original
        return self.block(3, struct.pack(self.order + "I", original) + data, Packet(None, link, fcs_len, data, original))


def pcapng_captures():
    for order, ending in (("<", "little"), (">", "big")):
        for minor in (0, 2):
            file = Pcapng(f"ng_{ending}_1_{minor}").section(order, minor).interface()
            for number, frame in enumerate((PLAIN, VLAN_ONE, ARP)):
                file.packet(frame, 1_700_000_000_123_456 + number)
            yield file.capture

    file = Pcapng("ng_sections").section("<").interface().interface(LINUX_SLL)
    file.packet(VLAN_TWO, 10**15).packet(COOKED, 10**15 + 1, interface=1)
    file.section(">", 2, options=[(4, b"made"), (1, b"a comment")]).interface(RAW_IP).packet(RAW, 10**15 + 2)
    file.section("<").interface(LINUX_SLL).interface().packet(COOKED_ARP, 10**15 + 3).packet(ARP, 10**15 + 4, interface=1)
    yield file.capture

    file = Pcapng("ng_interfaces").section("<").interface().interface(RAW_IP).packet(RAW, 5, interface=1)
    file.interface(LINUX_SLL, snap_len=16).packet(COOKED[:16], 6, interface=2, original=len(COOKED)).packet(MACSEC, 7)
    yield file.capture

    ticks = {6: 1_700_000_000_999_999, 9: 1_700_000_000_123_456_789, 0x8A: 1_700_000_000 * 1024 + 1023, 0: 1_700_000_000,
             12: 1_700_000_123_456_789_999}
    for order, ending in (("<", "little"), (">", "big")):
        file = Pcapng(f"ng_resolutions_{ending}").section(order)
        for resolution in ticks:
            file.interface(resolution=resolution)
        for number, resolution in enumerate(ticks):
            file.packet(PLAIN[:20], ticks[resolution], interface=number).packet(PLAIN[:14], 1, interface=number)
        yield file.packet(PLAIN[:14], 12_345_678_999, interface=4).capture

    file = Pcapng("ng_fcs").section("<").interface(fcs_len=4).interface(fcs_len=2).interface(LINUX_SLL, fcs_len=4).interface(fcs_len=0)
    frame = VLAN_ONE + CHECK_SEQUENCE
    for cut in (0, 1, 4, 7):
        file.packet(frame[: len(frame) - cut], cut, original=len(frame))
    file.packet(frame, 8, interface=1).packet(COOKED + CHECK_SEQUENCE, 9, interface=2).packet(frame, 10, interface=3)
    file.packet(b"", 11).packet(b"\x02", 12).packet(CHECK_SEQUENCE, 13)
    yield file.capture

    file = Pcapng("ng_fcs_bits").section(">").interface(fcs_len=32).interface(fcs_len=16).interface()
    for interface in (0, 1, 2):
        for flags in (None, 1, 0x80, 0x40):
            file.packet(frame, 20, interface=interface, flags=flags).packet(frame, 21, interface=interface, flags=flags, obsolete=True)
    yield file.capture

    for order, ending in (("<", "little"), (">", "big")):
        file = Pcapng(f"ng_obsolete_{ending}").section(order).interface().interface(LINUX_SLL)
        file.packet(VLAN_ONE, 10**15, obsolete=True).packet(COOKED, 10**15 + 1, interface=1, obsolete=True)
        yield file.packet(ARP[:20], 10**15 + 2, original=60, obsolete=True).capture

    file = Pcapng("ng_many_interfaces").section("<")
    for _ in range(4_096):
        file.interface()
    yield file.packet(VLAN_ONE, 1, interface=4_095).packet(ARP, 2, interface=256).capture

    for offset in (0, 1_000_000_000, -5):
        file = Pcapng(f"ng_offset_{offset}").section(">").interface(offset=offset).interface()
        yield file.packet(PLAIN, 700_000_000_000_000).packet(ARP, 800_000_000_000_000, interface=1).capture

    file = Pcapng("ng_simple").section("<").interface(snap_len=20).simple(PLAIN[:20], original=60).simple(VLAN_ONE[:18]).simple(b"")
    yield file.simple(PLAIN[:17]).simple(PLAIN[:15]).packet(PLAIN[:18], 1).capture

    file = Pcapng("ng_other_blocks").section("<").block(0x0ABC, b"unknown").interface()
    file.block(4, struct.pack("<HH", 1, 7) + padded(bytes([192, 0, 2, 1]) + b"a\0") + bytes(4))
    file.block(10, struct.pack("<II", 0x544C534B, 5) + b"# key").packet(PLAIN[:16], 3)
    file.block(5, struct.pack("<III", 0, 0, 4) + file.options((4, struct.pack("<Q", 1))))
    yield file.block(0x80000001, b"local").packet(ARP, 5).capture

    file = Pcapng("ng_custom_blocks").section(">").interface().block(0xBAD, struct.pack(">I", 32473) + b"copied").packet(ARP, 1)
    file.block(0x40000BAD, struct.pack(">I", 32473) + b"not copied").packet(PLAIN, 2)
    yield file.capture

    file = Pcapng("ng_options").section("<", options=[(2, b"hardware")]).interface(others=[(2, b"eth0"), (3, b"a name")], resolution=9)
    for length in range(5):
        file.packet(VLAN_ONE[: 18 + length], length, options=[(1, b"a comment"[: 5 + length]), (2, bytes(4))])
    yield file.capture

    file = Pcapng("ng_padding").section(">").interface()
    for length in range(14, 23):
        file.packet(VLAN_ONE[:length], length, original=len(VLAN_ONE))
    yield file.capture

    file = Pcapng("ng_long_skipped").section("<").interface().packet(VLAN_ONE, 1)
    file.block(10, struct.pack("<II", 0x544C534B, 200_000) + b"# key log\n" * 20_000).packet(ARP, 2)
    file.section(">").interface().packet(PLAIN, 3)
    names = b"".join(struct.pack(">HH", 1, 6) + padded(bytes([192, 0, 2, 1]) + b"a\0") for _ in range(10_000))
    yield file.block(4, names + bytes(4)).packet(VLAN_TWO, 4).capture

    file = Pcapng("ng_long").section("<").interface()
    yield file.packet(ethernet(0x88B5, bytes(65_521)), 1).packet(ARP, 2).packet(ethernet(0x8100, vlan(1, 0x88B5, bytes(65_517))), 3).capture


def captures():
    """All captures."""
    made = []
    for order, ending in (("<", "little"), (">", "big")):
        for nanoseconds in (False, True):
            unit = "nano" if nanoseconds else "micro"
            made.append(classic(f"classic_{ending}_{unit}", order, whole(FRAMES), nanoseconds=nanoseconds))
        made.append(classic(f"classic_{ending}_cooked", order, whole([COOKED, COOKED_ARP, COOKED_LOOPBACK, COOKED[:15]]), LINUX_SLL))
        made.append(classic(f"classic_{ending}_raw", order, whole([RAW, RAW[:1], b""]), RAW_IP))
        for fcs_len in (0, 2, 4, 8, 30):
            frame = VLAN_ONE + (CHECK_SEQUENCE * 8)[:fcs_len]
            cuts = sorted({0, min(1, fcs_len), fcs_len, fcs_len + 1, fcs_len + 9})
            packets = [(frame[: len(frame) - cut], len(frame)) for cut in cuts]
            made.append(classic(f"classic_{ending}_fcs_{fcs_len}", order, packets, fcs_len=fcs_len))
    made.append(classic("classic_empty", "<", []))
    made.append(classic("classic_empty_frames", "<", [(b"", 0), (b"", 60), (PLAIN[:14], 14), (b"", 0)]))
    made.append(classic("classic_long", ">", whole([VLAN_ONE + bytes(262_100), ARP])))
    made.append(classic("classic_cooked_fcs", "<", whole([COOKED + CHECK_SEQUENCE]), LINUX_SLL, fcs_len=4))
    for name, frame in (("vlan", VLAN_TWO[:24]), ("macsec", MACSEC_SCI[:32]), ("short", MACSEC_SHORT_SCI), ("arp", ARP)):
        cuts = [(frame[:length], len(frame)) for length in range(len(frame) + 1)]
        made.append(classic(f"classic_cut_{name}", "<", cuts))
    long = [ethernet(0x88B5, bytes(65_521)), ARP, VLAN_TWO + bytes(65_535 - len(VLAN_TWO))]
    made.append(classic("classic_long", ">", whole(long), nanoseconds=True))
    made.append(classic("classic_late", "<", whole([PLAIN]), start=2**32 - 1))
    return made + list(pcapng_captures())


def main():
    words = argparse.ArgumentParser(description=__doc__, formatter_class=argparse.RawDescriptionHelpFormatter)
    words.add_argument("folder", metavar="FOLDER")
    folder = pathlib.Path(words.parse_args().folder)
    folder.mkdir(parents=True, exist_ok=True)
    for capture in captures():
        suffix = "pcapng" if capture.name.startswith("ng_") else "pcap"
        (folder / f"{capture.name}.{suffix}").write_bytes(capture.data())


if __name__ == "__main__":
    main()
