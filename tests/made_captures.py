"""Captures that the tests of `ether_capture` read, and what it prints of them. They were written by hand and checked with tshark."""

DISK_IS_FULL = ("ether_capture: standard output: No space left on device (os error 28)\n", 4)
NO_FILE = ": can't be opened: there is no such file\n"
IS_FOLDER = ": can't be opened: it is a folder\n"
INPUT = "standard input"


def joined(*parts):
    return bytes.fromhex("".join(parts))


# Most significant byte first, microseconds, Ethernet: a frame that breaks off within its second VLAN tag, and an IPv4 packet in VLAN 291.
CLASSIC = joined(
    "a1b2c3d4000200040000000000000000 0000ffff00000001",
    "6553f100 0001e240 00000013 0000003c",  # 19 of 60 bytes
    "ffffffffffff 3aeeb62ff6d7 88a8 0001 8100 00",
    "6553f101 00000005 0000002e 0000002e",  # 46 bytes
    "ffffffffffff 3aeeb62ff6d7 8100 b123 0800",
    "4500001c00010000400100000a0900020a0900010800f7fd00010001",
)

# Least significant byte first, nanoseconds, Ethernet with a check sequence of four bytes: a whole frame, and one without its last two bytes.
WITH_FCS = joined(
    "4d3cb2a1020004000000000000000000 ffff000001000024",
    "01000000 02000000 14000000 14000000",  # 20 bytes
    "020000000001 020000000002 88b5 0102 e9c0cdc8",
    "01000000 ffc99a3b 12000000 14000000",  # 18 of 20 bytes
    "020000000001 020000000002 88b5 0102 e9c0",
)

# Pcapng: a section, least significant byte first, with two interfaces, a block of an unknown type and three packets; then one with the
# most significant byte first.
SECTION_HEADER = joined("0a0d0d0a 1c000000 4d3c2b1a 01000000 ffffffffffffffff 1c000000")
ETHERNET = joined("01000000 14000000 01000000 00000000 14000000")
COOKED = joined("01000000 20000000 71000000 00000000", "09000100 09000000 00000000 20000000")  # in nanoseconds
UNKNOWN = joined("bc0a0000 10000000 00000000 10000000")
CUT_PACKET = joined(
    "06000000 30000000 00000000 240a0600 40222018 0e000000 2e000000",  # 14 of 46 bytes
    "ffffffffffff 3aeeb62ff6d7 8100 0000 30000000",
)
SECTIONS = SECTION_HEADER + ETHERNET + COOKED + UNKNOWN + CUT_PACKET + joined(
    "06000000 34000000 01000000 fe9c9717 15cd853d 11000000 11000000",
    "0004 0001 0006 0200000000010000 0800 45 000000 34000000",
    "03000000 24000000 12000000 ffffffffffff 3aeeb62ff6d7 8100 b123 0800 0000 24000000",  # a simple packet
    "0a0d0d0a 0000001c 1a2b3c4d 00010000 ffffffffffffffff 0000001c",
    "00000001 00000014 00650000 00000000 00000014",  # raw IP
    "00000006 00000024 00000000 00000000 00000001 00000001 00000001 45 000000 00000024",
)

FIRST_WALK = "ethernet2 0 ffffffffffff 3aeeb62ff6d7 0x88A8\nvlan 14 pcp 0 dei 0 vid 1 0x8100\nfault 18 open length 4 1 slice\n"
SECOND_WALK = "ethernet2 0 ffffffffffff 3aeeb62ff6d7 0x8100\nvlan 14 pcp 5 dei 1 vid 291 0x0800\nrest 18 46 type 0x0800\n"
FIRST_LINES = "frame 1 time 1700000000.123456000 link 1 captured 19 original 60 cut\n" + FIRST_WALK
CLASSIC_LINES = FIRST_LINES + (
    "frame 2 time 1700000001.000005000 link 1 captured 46 original 46\n" + SECOND_WALK + "total frames 2 skipped 0\n"
)
# Of the frame that was cut within its check sequence the walk has the bytes before the sequence.
FCS_LINES = (
    "frame 1 time 1.000000002 link 1 captured 20 original 20\n"
    "ethernet2 0 020000000001 020000000002 0x88B5 fcs e9c0cdc8\nrest 14 16 type 0x88B5\n"
    "frame 2 time 1.999999999 link 1 captured 18 original 20 cut\n"
    "ethernet2 0 020000000001 020000000002 0x88B5\nrest 14 16 type 0x88B5\ntotal frames 2 skipped 0\n"
)
CUT_WALK = "ethernet2 0 ffffffffffff 3aeeb62ff6d7 0x8100\nfault 14 open length 4 0 slice\n"
SECTION_LINES = (
    "frame 1 time 1700000000.123456000 link 1 captured 14 original 46 cut\n" + CUT_WALK
    + "frame 2 time 1700000000.123456789 link 113 captured 17 original 17\n"
    "linux_sll 0 packet 4 hw 1 alen 6 addr 0200000000010000 0x0800\nrest 16 17 type 0x0800\n"
    "frame 3 time - link 1 captured 18 original 18\n"
    "ethernet2 0 ffffffffffff 3aeeb62ff6d7 0x8100\nvlan 14 pcp 5 dei 1 vid 291 0x0800\nrest 18 18 type 0x0800\n"
    "frame 4 time 0.000001000 link 101 captured 1 original 1 skipped\ntotal frames 4 skipped 1\n"
)


def plain(lines):
    """The lines of the walks alone."""
    return "".join(line for line in lines.splitlines(True) if not line.startswith(("frame", "total")))


def record_is_cut(place, required, found):
    """Why a capture is not read on, after the name of its file."""
    return f": byte {place}: A record of a pcap file needs {required} byte(s); only {found} are available.\n"


ONE_LINES = "frame 1 time 1700000000.123456000 link 1 captured 14 original 46 cut\n" + CUT_WALK


def secrets(total_len, trailer, found=None):
    """Two packets, and between them a block of decryption secrets, which is not read, of zeros; or some bytes from the block on."""
    block = (10).to_bytes(4, "little") + total_len.to_bytes(4, "little") + bytes(total_len - 12) + trailer.to_bytes(4, "little")
    front = SECTION_HEADER + ETHERNET + CUT_PACKET
    return front + (block + CUT_PACKET if found is None else block[:found])


def block(number, *body):
    """A block of this type, least significant byte first."""
    body = joined(*body)
    total_len = (12 + len(body)).to_bytes(4, "little")
    return number.to_bytes(4, "little") + total_len + body + total_len


SHORT_FRAME = "020000000001 020000000002 88b5 0102 e9c0cdc8"  # 20 bytes, the last four of them a check sequence


def interface(options):
    """A section with an Ethernet interface of these options."""
    return SECTION_HEADER + block(1, "01000000 00000000", options)


def frame(number, front, options=""):
    """A packet of 20 bytes at 1,700,000,000.123456 seconds, after what its type of block begins with."""
    return block(number, front, "240a0600 40222018 14000000 14000000", SHORT_FRAME, options)


ENHANCED, OBSOLETE = (6, "00000000"), (2, "0000 0500")


def long_record(len_, captured):
    """A classic capture of one record with this captured length. So many bytes of it are there, all zeros."""
    return CLASSIC[:24] + bytes(8) + len_.to_bytes(4, "big") + bytes(4) + bytes(captured)


COOKED_LINKS = {1: 113, 2: 276}


def cooked(packet, version=2, original=0):
    """A classic capture of one packet of Linux cooked capture."""
    packet = joined(packet)
    captured = len(packet)
    record = joined("6553f100 00000000") + captured.to_bytes(4, "big") + max(captured, original).to_bytes(4, "big") + packet
    return CLASSIC[:20] + COOKED_LINKS[version].to_bytes(4, "big") + record


def cooked_lines(captured, lines, version=2, end=""):
    return (f"frame 1 time 1700000000.000000000 link {COOKED_LINKS[version]} captured {captured} original {captured}\n{lines}"
            f"total frames 1 skipped 0{end}\n")


def classic(*frames, original=0):
    """A classic capture of these frames of Ethernet."""
    records = [joined("6553f100 00000000") + len(it).to_bytes(4, "big") + max(len(it), original).to_bytes(4, "big") + it for it in frames]
    return CLASSIC[:24] + b"".join(records)


# ARP; VLAN 5, ARP; VLAN 7, ARP; VLAN 5, IPv4; IPv4; service tag 100, VLAN 5, IPv4. Which packets an expression selects is read off its words.
MACS = "ffffffffffff 020000000001"
SIX = [joined(MACS, it) for it in (
    "0806" + 28 * "00", "8100 0005 0806" + 28 * "00", "8100 0007 0806" + 28 * "00", "8100 0005 0800 45", "0800 45", "88a8 0064 8100 0005 0800 45")]
SELECTED = {
    "vlan 5 or arp": (1, 2, 3, 4, 6), "arp or vlan 5": (1, 2, 3, 4, 6), "vlan 7 or vlan 5": (2, 3, 4, 6), "vlan and arp": (2, 3), "arp": (1, 2, 3),
    "outer vlan 100": (6,), "inner vlan 5": (6,), "not vlan": (1, 5), "ether src 02:00:00:00:00:01 and ip": (4, 5, 6),
    "ether src 020000000001 and ip": (4, 5, 6), "macsec": (), "cut": (),
}

DOUBLE = "frame 1 time 1700000000.000000000 link 1 captured 23 original 23\nethernet2 0 ffffffffffff 020000000001 0x88A8\n"
OUTER, INNER = "vlan 14 pcp 0 dei 0 vid 100 0x8100\n", "vlan 18 pcp 0 dei 0 vid 5 0x0800\n"
# What `tshark -i any` writes of the loopback device, and a tag on a link of PPP: packet type, hardware type, address length, address, protocol type.
LOOPBACK_V1 = cooked("0000 0304 0006 0000000000000000 0800 45", 1)
TAGGED_V1 = cooked("0004 0200 0000 0000000000000000 8100 b123 0800 45", 1)
V1_LINE = "linux_sll 0 packet 4 hw 512 alen 0 addr 0000000000000000 0x8100\n"
TAGGED_V2 = cooked("8100 0000 00000003 0001 04 06 0200000000010000 b123 0800 45")
V2_LINE = "linux_sll2 0 packet 4 hw 1 if 3 alen 6 addr 0200000000010000 0x8100\n"
