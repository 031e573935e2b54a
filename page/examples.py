"""Frames and captures that the page is tested with, and what the standards say of them."""

import struct


def digits(text):
    return text.replace(" ", "")


ARP_IN_VLAN = digits("ffffffffffff 3aeeb62ff6d7 8100" "b123 0806"
                     "0001 0800 06 04 0001 020000000001 0a090002 ffffffffffff 0a090001")
SEC_TAG = digits("ffffffffffff 020000000001 88e5" "2c 00 00000001 0200000000010001" "0800 4500")
SEALED = digits("ffffffffffff 020000000001 88e5" "0e 03 00000007" "112233")
CUT = digits("ffffffffffff 3aeeb62ff6d7 8100" "b1")
CUT_BY_CAPTURE = digits("ffffffffffff 3aeeb62ff6d7 88a8" "0001 8100" "00")
SLL = digits("0000 0001 0006 0200000000010000 0806"
             "0001 0800 06 04 0002 020000000001 c0000201 020000000002 c0000202")
SLL2 = digits("0806 0000 00000003 0001 00 06 0200000000010000") + SLL[32:]
IPV4 = digits("020000000001 020000000002 0800" "4500")


def ethernet2(destination, source, ether_type, **fields):
    return ["Ethernet II", "0 to 14", {"Destination address": destination, "Source address": source,
                                       "EtherType": ether_type, **fields}]


def arp(places, operation, sender, target):
    """A packet of Ethernet and IPv4 (RFC 826), with two addresses of each side."""
    return ["ARP", places, {
        "Hardware type ar$hrd": "1 (Ethernet)", "Protocol type ar$pro": "0x0800 (IPv4)",
        "Hardware address length ar$hln": "6", "Protocol address length ar$pln": "4", "Operation ar$op": operation,
        "Sender hardware address ar$sha": sender[0], "Sender protocol address ar$spa": sender[1],
        "Target hardware address ar$tha": target[0], "Target protocol address ar$tpa": target[1]}]


ALL, VLAN_SENDER = "ff:ff:ff:ff:ff:ff", "3a:ee:b6:2f:f6:d7"
FIRST, SECOND = "02:00:00:00:00:01", "02:00:00:00:00:02"

# Of each frame what its link says that it begins with, its headers with their fields, by the standards, and what is
# left or the fault.
EXAMPLES = [
    ("a VLAN tag and ARP", f"#eth:{ARP_IN_VLAN}", [
        ethernet2(ALL, VLAN_SENDER, "0x8100 (VLAN tag)"),
        ["VLAN tag", "14 to 18", {"Priority code point PCP": "5", "Drop eligible indicator DEI": "1 (set)",
                                  "VLAN identifier VID": "291", "EtherType": "0x0806 (ARP)"}],
        arp("18 to 46", "1 (request)", (FIRST, "10.9.0.2"), (ALL, "10.9.0.1")),
    ], "Left at 46: what follows the ARP packet"),
    ("a SecTag with a secure channel", f"#eth:{SEC_TAG}", [
        ethernet2(ALL, FIRST, "0x88E5 (MACsec)"),
        ["MACsec SecTag", "14 to 28", {
            "Version V": "0", "End station ES": "0", "Secure channel SC": "1 (set)", "Single copy broadcast SCB": "0",
            "Encryption E": "1 (set)", "Changed text C": "1 (set)", "Association number AN": "0", "Reserved": "0",
            "Short length SL": "0", "Packet number PN": "1", "Secure channel identifier SCI": "02:00:00:00:00:01:00:01"}],
    ], "Left 28 to 32: payload that MACsec protects"),
    ("a short length", f"#eth:{SEALED}", [
        ethernet2(ALL, FIRST, "0x88E5 (MACsec)"),
        ["MACsec SecTag", "14 to 20", {
            "Version V": "0", "End station ES": "0", "Secure channel SC": "0", "Single copy broadcast SCB": "0",
            "Encryption E": "1 (set)", "Changed text C": "1 (set)", "Association number AN": "2", "Reserved": "0",
            "Short length SL": "3", "Packet number PN": "7"}],
    ], "Left 20 to 23: payload that MACsec protects"),
    ("a tag cut short", f"#eth:{CUT}", [
        ethernet2(ALL, VLAN_SENDER, "0x8100 (VLAN tag)"),
    ], "Not read 14 to 15: at offset 14: VLAN Header Error: Not enough data to decode 'VLAN header'. "
       "4 byte(s) would be required, but only 1 byte(s) are available based on the slice length "
       "('VLAN header' starts at overall parsed byte 14). At least 3 bytes are missing."),
    ("a cooked capture", f"#sll:{SLL}", [
        ["Linux cooked capture v1", "0 to 16", {
            "Packet type": "0 (to us)", "ARPHRD type": "1 (Ethernet)", "Address length": "6",
            "Address": "02:00:00:00:00:01:00:00", "Protocol": "0x0806 (ARP)"}],
        arp("16 to 44", "2 (reply)", (FIRST, "192.0.2.1"), (SECOND, "192.0.2.2")),
    ], "Left at 44: what follows the ARP packet"),
    ("a frame with a check sequence", f"#fcs:{IPV4}e9c0cdc8", [
        ethernet2(FIRST, SECOND, "0x0800 (IPv4)", **{"Frame check sequence FCS": "e9:c0:cd:c8"}),
    ], "Left 14 to 16: payload of type 0x0800 (IPv4)"),
    ("what an ether type announces", "#type-0806:" + ARP_IN_VLAN[36:52], [],
     "Not read 0 to 8: at offset 0: Address Resolution Protocol Packet Error: Not enough data to decode "
     "'Address Resolution Protocol packet'. 28 byte(s) would be required, but only 8 byte(s) are available"),
]


# ---- captures, by the descriptions of their formats

def classic(packets, link=1, order=">", magic=0xA1B2C3D4, fraction=5):
    """A classic file; of each packet seconds, bytes, original length. Another magic number says that the fraction
    of a second is in nanoseconds."""
    header = struct.pack(f"{order}IHHIIII", magic, 2, 4, 0, 0, 262144, link)
    records = (struct.pack(f"{order}IIII", seconds, fraction, len(data), length) + data
               for seconds, data, length in packets)
    return header + b"".join(records)


def block(kind, body):
    body += bytes(-len(body) % 4)
    length = struct.pack("<I", len(body) + 12)
    return struct.pack("<I", kind) + length + body + length


def pcapng(packets, link=1):
    start = block(0x0A0D0D0A, struct.pack("<IHHq", 0x1A2B3C4D, 1, 0, -1))
    start += block(1, struct.pack("<HHI", link, 0, 262144))
    times = ((seconds * 10**6 + 5, data, length) for seconds, data, length in packets)
    return start + b"".join(block(6, struct.pack("<IIIII", 0, time >> 32, time % 2**32, len(data), length) + data)
                            for time, data, length in times)


PACKETS = [(1700000000, bytes.fromhex(ARP_IN_VLAN), 46), (1700000001, bytes.fromhex(IPV4), 60),
           (1700000002, bytes.fromhex(CUT_BY_CAPTURE), 60)]
HEADINGS = ["No.", "Date", "Time (UTC)", "Length", "Packet"]
# The last text is that of `ether_capture --format brief`, by docs/FORMAT.md.
ROWS = [
    ["1", "2023-11-14", "22:13:20.000005", "46",
     f"{VLAN_SENDER} > {ALL} vlan 291 pcp 5 dei ARP who-has 10.9.0.1 tell 10.9.0.2"],
    ["2", "2023-11-14", "22:13:21.000005", "16 of 60", f"{SECOND} > {FIRST} IPv4 2 bytes (16 of 60 bytes)"],
    ["3", "2023-11-14", "22:13:22.000005", "19 of 60",
     f"{VLAN_SENDER} > {ALL} vlan 1 pcp 0 fault at 18: vlan needs 4 bytes, has 1 (19 of 60 bytes)"],
]
