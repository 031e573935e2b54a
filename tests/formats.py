"""Tests `ether_capture --format json`, `--format brief` and `--fields`: by worked examples, and with programs that read JSON or captures.

`ether_capture.py` runs `examples`, `other_programs.py` runs `readers` and `llc_lengths`.
"""
import csv
import datetime
import io
import json
import os
import random
import re
import subprocess
import tempfile
from functools import partial
from shutil import which

from made_captures import CLASSIC, ETHERNET, INPUT, SECTION_HEADER, SECTIONS, SIX, WITH_FCS, block, classic, cooked, interface, joined, record_is_cut
from programs import run, run_apart

JSON, BRIEF = ["--format", "json"], ["--format", "brief"]
BROADCAST, STATION = "ff:ff:ff:ff:ff:ff", "3a:ee:b6:2f:f6:d7"


def packet(number, time, link, captured, original, headers, interface=None, direction=None, comment=None, **end):
    return {"number": number, "time": time, "link": link, "captured": captured, "original": original, "interface": interface, "direction": direction,
            "comment": comment, "file": None, "headers": headers, **end}


def placed(name, start, end, payload_end, closed=False, **members):
    return {"header": name, "start": start, "end": end, "payload_end": payload_end, "closed": closed, **members}


def eth(payload_end, dst, src, ether_type, fcs=None, closed=False):
    return placed("eth", 0, 14, payload_end, closed, dst=dst, src=src, type=ether_type, fcs=fcs)


def vlan(start, payload_end, pcp, dei, vid, ether_type):
    return placed("vlan", start, start + 4, payload_end, pcp=pcp, dei=dei, vid=vid, type=ether_type)


def rest(start, end, kind, number=None):
    return {"start": start, "end": end, "kind": kind, "type": number}


def fault(start, kind, required=None, available=None, source=None, value=None, closed=False):
    return {"start": start, "closed": closed, "kind": kind, "required": required, "available": available, "source": source, "value": value}


# The members of each packet, by hand from the bytes: times with `date -u -d @1700000000`.
PACKETS = [
    ("a classic capture", CLASSIC, 1, [
        packet(1, "2023-11-14T22:13:20.123456000Z", 1, 19, 60, [
            eth(19, BROADCAST, STATION, 0x88A8), vlan(14, 19, 0, 0, 1, 0x8100)], fault=fault(18, "length", 4, 1, "slice")),
        packet(2, "2023-11-14T22:13:21.000005000Z", 1, 46, 46, [
            eth(46, BROADCAST, STATION, 0x8100), vlan(14, 46, 5, 1, 291, 0x0800)], rest=rest(18, 46, "ether_type", 0x0800)),
    ]),
    ("check sequences", WITH_FCS, 0, [
        packet(1, "1970-01-01T00:00:01.000000002Z", 1, 20, 20, [
            eth(16, "02:00:00:00:00:01", "02:00:00:00:00:02", 0x88B5, "e9:c0:cd:c8", True)], rest=rest(14, 16, "ether_type", 0x88B5)),
        packet(2, "1970-01-01T00:00:01.999999999Z", 1, 18, 20, [
            eth(16, "02:00:00:00:00:01", "02:00:00:00:00:02", 0x88B5)], rest=rest(14, 16, "ether_type", 0x88B5)),
    ]),
    ("sections", SECTIONS, 1, [
        packet(1, "2023-11-14T22:13:20.123456000Z", 1, 14, 46, [eth(14, BROADCAST, STATION, 0x8100)], interface=0,
               fault=fault(14, "length", 4, 0, "slice")),
        packet(2, "2023-11-14T22:13:20.123456789Z", 113, 17, 17, [
            placed("sll", 0, 16, 17, packet_type=4, hw_type=1, addr_len=6, addr="02:00:00:00:00:01", protocol=0x0800)],
               interface=1, rest=rest(16, 17, "ether_type", 0x0800)),
        packet(3, None, 1, 18, 18, [eth(18, BROADCAST, STATION, 0x8100), vlan(14, 18, 5, 1, 291, 0x0800)], interface=0,
               rest=rest(18, 18, "ether_type", 0x0800)),
        packet(4, "1970-01-01T00:00:00.000001000Z", 101, 1, 1, [], interface=0, rest=rest(0, 1, "skipped")),
    ]),
    # RFC 826: who has 10.0.0.2, tell 10.0.0.1; and an answer of a protocol whose addresses have two bytes
    ("ARP", classic(joined("ffffffffffff 020000000001 0806 0001 0800 06 04 0001 020000000001 0a000001 000000000000 0a000002"),
                    joined("ffffffffffff 020000000001 0806 0006 809b 06 02 0002 020000000001 0102 000000000000 0304 00")), 0, [
        packet(1, "2023-11-14T22:13:20.000000000Z", 1, 42, 42, [
            eth(42, BROADCAST, "02:00:00:00:00:01", 0x0806),
            placed("arp", 14, 42, 42, hrd=1, pro=0x0800, hln=6, pln=4, op=1, sha="02:00:00:00:00:01", spa="10.0.0.1",
                   tha="00:00:00:00:00:00", tpa="10.0.0.2")], rest=rest(42, 42, "after_arp")),
        packet(2, "2023-11-14T22:13:20.000000000Z", 1, 39, 39, [
            eth(39, BROADCAST, "02:00:00:00:00:01", 0x0806),
            placed("arp", 14, 38, 39, hrd=6, pro=0x809B, hln=6, pln=2, op=2, sha="02:00:00:00:00:01", spa="01:02",
                   tha="00:00:00:00:00:00", tpa="03:04")], rest=rest(38, 39, "after_arp")),
    ]),
    # IEEE 802.1AE, 9.3 to 9.9: with an SCI and an ether type, in a window of 6 bytes; encrypted; of version 1; of a short length of 1
    ("SecTags", classic(joined("ffffffffffff 020000000001 88e5 21 08 00000007 0200000000010001 0800 112233445566 77"),
                        joined("ffffffffffff 020000000001 88e5 0e 00 00000001 aabb"),
                        joined("ffffffffffff 020000000001 88e5 80 00 00000001 0800"),
                        joined("ffffffffffff 020000000001 88e5 00 01 00000001 0800")), 1, [
        packet(1, "2023-11-14T22:13:20.000000000Z", 1, 37, 37, [
            eth(37, BROADCAST, "02:00:00:00:00:01", 0x88E5),
            placed("macsec", 14, 30, 36, True, payload="unmodified", es=0, scb=0, e=0, c=0, an=1, sl=8, pn=7, sci="02:00:00:00:00:01:00:01", type=0x0800)],
               rest=rest(30, 36, "ether_type", 0x0800)),
        packet(2, "2023-11-14T22:13:20.000000000Z", 1, 22, 22, [
            eth(22, BROADCAST, "02:00:00:00:00:01", 0x88E5),
            placed("macsec", 14, 20, 22, payload="encrypted", es=0, scb=0, e=1, c=1, an=2, sl=0, pn=1, sci=None, type=None)],
               rest=rest(20, 22, "sealed")),
        packet(3, "2023-11-14T22:13:20.000000000Z", 1, 22, 22, [eth(22, BROADCAST, "02:00:00:00:00:01", 0x88E5)],
               fault=fault(14, "macsec_version")),
        packet(4, "2023-11-14T22:13:20.000000000Z", 1, 22, 22, [eth(22, BROADCAST, "02:00:00:00:00:01", 0x88E5)],
               fault=fault(14, "macsec_short_len")),
    ]),
    # LINKTYPE_LINUX_SLL: the loopback device, whose protocol number is taken for an ether type; netlink; a packet type without a meaning
    ("cooked capture v1", cooked("0000 0304 0006 0000000000000000 8100 0005 0800", 1), 0, [
        packet(1, "2023-11-14T22:13:20.000000000Z", 113, 20, 20, [
            placed("sll", 0, 16, 20, packet_type=0, hw_type=772, addr_len=6, addr="00:00:00:00:00:00", protocol=0x8100),
            vlan(16, 20, 0, 0, 5, 0x0800)], rest=rest(20, 20, "ether_type", 0x0800)),
    ]),
    # the number of a cooked capture that says LLC (4) is not a length; a packet type (5) that has no name
    ("LLC in a cooked capture", cooked("0005 0304 0006 0000000000000000 0004 424203", 1), 0, [
        packet(1, "2023-11-14T22:13:20.000000000Z", 113, 19, 19, [
            placed("sll", 0, 16, 19, packet_type=5, hw_type=772, addr_len=6, addr="00:00:00:00:00:00", protocol=4)],
               rest=rest(16, 19, "ether_type", 4)),
    ]),
    ("netlink", cooked("0004 0338 0000 0000000000000000 0010 aa", 1), 0, [
        packet(1, "2023-11-14T22:13:20.000000000Z", 113, 17, 17, [
            placed("sll", 0, 16, 17, packet_type=4, hw_type=824, addr_len=0, addr="", protocol=16)],
               rest=rest(16, 17, "sll_netlink", 16)),
    ]),
    ("a packet type without a meaning", cooked("0008 0001 0006 0200000000010000 0800", 1), 1, [
        packet(1, "2023-11-14T22:13:20.000000000Z", 113, 16, 16, [], fault=fault(0, "sll_packet_type", value=8)),
    ]),
    ("a header of cooked capture v1 that is cut", cooked("0004 0001 0006 020000000001 0000 08", 1), 1, [
        packet(1, "2023-11-14T22:13:20.000000000Z", 113, 15, 15, [], fault=fault(0, "length", 16, 15, "slice")),
    ]),
    # LINKTYPE_LINUX_SLL2: a VLAN tag, GRE, and a header that is cut
    ("cooked capture v2", classic()[:20] + joined("00000114") + b"".join(joined("6553f100 00000000", f"{len(it):08x}" * 2) + it for it in (
        joined("8100 0000 00000003 0001 02 06 0200000000010000 0005 0800"), joined("0800 0000 00000003 030a 04 09 0a00000100000000 45"),
        joined("8100 0000 0000"))), 1, [
        packet(1, "2023-11-14T22:13:20.000000000Z", 276, 24, 24, [
            placed("sll2", 0, 20, 24, protocol=0x8100, if_index=3, hw_type=1, packet_type=2, addr_len=6, addr="02:00:00:00:00:01"),
            vlan(20, 24, 0, 0, 5, 0x0800)], rest=rest(24, 24, "ether_type", 0x0800)),
        packet(2, "2023-11-14T22:13:20.000000000Z", 276, 21, 21, [
            placed("sll2", 0, 20, 21, protocol=0x0800, if_index=3, hw_type=778, packet_type=4, addr_len=9, addr="0a:00:00:01:00:00:00:00")],
               rest=rest(20, 21, "sll_gre", 0x0800)),
        packet(3, "2023-11-14T22:13:20.000000000Z", 276, 6, 6, [], fault=fault(0, "length", 20, 6, "slice")),
    ]),
]

# The bytes of each packet after its last header: payload, padding and check sequence, or a header that is refused.
AFTER_HEADERS = {
    "a classic capture": ["00", "4500001c00010000400100000a0900020a0900010800f7fd00010001"],
    "check sequences": ["0102e9c0cdc8", "0102e9c0"],
    "sections": ["", "45", "", "45"],
    "ARP": ["", "00"],
    "SecTags": ["11223344556677", "aabb", "8000000000010800", "0001000000010800"],
    "cooked capture v1": [""],
    "LLC in a cooked capture": ["424203"],
    "netlink": ["aa"],
    "a packet type without a meaning": ["00080001000602000000000100000800"],
    "a header of cooked capture v1 that is cut": ["000400010006020000000001000008"],
    "cooked capture v2": ["", "45", "810000000000"],
}
# Reserved bits: two before the short length of a SecTag (IEEE 802.1AE, 9.7), each of them and both; two bytes of LINKTYPE_LINUX_SLL2.
RESERVED = [
    (classic(*(joined("ffffffffffff 020000000001 88e5 01", sl, "00000007 0800 45") for sl in ("43", "83", "c3", "03"))), "macsec", [1, 2, 3, None]),
    (classic()[:20] + joined("00000114") + b"".join(joined("6553f100 00000000 00000015 00000015 0800", bits, "00000003 0001 02 06 0200000000010000 45")
                                                    for bits in ("0001", "abcd", "0000")), "sll2", [1, 0xABCD, None]),
]

# The same packets as lines for the eye, in which a person reads what the members say.
BRIEF_LINES = {
    "a classic capture": [
        f"1 2023-11-14T22:13:20.123456Z {STATION} > {BROADCAST} vlan 1 pcp 0 fault at 18: vlan needs 4 bytes, has 1 (19 of 60 bytes)",
        f"2 2023-11-14T22:13:21.000005Z {STATION} > {BROADCAST} vlan 291 pcp 5 dei IPv4 28 bytes"],
    "check sequences": [
        "1 1970-01-01T00:00:01.000000002Z 02:00:00:00:00:02 > 02:00:00:00:00:01 0x88B5 2 bytes",
        "2 1970-01-01T00:00:01.999999999Z 02:00:00:00:00:02 > 02:00:00:00:00:01 0x88B5 2 bytes (18 of 20 bytes)"],
    "sections": [
        f"1 2023-11-14T22:13:20.123456Z {STATION} > {BROADCAST} fault at 14: vlan needs 4 bytes, has 0 (14 of 46 bytes)",
        "2 2023-11-14T22:13:20.123456789Z cooked sent by us from 02:00:00:00:00:01 IPv4 1 bytes",
        f"3 - {STATION} > {BROADCAST} vlan 291 pcp 5 dei IPv4 0 bytes", "4 1970-01-01T00:00:00.000001Z skipped 1 bytes"],
    "ARP": [
        f"1 2023-11-14T22:13:20.000000Z 02:00:00:00:00:01 > {BROADCAST} ARP who-has 10.0.0.2 tell 10.0.0.1",
        f"2 2023-11-14T22:13:20.000000Z 02:00:00:00:00:01 > {BROADCAST} ARP reply 01:02 is-at 02:00:00:00:00:01"],
    "SecTags": [
        f"1 2023-11-14T22:13:20.000000Z 02:00:00:00:00:01 > {BROADCAST} macsec an 1 pn 7 sci 02:00:00:00:00:01/1 IPv4 6 bytes",
        f"2 2023-11-14T22:13:20.000000Z 02:00:00:00:00:01 > {BROADCAST} macsec an 2 pn 1 encrypted changed sealed 2 bytes",
        f"3 2023-11-14T22:13:20.000000Z 02:00:00:00:00:01 > {BROADCAST} fault at 14: version 1 of MACsec",
        f"4 2023-11-14T22:13:20.000000Z 02:00:00:00:00:01 > {BROADCAST} fault at 14: short length 1"],
    "cooked capture v1": ["1 2023-11-14T22:13:20.000000Z cooked to us from 00:00:00:00:00:00 vlan 5 pcp 0 IPv4 0 bytes"],
    "LLC in a cooked capture": ["1 2023-11-14T22:13:20.000000Z cooked type 5 from 00:00:00:00:00:00 0x0004 3 bytes"],
    "netlink": ["1 2023-11-14T22:13:20.000000Z cooked sent by us from  sll_netlink 1 bytes"],
    "a packet type without a meaning": ["1 2023-11-14T22:13:20.000000Z fault at 0: packet type 8"],
    "a header of cooked capture v1 that is cut": ["1 2023-11-14T22:13:20.000000Z fault at 0: cooked header needs 16 bytes, has 15"],
    "cooked capture v2": [
        "1 2023-11-14T22:13:20.000000Z if 3 cooked multicast from 02:00:00:00:00:01 vlan 5 pcp 0 IPv4 0 bytes",
        "2 2023-11-14T22:13:20.000000Z if 3 cooked sent by us from 0a:00:00:01:00:00:00:00 sll_gre 1 bytes",
        "3 2023-11-14T22:13:20.000000Z fault at 0: cooked header needs 20 bytes, has 6"],
}
# The names of protocols (the IEEE registry of ether types), other operations of ARP, and headers that are cut: an ARP packet has 28 bytes with addresses
# of 6 and 4, a SecTag 16 with an SCI and an ether type, and here a payload of 8 - 2 bytes (IEEE 802.1AE, 9.7).
BRIEF_ENDS = [
    ("86dd 60", "IPv6 1 bytes"), ("8847", "MPLS 0 bytes"), ("8863", "PPPoE discovery 0 bytes"), ("8864", "PPPoE 0 bytes"), ("888e", "EAPOL 0 bytes"),
    ("88cc", "LLDP 0 bytes"), ("88f7", "PTP 0 bytes"), ("05dd", "0x05DD 0 bytes"), ("0600", "0x0600 0 bytes"), ("0842", "Wake-on-LAN 0 bytes"),
    ("8808 0001", "flow control 2 bytes"), ("9000", "0x9000 0 bytes"),
    ("0806 0001 0800 06 04 0003 020000000001 0a000001 000000000000 0a000002", "ARP op 3 from 10.0.0.1 to 10.0.0.2"),
    # IEEE 802.3, 3.2.6: a number of at most 1500 is a length. A frame of the spanning tree (IEEE 802.1D, 9.3.1: 35 bytes after three of LLC) with padding;
    # SNAP (RFC 1042); NetWare's raw frames, which have 0xFF where LLC has its addresses; addresses that are not both those of the spanning tree; no or one
    # byte of LLC, also before padding; after a VLAN tag
    ("0026 424203 0000000000 80000200000c0001 00000000 80000200000c0001 8001 0000 1400 0200 0f00 0000000000000000", "802.3 len 38 STP 46 bytes"),
    ("0008 aaaa03 00000c 2000", "802.3 len 8 SNAP 8 bytes"), ("0022 ffff 0022", "802.3 len 34 LLC dsap 0xFF ssap 0xFF 4 bytes"),
    ("0003 0a1b03", "802.3 len 3 LLC dsap 0x0A ssap 0x1B 3 bytes"), ("0003 42aa03", "802.3 len 3 LLC dsap 0x42 ssap 0xAA 3 bytes"),
    ("0003 aa4203", "802.3 len 3 LLC dsap 0xAA ssap 0x42 3 bytes"), ("0002 4242", "802.3 len 2 STP 2 bytes"), ("0001 4242", "802.3 len 1 2 bytes"),
    ("0000 4242", "802.3 len 0 2 bytes"), ("05dc 42", "802.3 len 1500 1 bytes"), ("0026", "802.3 len 38 0 bytes"),
    ("8100 0005 0026 424203", "vlan 5 pcp 0 802.3 len 38 STP 3 bytes"),
    # IEEE 802.1AE, 9.5 and 9.9: each of the bits ES, SCB, E and C; the SecTag of the first test vector of its annex C
    ("88e5 40 00 00000001 0800", "macsec an 0 pn 1 es IPv4 0 bytes"), ("88e5 10 00 00000001 0800", "macsec an 0 pn 1 scb IPv4 0 bytes"),
    ("88e5 08 00 00000001 aa", "macsec an 0 pn 1 encrypted sealed 1 bytes"), ("88e5 04 00 00000001 aa", "macsec an 0 pn 1 changed sealed 1 bytes"),
    ("88e5 5f 00 00000001 aa", "macsec an 3 pn 1 es scb encrypted changed sealed 1 bytes"),
    ("88e5 22 2a b2c28465 12153524c0895e81 0800 0f101112131415161718191a1b1c1d1e1f202122232425262728292a2b2c2d2e2f3031323334 0001"
     "f09478a9b09007d06f46e9b6a1da25dd", "macsec an 2 pn 2999092325 sci 12:15:35:24:c0:89/24193 IPv4 40 bytes"),
    ("0806 0001 0800 06 04 0001 020000000001", "fault at 14: ARP needs 28 bytes, has 14"),
    ("88e5 20 00 00000001", "fault at 14: macsec needs 16 bytes, has 6"),
    ("88e5 21 08 00000007 0200000000010001 0800 11223344", "fault at 14: macsec packet needs 22 bytes, has 20"),
]

# The example of `write_packet`: 14 of 60 bytes, captured a microsecond after a full second.
DOCUMENTED = joined("a1b23c4d 0002 0004 00000000 00000000 00040000 00000001", "6553f100 000003e8 0000000e 0000003c", "ffffffffffff 020000000001 0800")
DOCUMENTED_LINE = (
    '{"number":1,"time":"2023-11-14T22:13:20.000001000Z","link":1,"captured":14,"original":60,"interface":null,"direction":null,"comment":null,"file":null,"headers":[{"header":"eth",'
    '"start":0,"end":14,"payload_end":14,"closed":false,"dst":"ff:ff:ff:ff:ff:ff","src":"02:00:00:00:00:01","type":2048,'
    '"fcs":null}],"rest":{"start":14,"end":14,"kind":"ether_type","type":2048}}\n')

# Two packets of an interface whose unit of time is a millisecond: the last one of the year 9999, and a later one, for which RFC 3339 has no date
# (`date -u -d @253402300800`).
LATE = interface("09000100 03000000 00000000") + b"".join(
    block(6, "00000000", time, "14000000 14000000", "020000000001 020000000002 88b5 010203040506") for time in ("77e60000 ffdb1fd2", "77e60000 7bdc1fd2"))
LATE_TIMES = [(JSON, r'"time":([^,]*),', ['"9999-12-31T23:59:59.999000000Z"', "253402300800.123000000"]),
              (BRIEF, r"\d+ (\S+) ", ["9999-12-31T23:59:59.999000Z", "253402300800.123000"]),
              (["--fields", "frame.minute"], r"(.*)", ["9999-12-31T23:59Z", ""]),
              (["--fields", "frame.hour"], r"(.*)", ["9999-12-31T23Z", ""]),
              (["--fields", "frame.day"], r"(.*)", ["9999-12-31", ""]),
              (["--fields", "frame.time"], r"(.*)", ["9999-12-31T23:59:59.999000000Z", "253402300800.123000000"]),
              ([], r"frame \d time (\S+) .*", ["253402300799.999000000", "253402300800.123000000"])]

# The rows of columns, by hand from the bytes.
ROWS = [
    ("the example of the documentation", classic(joined("ffffffffffff 020000000001 8100 0005 0800"),
                                                 joined("ffffffffffff 020000000001 88a8 0005 8100 0064 86dd")),
     "frame.number,eth.src,vlan.vid,rest.type", 0, ["1\t02:00:00:00:00:01\t5\t0x0800", "2\t02:00:00:00:00:01\t5,100\t0x86DD"]),
    ("tags", classic(joined("ffffffffffff 020000000001 88a8 a001 8100 0005 0800 aabb"), joined("ffffffffffff 020000000001 0800")),
     "frame.number,vlan.vid,vlan.pcp,vlan.type,eth.type,eth.dst", 0,
     ["1\t1,5\t5,0\t0x8100,0x0800\t0x88A8\tff:ff:ff:ff:ff:ff", "2\t\t\t\t0x0800\tff:ff:ff:ff:ff:ff"]),
    ("a classic capture", CLASSIC, "frame.time,frame.captured,frame.original,headers.header,headers.end,rest.end,fault.kind,fault.required", 1,
     ["2023-11-14T22:13:20.123456000Z\t19\t60\teth,vlan\t14,18\t\tlength\t4", "2023-11-14T22:13:21.000005000Z\t46\t46\teth,vlan\t14,18\t46\t\t"]),
    ("ARP", classic(joined("ffffffffffff 020000000001 0806 0001 0800 06 04 0001 020000000001 0a000001 000000000000 0a000002")),
     "arp.op,arp.sha,arp.spa,arp.tpa,arp.pro,eth.fcs,rest.kind", 0, ["1\t02:00:00:00:00:01\t10.0.0.1\t10.0.0.2\t0x0800\t\tafter_arp"]),
    ("SecTags", classic(joined("ffffffffffff 020000000001 88e5 21 08 00000007 0200000000010001 0800 112233445566 77"),
                        joined("ffffffffffff 020000000001 88e5 0e 00 00000001 aabb")), "macsec.an,macsec.pn,macsec.sci,macsec.type,macsec.closed", 0,
     ["1\t7\t02:00:00:00:00:01:00:01\t0x0800\ttrue", "2\t1\t\t\tfalse"]),
    ("cooked capture v1", cooked("0004 0338 0000 0000000000000000 0010 aa", 1), "sll.hw_type,sll.addr,sll.protocol,rest.type,eth.src", 0,
     ["824\t\t0x0010\t0x0010\t"]),
    ("sections", SECTIONS, "frame.link,frame.time,sll.addr,rest.kind,rest.start", 1,
     ["1\t2023-11-14T22:13:20.123456000Z\t\t\t", "113\t2023-11-14T22:13:20.123456789Z\t02:00:00:00:00:01\tether_type\t16", "1\t\t\tether_type\t18",
      "101\t1970-01-01T00:00:00.000001000Z\t\tskipped\t0"]),
]
# Comments on a packet: their bytes; in JSON, where each byte above 127 of a text that is not UTF-8 is U+FFFD; in a row; as a field of CSV.
COMMENTS = [
    (b"seen on port 3", "seen on port 3", b"seen on port 3", b"seen on port 3"),
    (b"a\tb\nc\rd\\e", "a\tb\nc\rd\\e", rb"a\tb\nc\rd\\e", b'"a\tb\nc\rd\\e"'),
    (b'say "hi", now', 'say "hi", now', b'say "hi", now', b'"say ""hi"", now"'),
    ("Gr\u00fc\u00dfe \U0001f600".encode(), "Gr\u00fc\u00dfe \U0001f600", "Gr\u00fc\u00dfe \U0001f600".encode(), "Gr\u00fc\u00dfe \U0001f600".encode()),
    (b"\xff\xc3(", "\ufffd\ufffd(", b"\xff\xc3(", b"\xff\xc3("),
    (b"\x00\x01\x1f\x7f", "\x00\x01\x1f\x7f", b"\x00\x01\x1f\x7f", b"\x00\x01\x1f\x7f"),
    (b"", "", b"", b""),
]
# bits 0 and 1 of the flags of a packet (draft-ietf-opsawg-pcapng, 4.3.1), with others: unicast, promiscuous, errors
DIRECTIONS = [(0x04, None), (0x05, "inbound"), (0xFF00_0012, "outbound"), (0x0B, None)]


def optioned(options, order="little", number=6):
    """A block of a packet of 14 bytes on interface 0, after a microsecond, with these options: codes and values."""
    told = b"".join(code.to_bytes(2, order) + len(it).to_bytes(2, order) + it + bytes(-len(it) % 4) for code, it in options)
    words = b"".join(it.to_bytes(4, order) for it in (0, 0, 1, 14, 14))
    body = words + joined("020000000001 020000000002 88b5 0000") + told + (bytes(4) if options else b"")
    total_len = (12 + len(body)).to_bytes(4, order)
    return number.to_bytes(4, order) + total_len + body + total_len


def with_comments():
    """A capture with these comments, and one packet without any."""
    return SECTION_HEADER + ETHERNET + b"".join(optioned([(1, it[0]), (1, b"second")]) for it in COMMENTS) + optioned([])


def with_directions(number=6):
    """A capture with these directions, and one packet without any."""
    return SECTION_HEADER + ETHERNET + b"".join(optioned([(2, it.to_bytes(4, "little"))], number=number) for it, _ in DIRECTIONS) + optioned([], number=number)


# five VLAN tags in one frame, and none in the next
MANY_TAGS = classic(joined("ffffffffffff 020000000001", *(f"8100 000{it}" for it in range(1, 6)), "0800"), joined("ffffffffffff 020000000001 0800"))
PROTOCOLS = {"type", "pro", "protocol"}  # columns in which a number is spelled as an ether type


def columns_of(packet):
    """All columns of a packet, by hand from its members: each section with its members' values, and commas between those of several headers."""
    sections = [("frame", {it: packet[it] for it in ("number", "time", "link", "captured", "original", "interface", "direction", "comment", "file")})]
    time = packet["time"]
    sections.append(("frame", dict(zip(("minute", "hour", "day"), (time[:16] + "Z", time[:13] + "Z", time[:10]) if time else [None] * 3))))
    for it in packet["headers"]:
        sections += [(it["header"], it), ("headers", {name: it[name] for name in ("header", "start", "end", "payload_end", "closed")})]
    sections += [(name, packet[name]) for name in ("rest", "fault") if name in packet]

    def spelled(name, value):
        if value is None:
            return ""
        if isinstance(value, bool):
            return "true" if value else "false"
        return f"0x{value:04X}" if name in PROTOCOLS and isinstance(value, int) else str(value)

    columns = {}
    for section, members in sections:
        for name, value in members.items():
            columns.setdefault(f"{section}.{name}", []).append(spelled(name, value))
    return {name: ",".join(values) for name, values in columns.items()}


# Seconds since 1970 at the ends of months and of leap days, as `date -u -d @SECONDS` prints them.
MOMENTS = [
    (0, "1970-01-01T00:00:00"), (86399, "1970-01-01T23:59:59"), (68169599, "1972-02-28T23:59:59"), (68169600, "1972-02-29T00:00:00"),
    (68256000, "1972-03-01T00:00:00"), (94694399, "1972-12-31T23:59:59"), (951782400, "2000-02-29T00:00:00"),
    (951868800, "2000-03-01T00:00:00"), (978307199, "2000-12-31T23:59:59"), (978307200, "2001-01-01T00:00:00"),
    (4107542399, "2100-02-28T23:59:59"), (4107542400, "2100-03-01T00:00:00"), (4294967295, "2106-02-07T06:28:15"),
]


def objects(program, words, capture):
    """The objects of JSON that are printed, and the status."""
    text, status = run(program, words, capture)
    return [json.loads(line) for line in text.splitlines()], status


def csv_bytes(program, words, capture):
    """What is printed as CSV, byte for byte, and the status."""
    done = subprocess.run([program, "--format", "csv", *words], input=capture, capture_output=True, check=False)
    return done.stdout.decode(), done.returncode


def raw_bytes(program, words, capture):
    """What is printed, byte for byte."""
    return subprocess.run([program, *words], input=capture, capture_output=True, check=False).stdout


def csv_records(program, words, capture):
    """The records that Python reads, and the status; each must end with CR LF."""
    text, status = csv_bytes(program, words, capture)
    ends = {it[-2:] for it in text.splitlines(keepends=True)} - {"\r\n"}
    return [*csv.reader(io.StringIO(text, newline=""), strict=True), *ends], status


def members(program, words, capture, name):
    """This member of each object."""
    return [it[name] for it in objects(program, words, capture)[0]]


def with_bytes(told, after):
    """A packet with the bytes after its headers at the end of its object, which have the check sequence."""
    name = "rest" if "rest" in told else "fault"
    headers = [{**it, "fcs": None} if "fcs" in it else it for it in told["headers"]]
    return {**told, "headers": headers, name: {**told[name], "bytes": after}}


def reserved(program, words, capture, name):
    """The reserved bits of the headers of a name, the last member of each, or None."""
    headers = [it for packet in objects(program, words, capture)[0] for it in packet["headers"] if it["header"] == name]
    return [dict([*it.items()][-1:]).get("reserved") for it in headers]


def found_in_lines(program, words, capture, form):
    """What the first group of the form is, in each line that has it."""
    text, _ = run(program, words, capture)
    return [told[1] for told in (re.search(form, line) for line in text.splitlines()) if told]


def second_words(program, words, capture):
    return [line.split()[1] for line in run(program, words, capture)[0].splitlines()]


def examples(program):
    """Whole lines, and their members."""
    for name, capture, status, packets in PACKETS:
        yield f"{name} as JSON", partial(objects, program, JSON, capture), (packets, status)
        # keys stand in this order, without spaces, and each object on a line of its own
        lines = "".join(json.dumps(it, separators=(",", ":")) + "\n" for it in packets)
        yield f"{name} as JSON, byte for byte", partial(run, program, JSON, capture), (lines, status)
        yield f"{name} for the eye", partial(run, program, BRIEF, capture), ("".join(f"{it}\n" for it in BRIEF_LINES[name]), status)
        told = "".join(json.dumps(with_bytes(*it), separators=(",", ":")) + "\n" for it in zip(packets, AFTER_HEADERS[name], strict=True))
        yield f"{name} as JSON with bytes", partial(run, program, [*JSON, "--bytes"], capture), (told, status)
    for capture, name, bits in RESERVED:
        yield f"reserved bits of {name}", partial(reserved, program, [*JSON, "--bytes"], capture, name), bits
        yield f"reserved bits of {name} without bytes", partial(reserved, program, JSON, capture, name), [None] * len(bits)
    for seconds, date in MOMENTS:
        capture = classic() + seconds.to_bytes(4, "big") + joined("0000002a", "00000001" * 2, "00")
        yield f"the date of {seconds}", partial(members, program, JSON, capture, "time"), [f"{date}.000042000Z"]
        yield f"the date of {seconds} for the eye", partial(second_words, program, BRIEF, capture), [f"{date}.000042Z"]
    for words, form, wanted in LATE_TIMES:
        yield f"late times {words}", partial(found_in_lines, program, words, LATE, form), wanted
    for words, end in BRIEF_ENDS:
        capture, line = classic(joined("ffffffffffff 020000000001", words)), f"1 2023-11-14T22:13:20.000000Z 02:00:00:00:00:01 > {BROADCAST} {end}\n"
        yield f"{words} for the eye", lambda given=capture: run(program, BRIEF, given)[0], line
    for name, capture, columns, status, rows in ROWS:
        lines = "".join(f"{it}\n" for it in rows)
        yield f"{name} in columns", partial(run, program, ["--fields", columns], capture), (lines, status)
        heading = columns.replace(",", "\t") + "\n"
        yield f"{name} in columns, with their names", partial(run, program, ["--header", "--fields", columns], capture), (heading + lines, status)
        cells = [it.split("\t") for it in rows]
        yield f"{name} as CSV", partial(csv_records, program, ["--fields", columns], capture), (cells, status)
        yield f"{name} as CSV, with names", partial(csv_records, program, ["--header", "--fields", columns], capture), ([columns.split(","), *cells], status)
    for name, capture, status, packets in PACKETS:
        found = [columns_of(it) for it in packets]
        names = sorted({column for it in found for column in it})
        for at in range(0, len(names), 32):
            some = names[at:at + 32]
            lines = "".join("\t".join(it.get(column, "") for column in some) + "\n" for it in found)
            yield f"{name} in all columns, from {some[0]} on", partial(run, program, ["--fields", ",".join(some)], capture), (lines, status)
    comments = with_comments()
    yield "comments as JSON", partial(members, program, JSON, comments, "comment"), [*(it[1] for it in COMMENTS), None]
    yield "comments in rows", partial(raw_bytes, program, ["--fields", "frame.comment,frame.number"], comments), b"".join(
        it + b"\t%d\n" % number for number, it in enumerate([*(it[2] for it in COMMENTS), b""], 1))
    yield "comments as CSV", partial(raw_bytes, program, ["--format", "csv", "--fields", "frame.comment,frame.number"], comments), b"".join(
        it + b",%d\r\n" % number for number, it in enumerate([*(it[3] for it in COMMENTS), b""], 1))
    yield "control characters as JSON", partial(raw_bytes, program, JSON, SECTION_HEADER + ETHERNET + optioned([(1, b"\t\"\\")])), (
        b'{"number":1,"time":"1970-01-01T00:00:00.000001000Z","link":1,"captured":14,"original":14,"interface":0,"direction":null,'
        b'"comment":"\\u0009\\"\\\\","file":null,"headers":[{"header":"eth","start":0,"end":14,"payload_end":14,"closed":false,"dst":"02:00:00:00:00:01",'
        b'"src":"02:00:00:00:00:02","type":34997,"fcs":null}],"rest":{"start":14,"end":14,"kind":"ether_type","type":34997}}\n')
    for name, number in (("", 6), (" of obsolete packet blocks", 2)):
        yield f"directions as JSON{name}", partial(members, program, JSON, with_directions(number), "direction"), [*(it for _, it in DIRECTIONS), None]
        yield f"directions in rows{name}", partial(run, program, ["--fields", "frame.direction"], with_directions(number)), (
            "".join(f"{it or ''}\n" for it in [*(it for _, it in DIRECTIONS), None]), 0)
    big = joined("0a0d0d0a 0000001c 1a2b3c4d 00010000 ffffffffffffffff 0000001c", "00000001 00000014 00010000 00000000 00000014")
    flagged = optioned([(3, b"hash"), (2, joined("00000002")), (1, b"of b"), (2, joined("00000001"))], "big")
    yield "the first options, most significant byte first", partial(run, program, ["--fields", "frame.direction,frame.comment"], big + flagged), ("outbound\tof b\n", 0)
    yield "flags of two bytes", partial(run, program, ["--fields", "frame.direction"], SECTION_HEADER + ETHERNET + optioned([(2, b"\1\0")])), ("\n", 0)
    yield "the example of the documentation", partial(run, program, JSON, DOCUMENTED), (DOCUMENTED_LINE, 0)
    whole = run(program, JSON, CLASSIC)[0]
    first, second = whole.splitlines(keepends=True)
    yield from [
        ("JSON of the lines that --format lines prints", partial(run, program, ["--format", "lines"], CLASSIC), run(program, [], CLASSIC)),
        ("JSON of a limit", lambda: [len(it) for it in members(program, [*JSON, "--limit", "0"], CLASSIC, "headers")], [1, 1]),
        ("JSON of a filter, with numbers of the capture", partial(run, program, [*JSON, "--select", "not refused"], CLASSIC), (second, 0)),
        ("JSON of one packet", partial(run, program, [*JSON, "-c", "1"], CLASSIC), (first, 1)),
        ("JSON of no packet", partial(run, program, JSON, CLASSIC[:24]), ("", 0)),
        ("names of columns without a packet", partial(run, program, ["--header", "--fields", "vlan.vid,eth.src"], CLASSIC[:24]),
         ("vlan.vid\teth.src\n", 0)),
        ("CSV, byte for byte", partial(csv_bytes, program, ["--header", "--fields", "frame.number,eth.src,vlan.vid,rest.type"], ROWS[0][1]),
         ('frame.number,eth.src,vlan.vid,rest.type\r\n1,02:00:00:00:00:01,5,0x0800\r\n2,02:00:00:00:00:01,"5,100",0x86DD\r\n', 0)),
        ("CSV of more than four headers", partial(csv_bytes, program, ["--fields", "vlan.vid,eth.type,headers.header,arp.op"], MANY_TAGS),
         ('"1,2,3,4,5",0x8100,"eth,vlan,vlan,vlan,vlan,vlan",\r\n,0x0800,eth,\r\n', 0)),
        ("names of columns as CSV without a packet", partial(csv_bytes, program, ["--header", "--fields", "vlan.vid,eth.src"], CLASSIC[:24]),
         ("vlan.vid,eth.src\r\n", 0)),
        ("columns of a filter", partial(run, program, ["--fields", "frame.number", "--select", "not refused"], CLASSIC), ("2\n", 0)),
        ("32 columns", partial(run, program, ["--fields", ",".join(["frame.link"] * 32)], CLASSIC), (("\t".join(["1"] * 32) + "\n") * 2, 1)),
        ("JSON of six", partial(members, program, JSON, classic(*SIX), "number"), [1, 2, 3, 4, 5, 6]),
    ]
    # of a capture that is cut, whole lines alone
    for end in range(24, len(CLASSIC)):
        lines = first if end >= 59 else ""
        at, needed = (24, 35 if end >= 40 else 16) if end < 59 else (59, 62 if end >= 75 else 16)
        said = INPUT + record_is_cut(at, needed, end - at) if end not in (24, 59) else ""
        status = 3 if said else (1 if lines else 0)
        yield f"JSON of {end} bytes", partial(run_apart, program, JSON, CLASSIC[:end]), (lines, said, status)


# ---- the programs of others

def drawn(count):
    """Frames of Ethernet with up to three VLAN tags, then ARP, a SecTag or IPv4."""
    draw = random.Random(20231114)

    def tags():
        types = draw.choice([[], ["8100"], ["8100"], ["88a8", "8100"], ["8100", "8100", "8100"]])
        return "".join(f"{it} {draw.randrange(1 << 16):04x}" for it in types)

    def addresses(*lengths):
        return "".join(draw.randbytes(it).hex() for it in lengths)

    frames = []
    for _ in range(count):
        front = addresses(6, 6) + tags()
        kind = draw.randrange(4)
        if kind == 0:
            frames.append(joined(front, "0806 0001 0800 06 04", f"{draw.randrange(1, 3):04x}", addresses(6, 4, 6, 4)))
        elif kind == 1:
            frames.append(joined(front, f"88e5 {0x2C | draw.randrange(4):02x} 00", addresses(4, 8), draw.randbytes(64).hex()))
        else:
            frames.append(joined(front, "88b5", draw.randbytes(draw.randrange(46, 80)).hex()))
    return frames


FIELDS = ["frame.number", "frame.cap_len", "frame.len", "frame.time_epoch", "eth.dst", "eth.src", "vlan.id", "vlan.priority", "vlan.dei",
          "ieee8021ad.id", "arp.opcode", "arp.src.hw_mac", "arp.src.proto_ipv4", "arp.dst.hw_mac", "arp.dst.proto_ipv4", "macsec.AN", "macsec.PN",
          "macsec.TCI.E", "macsec.TCI.C"]


def seconds_of(time):
    """A time of ISO 8601 with nine decimals as seconds since 1970."""
    whole = datetime.datetime.strptime(time[:19] + "+0000", "%Y-%m-%dT%H:%M:%S%z")
    return f"{int(whole.timestamp())}.{time[20:29]}"


def as_tshark(packet):
    """A packet as the row of those fields."""
    by_name = {}
    for header in packet["headers"]:
        by_name.setdefault(header["header"], []).append(header)
    tags = by_name.get("vlan", [])
    service = [it for it, before in zip(tags, packet["headers"]) if before["type"] == 0x88A8]
    customer = [it for it in tags if it not in service]
    arp, macsec, [link] = by_name.get("arp", []), by_name.get("macsec", []), by_name["eth"]

    def of(headers, member):
        return ",".join(str(it[member]) for it in headers)

    return [*(str(packet[it]) for it in ("number", "captured", "original")), seconds_of(packet["time"]), link["dst"], link["src"],
            of(customer, "vid"), of(customer, "pcp"), of(customer, "dei"), of(service, "vid"), of(arp, "op"), of(arp, "sha"), of(arp, "spa"),
            of(arp, "tha"), of(arp, "tpa"), ",".join(f"0x{it['an']:02x}" for it in macsec), of(macsec, "pn"), of(macsec, "e"), of(macsec, "c")]


def all_tags(packet):
    """The VLAN identifiers of a packet."""
    return ",".join(str(it["vid"]) for it in packet["headers"] if it["header"] == "vlan")


def llc_lengths(program):
    """Lengths of IEEE 802.3, and the addresses of LLC after them: what a line for the eye says of 200 drawn frames is what `tcpdump -e` says."""
    draw = random.Random(802_3)
    even = range(0, 256, 2)  # the lowest bit of an address is not part of its name
    saps = [(0x42, 0x42), (0xAA, 0xAA), *((draw.choice(even), draw.choice(even)) for _ in range(198))]
    wanted = [(draw.randrange(3, 80), *it) for it in saps]
    frames = [joined("0180c2000000 020000000001", f"{len_:04x} {dsap:02x}{ssap:02x}03") + bytes(77) for len_, dsap, ssap in wanted]
    with tempfile.NamedTemporaryFile(suffix=".pcap") as pcap:
        pcap.write(classic(*frames))
        pcap.flush()
        ours, theirs = (subprocess.run([*words, pcap.name], capture_output=True, text=True, check=False).stdout
                        for words in ([program, *BRIEF], ["tcpdump", "-e", "-n", "-t", "-r"]))
    said = re.findall(r" 802\.3 len (\d+) (STP|SNAP|LLC dsap (0x..) ssap (0x..)) 80 bytes\n", ours)
    named = {"STP": ("0x42", "0x42"), "SNAP": ("0xAA", "0xAA")}
    read = [(int(len_), *(int(it, 16) for it in named.get(words, sap))) for len_, words, *sap in ((it[0], it[1], *it[2:]) for it in said)]
    found = re.findall(r", 802\.3, length (\d+): LLC, dsap .*? \((0x..)\) Individual, ssap .*? \((0x..)\) Command", theirs)
    return [("lengths for the eye", read, wanted), ("lengths by tcpdump", [(int(a), int(b, 16), int(c, 16)) for a, b, c in found], wanted)]


def schema(program):
    """The worked examples, and 500 drawn packets, are as the schema says."""
    if subprocess.run([PYTHON, "-c", "import jsonschema"], stderr=subprocess.DEVNULL, check=False).returncode:
        print("left out: JSON with its schema, since jsonschema is not there")
        return []
    captures = [it[1] for it in PACKETS] + [LATE, classic(*drawn(500))]
    packets = (sum(len(it[3]) for it in PACKETS) + 502) * 2 + sum(len(it[2]) for it in RESERVED)
    with tempfile.NamedTemporaryFile() as file:
        for capture, words in [*((it, JSON) for it in captures), *((it, [*JSON, "--bytes"]) for it in [*captures, *(it[0] for it in RESERVED)])]:
            file.write(subprocess.run([program, *words], input=capture, capture_output=True, check=False).stdout)
        file.flush()
        path = os.path.join(os.path.dirname(os.path.dirname(os.path.abspath(__file__))), "docs", "packet.schema.json")
        done = subprocess.run([PYTHON, "-c", SCHEMA, path, file.name], capture_output=True, text=True, check=False)
    return [("JSON with its schema", (done.stdout.split(), done.stderr), ([str(packets), "0", "False"], ""))]


def interfaces(program):
    """The numbers of the interfaces of 200 drawn packets, one of three each, are those of tshark."""
    draw = random.Random(1)
    wanted = [str(draw.randrange(3)) for _ in range(200)]
    packets = [block(6, f"0{it}000000", "00000000 00000000", "14000000 14000000", "020000000001 020000000002 88b5 010203040506") for it in wanted]
    with tempfile.NamedTemporaryFile(suffix=".pcapng") as file:
        file.write(b"".join([SECTION_HEADER, *[ETHERNET] * 3, *packets]))
        file.flush()
        ours, theirs = (subprocess.run([*words, file.name], capture_output=True, text=True, check=False).stdout.splitlines()
                        for words in ([program, "--fields", "frame.interface"], ["tshark", "-n", "-T", "fields", "-e", "frame.interface_id", "-r"]))
    return [("interfaces", ours, wanted), ("interfaces by tshark", theirs, wanted)]


# the recipe that adds the names of interfaces to columns
NAMED = r"""capinfos "$1" | sed -n 's/^Interface #\([0-9]*\) info:/\1/p;s/^ *Name = //p' | paste - - | sort > "$2"
"$0" --fields frame.interface,frame.number "$1" | sort -k 1,1 | join -t "$(printf '\t')" "$2" -"""


def interface_names(program):
    """The names that the recipe finds of the interfaces of 50 drawn packets are those of tshark."""
    draw = random.Random(3)
    named = [block(1, "0100 0000 00000000", f"0200 {len(it):02x}00", it.hex(), "00" * (-len(it) % 4), "00000000") for it in (b"eth0", b"uplink 1", b"\xc3\xa9")]
    packets = [block(6, f"0{draw.randrange(3)}000000", "00000000 00000000", "0e000000 0e000000", "020000000001 020000000002 88b5 0000") for _ in range(50)]
    with tempfile.NamedTemporaryFile(suffix=".pcapng") as file, tempfile.NamedTemporaryFile() as names:
        file.write(b"".join([SECTION_HEADER, *named, *packets]))
        file.flush()
        ours = subprocess.run(["bash", "-c", NAMED, program, file.name, names.name], capture_output=True, text=True, check=False).stdout
        theirs = subprocess.run(["tshark", "-n", "-r", file.name, "-T", "fields", "-e", "frame.interface_id", "-e", "frame.interface_name", "-e", "frame.number"],
                                capture_output=True, text=True, check=False).stdout
    return [("names of interfaces by capinfos and join", sorted(ours.splitlines()), sorted(theirs.splitlines())),
            ("packets with such a name", len(ours.splitlines()), 50)]


def flags_and_comments(program):
    """The directions and the first comments of 200 drawn packets are those of tshark."""
    draw = random.Random(2)
    signs = "abc \u00e9\u4e2d\U0001f600\t\n\r\",'"
    told = [(draw.randrange(4), "".join(draw.choice(signs) for _ in range(draw.randrange(1, 20)))) for _ in range(200)]
    flags = [(2, kind.to_bytes(4, "little")) for kind, _ in told]
    packets = [optioned(draw.sample([(1, text.encode()), flag], 2)) for (_, text), flag in zip(told, flags)]
    with tempfile.NamedTemporaryFile(suffix=".pcapng") as file:
        file.write(b"".join([SECTION_HEADER, ETHERNET, *packets]))
        file.flush()
        ours, theirs = ([line.split("\t") for line in subprocess.run([*words, file.name], capture_output=True, check=False).stdout.decode().split("\n")[:-1]]
                        for words in ([program, "--fields", "frame.direction,frame.comment"],
                                      ["tshark", "-n", "-T", "fields", "-e", "frame.packet_flags_direction", "-e", "frame.comment", "-r"]))
    words = ["", "inbound", "outbound", ""]
    theirs = [[words[int(number, 16)], text] for number, text in theirs]
    return [("directions and comments", len(ours), 200), ("directions and comments by tshark", ours, theirs)]


def readers(program):
    """20,000 drawn packets: the fields are those of tshark; jq, Miller and pandas read what json reads."""
    frames = drawn(20_000)
    capture = classic(*frames)
    with tempfile.NamedTemporaryFile(suffix=".jsonl") as file, tempfile.NamedTemporaryFile(suffix=".pcap") as pcap:
        file.write(subprocess.run([program, *JSON], input=capture, capture_output=True, check=False).stdout)
        file.flush()
        pcap.write(capture)
        pcap.flush()
        packets = [json.loads(line) for line in open(file.name, encoding="ascii")]
        rows = [as_tshark(it) for it in packets]
        ours = subprocess.run([program, "--fields", "frame.number,frame.captured,eth.dst,eth.src,arp.op,arp.spa,macsec.pn", pcap.name], capture_output=True,
                              text=True, check=False).stdout.splitlines()
        theirs = ["\t".join(it[at] for at in (0, 1, 4, 5, 10, 12, 16)) for it in rows]  # equal to the rows of tshark, below
        tried = [("20,000 objects of JSON", len(packets), 20_000), ("20,000 rows of columns", ours, theirs)]
        words = [word for it in FIELDS for word in ("-e", it)]
        # tshark encloses every field, so what Python reads is compared
        columns = ["frame.number", "frame.captured", "frame.original", "eth.dst", "eth.src", "arp.spa", "macsec.pn", "vlan.vid"]
        records, _ = csv_records(program, ["--fields", ",".join(columns)], capture)
        tried.append(("20,000 records of CSV", records, [[*(row[at] for at in (0, 1, 2, 4, 5, 12, 16)), all_tags(it)] for row, it in zip(rows, packets)]))
        readers_of = {
            "tshark": (["tshark", "-n", "-r", pcap.name, "-T", "fields", *words],
                       lambda text: [dict(zip(FIELDS, line.split("\t"))) for line in text.splitlines()],
                       [dict(zip(FIELDS, row)) for row in rows]),
            "jq": (["jq", "-c", "[.number, [.headers[] | select(.header == \"vlan\").vid]]", file.name],
                   lambda text: [json.loads(line) for line in text.splitlines()],
                   [[it["number"], [h["vid"] for h in it["headers"] if h["header"] == "vlan"]] for it in packets]),
            "mlr": (["mlr", "--ijsonl", "--ocsv", "--headerless-csv-output", "flatten", "then", "cut", "-o", "-f", "number,captured,headers.1.src", file.name],
                    lambda text: text.splitlines(), [f"{it['number']},{it['captured']},{it['headers'][0]['src']}" for it in packets]),
            PYTHON: ([PYTHON, "-c", PANDAS, file.name], lambda text: text.split(),
                                 ["20000", str(sum(it["captured"] for it in packets)), str(sum(len(it["headers"]) for it in packets)), "0"]),
        }
        for name, (words, read, wanted) in readers_of.items():
            if not which(name) or (name == PYTHON and subprocess.run([PYTHON, "-c", "import pandas"], stderr=subprocess.DEVNULL, check=False).returncode):
                print(f"left out: JSON with {'pandas' if name == PYTHON else name}, since it is not there")
                continue
            done = subprocess.run(words, capture_output=True, text=True, check=False)
            tried.append((f"JSON with {name}", (read(done.stdout), done.returncode), (wanted, 0)))
    return tried + schema(program)


PYTHON = "/usr/bin/python3"  # that of Debian, which has its pandas
SCHEMA = """import json, sys, jsonschema
schema, *lines = open(sys.argv[1]), *open(sys.argv[2])
check = jsonschema.Draft202012Validator(json.load(schema))
packets = [json.loads(line) for line in lines]
print(len(packets), sum(not check.is_valid(it) for it in packets))
wrong = json.loads(lines[0])
del wrong["headers"][0]["dst"]
print(check.is_valid(wrong))"""
PANDAS = """import sys, pandas
all = pandas.read_json(sys.argv[1], lines=True)
times = pandas.to_datetime(all.time)
print(len(all), all.captured.sum(), all.headers.map(len).sum(), times.isna().sum())"""
