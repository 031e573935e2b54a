"""Tests what `ether_make` writes and how it ends.

    python3 tests/ether_make.py PROGRAM [WORD] [--capture ETHER_CAPTURE]

PROGRAM is the built program, WORD one that the names of the cases have which are run, all if it is left out. The frames that are expected
were written by hand, field by field, from the standards; if scapy and tshark are there, frames are also compared with scapy's, and the
captures with what tshark reads in them. The last line is 'N passed, M failed'.
"""

import argparse
import json
import os
import re
import resource
import select
import shutil
import struct
import subprocess
import sys
import tempfile
import zlib
from dataclasses import dataclass

from programs import count
from ranges import range_cases
from sent_frames import sent_cases
from written_files import make_cases


@dataclass
class Frame:
    """Lines, and the frames that they mean, which have a link type (1, 113 and 276 of the tcpdump group) and a time."""

    name: str
    lines: str
    frames: list
    link: int = 1
    time: tuple = (0, 0)


@dataclass
class Refused:
    """Lines, what the program says of them after its name, and the frames of the lines before that one."""

    name: str
    lines: str
    said: str
    frames: tuple = ()
    link: int = 1


NO_OPTION, NO_VALUE, NO_NUMBER = "there is no such option; try --help", "the value is missing; try --help", "is no number from 0 on"
WRONG_WORDS = {
    "--hax": f"--hax: {NO_OPTION}", "one --hax": f"--hax: {NO_OPTION}", "-x": f"-x: {NO_OPTION}", "--hax=5": f"--hax=5: {NO_OPTION}",
    "--count": f"--count: {NO_VALUE}", "-w": f"-w: {NO_VALUE}", "--seed --pad": f"--seed: {NO_VALUE}",
    "--count x": f"--count: x {NO_NUMBER}", "--seed 0x5": f"--seed: 0x5 {NO_NUMBER}", "--seed=18446744073709551616": f"--seed: 18446744073709551616 {NO_NUMBER}",
    "--rate 0": "--rate: 0 is no number from 1 on", "--rate 1.5": "--rate: 1.5 is no number from 1 on",
    "--pad --pad": "these words do not go together; try --help", "--count 1 --count 2": "these words do not go together; try --help",
}


def line(*headers, **members):
    return json.dumps({"headers": list(headers), **members}) + "\n"


ETH = {"header": "eth", "dst": "00:00:5e:00:01:01", "src": "02:00:00:00:00:01"}
ADDRESSES = "00005e000101" "020000000001"

FRAMES = [
    Frame("no line", "", []),
    Frame("an empty line means nothing", "\n\n", []),
    Frame("a line of whitespace means nothing (RFC 8259, 2)", " \n\t\n\r\n \t \r", []),
    Frame("members of one name in two objects", line({"header": "eth", "type": 1}, {"header": "vlan", "type": 1}), ["00" * 12 + "0001" "0000" "0001"]),
    Frame("127 levels", '{"headers":[],"number":' + "[" * 126 + "]" * 126 + "}\n", [""]),
    Frame("lines that end in a carriage return", line(ETH).replace("\n", "\r\n") + "\r\n" + line(ETH).replace("\n", "\r\n"), [ADDRESSES + "0000"] * 2),
    Frame("no header", line(), [""]),
    Frame("a header with nothing given", line({"header": "eth"}), ["00" * 14]),
    Frame("addresses (IEEE 802.3, 3.2)", line({**ETH, "type": 0x0800}), [ADDRESSES + "0800"]),
    Frame("null is missing", line({**ETH, "type": None, "fcs": None}), [ADDRESSES + "0000"]),
    Frame("what only describes", line({**ETH, "start": 0, "end": 99, "payload_end": 3, "closed": True}, number=7), [ADDRESSES + "0000"]),
    Frame("a tag (IEEE 802.1Q, 9.6)", line(ETH, {"header": "vlan", "pcp": 5, "dei": 1, "vid": 0x123, "type": 0x0800}),
          [ADDRESSES + "8100" "b123" "0800"]),
    Frame("a type that is wrong on purpose", line({**ETH, "type": 0x88A8}, {"header": "vlan"}), [ADDRESSES + "88a8" "0000" "0000"]),
    Frame("two tags", line(ETH, {"header": "vlan", "vid": 1}, {"header": "vlan", "vid": 4095}), [ADDRESSES + "8100" "0001" "8100" "0fff" "0000"]),
    # RFC 826, "Packet format", with the values of "An Example": a request for an address of IPv4 over Ethernet
    Frame("an ARP request", line({**ETH, "dst": "ff:ff:ff:ff:ff:ff"}, {"header": "arp", "sha": "02:00:00:00:00:01", "spa": "10.9.0.1", "tpa": "10.9.0.2"}),
          ["ffffffffffff" "020000000001" "0806" "0001" "0800" "06" "04" "0001" "020000000001" "0a090001" "000000000000" "0a090002"]),
    Frame("an ARP reply in a VLAN", line(ETH, {"header": "vlan", "vid": 7}, {"header": "arp", "op": 2}),
          [ADDRESSES + "8100" "0007" "0806" "0001" "0800" "06" "04" "0002" + "00" * 20]),
    Frame("sizes by the addresses", line(ETH, {"header": "arp", "hrd": 32, "sha": "01:02:03:04:05:06:07:08", "spa": "aa:bb"}),
          [ADDRESSES + "0806" "0020" "0800" "08" "02" "0001" "0102030405060708" "aabb" + "00" * 10]),
    Frame("no hardware address", line(ETH, {"header": "arp", "hln": 0, "sha": "", "tha": ""}),
          [ADDRESSES + "0806" "0001" "0800" "00" "04" "0001" + "00" * 8]),
    # IEEE 802.1AE, 9.3 to 9.9: V, ES, SC, SCB, E, C, AN; two bits of 0, SL; PN; SCI; and the ether type after it
    Frame("a SecTag", line(ETH, {"header": "macsec", "an": 1, "pn": 5}), [ADDRESSES + "88e5" "01" "00" "00000005" "0000"]),
    Frame("a SecTag with an SCI", line(ETH, {"header": "macsec", "es": 1, "scb": 1, "sl": 47, "sci": "02:00:00:00:00:01:00:01"}),
          [ADDRESSES + "88e5" "70" "2f" "00000000" "0200000000010001" "0000"]),
    Frame("an SCI of zeros", line(ETH, {"header": "macsec", "sc": 1}), [ADDRESSES + "88e5" "20" "00" "00000000" "0000000000000000" "0000"]),
    Frame("no SCI", line(ETH, {"header": "macsec", "sc": 0, "sci": None}), [ADDRESSES + "88e5" "00" "00" "00000000" "0000"]),
    Frame("an encrypted payload", line(ETH, {"header": "macsec", "payload": "encrypted", "e": 1, "c": 1}, rest={"bytes": "beef"}),
          [ADDRESSES + "88e5" "0c" "00" "00000000" "beef"]),
    Frame("a changed payload", line(ETH, {"header": "macsec", "c": 1}), [ADDRESSES + "88e5" "04" "00" "00000000"]),
    Frame("a version that is wrong on purpose", line(ETH, {"header": "macsec", "v": 1, "reserved": 3, "sl": 63, "an": 3, "pn": 4294967295}),
          [ADDRESSES + "88e5" "83" "ff" "ffffffff" "0000"]),
    Frame("a tag after a SecTag", line(ETH, {"header": "macsec"}, {"header": "vlan", "vid": 5}),
          [ADDRESSES + "88e5" "00" "00" "00000000" "8100" "0005" "0000"]),
    Frame("a SecTag after a tag", line(ETH, {"header": "vlan", "vid": 5}, {"header": "macsec"}),
          [ADDRESSES + "8100" "0005" "88e5" "00" "00" "00000000" "0000"]),
    # IEEE 802.1AE, C.1: a frame of 54 octets that GCM-AES-128 protects and does not encrypt
    Frame("the standard's example of MACsec",
          line({"header": "eth", "dst": "d6:09:b1:f0:56:63", "src": "7a:0d:46:df:99:8d"},
               {"header": "macsec", "an": 2, "sl": 42, "pn": 0xB2C28465, "sci": "12:15:35:24:c0:89:5e:81", "type": 2048},
               rest={"bytes": "".join(f"{byte:02x}" for byte in range(0x0F, 0x35)) + "0001" "f09478a9b09007d06f46e9b6a1da25dd"}),
          ["d609b1f056637a0d46df998d88e5222ab2c2846512153524c0895e8108000f101112131415161718191a1b1c1d1e1f202122232425262728292a2b2c2d2e2f30313233340001"
           "f09478a9b09007d06f46e9b6a1da25dd"]),
    # LINKTYPE_LINUX_SLL: packet type, ARPHRD type, length of the address, eight bytes of it, protocol
    Frame("a cooked header with nothing given", line({"header": "sll"}), ["0000" "0001" "0006" "0000000000000000" "0000"], 113),
    Frame("a cooked header", line({"header": "sll", "packet_type": 4, "hw_type": 1, "addr_len": 6, "addr": "02:00:00:00:00:01", "protocol": 2048}),
          ["0004" "0001" "0006" "0200000000010000" "0800"], 113),
    Frame("the length of an address", line({"header": "sll", "addr": "0a:0b:0c"}), ["0000" "0001" "0003" "0a0b0c0000000000" "0000"], 113),
    Frame("no address", line({"header": "sll", "hw_type": 772, "addr_len": 0, "addr": ""}), ["0000" "0304" "0000" "0000000000000000" "0000"], 113),
    Frame("an address of 20 bytes, cut off", line({"header": "sll", "hw_type": 32, "addr_len": 20, "addr": "01:02:03:04:05:06:07:08"}),
          ["0000" "0020" "0014" "0102030405060708" "0000"], 113),
    Frame("an address of 300 bytes, cut off", line({"header": "sll", "addr_len": 300, "addr": "01:02:03:04:05:06:07:08"}),
          ["0000" "0001" "012c" "0102030405060708" "0000"], 113),
    Frame("a cooked header before a tag", line({"header": "sll"}, {"header": "vlan", "vid": 5}),
          ["0000" "0001" "0006" "0000000000000000" "8100" "0005" "0000"], 113),
    # LINKTYPE_LINUX_SLL2: protocol, 16 bits of 0, interface index, ARPHRD type, packet type, length of the address, eight bytes of it
    Frame("a cooked header of version 2 with nothing given", line({"header": "sll2"}),
          ["0000" "0000" "00000000" "0001" "00" "06" "0000000000000000"], 276),
    Frame("a cooked header of version 2",
          line({"header": "sll2", "protocol": 2054, "if_index": 7, "hw_type": 1, "packet_type": 1, "addr_len": 6, "addr": "02:00:00:00:00:01"}),
          ["0806" "0000" "00000007" "0001" "01" "06" "0200000000010000"], 276),
    Frame("a cooked header of version 2 before ARP", line({"header": "sll2", "addr": "01:02:03:04:05:06:07:08", "reserved": 1}, {"header": "arp"}, link=276),
          ["0806" "0001" "00000000" "0001" "00" "08" "0102030405060708" "0001" "0800" "06" "04" "0001" + "00" * 20], 276),
    Frame("a link type without headers", line(link=105, rest={"bytes": "08"}), ["08"], 105),
    Frame("frames of one link type", line(link=276) + line({"header": "sll2", "addr_len": 0}), ["", "00" * 8 + "0001" "00" "00" + "00" * 8], 276),
    # the times of `date -u -d @SECONDS`
    Frame("a time", line(time="2023-11-14T22:13:20.000001000Z"), [""], 1, (1_700_000_000, 1000)),
    Frame("a time of null", line(time=None), [""]),
    Frame("a time without decimals", line(time="2023-11-14T22:13:20Z"), [""], 1, (1_700_000_000, 0)),
    Frame("a time with one decimal", line(time="2023-11-14T22:13:20.5Z"), [""], 1, (1_700_000_000, 500_000_000)),
    Frame("the last nanosecond of a second", line(time="1970-01-01T00:00:00.999999999Z"), [""], 1, (0, 999_999_999)),
    Frame("a leap day", line(time="2024-02-29T12:00:00Z"), [""], 1, (1_709_208_000, 0)),
    Frame("a leap day of a century", line(time="2000-02-29T00:00:00Z"), [""], 1, (951_782_400, 0)),
    Frame("the last second of a year", line(time="2025-12-31T23:59:59Z"), [""], 1, (1_767_225_599, 0)),
    Frame("the last second with 32 bits", line(time="2106-02-07T06:28:15.999999999Z"), [""], 1, (4_294_967_295, 999_999_999)),
    Frame("bytes after the headers", line({**ETH, "type": 2048}, rest={"kind": "ether_type", "type": 2048, "bytes": "4500001C"}),
          [ADDRESSES + "0800" "4500001c"]),
    Frame("bytes of a fault", line(ETH, fault={"start": 14, "closed": False, "kind": "length", "required": 4, "available": 1, "source": "slice", "value": None,
                                               "bytes": "81"}), [ADDRESSES + "0000" "81"]),
    Frame("a rest that is missing, and a fault", line(ETH, rest=None, fault={"bytes": ""}), [ADDRESSES + "0000"]),
    Frame("reserved bits (IEEE 802.1AE, 9.7)", line(ETH, {"header": "macsec", "sl": 5, "reserved": 2}), [ADDRESSES + "88e5" "00" "85" "00000000" "0000"]),
    Frame("a rest without bytes", line(ETH, rest={"start": 14, "end": 60, "kind": "ether_type", "type": None}), [ADDRESSES + "0000"]),
    Frame("three lines, and one of them empty", line(ETH) + "\n" + line({"header": "eth", "type": 1}), [ADDRESSES + "0000", "00" * 12 + "0001"]),
    Frame("no line feed at the end", line(ETH).strip(), [ADDRESSES + "0000"]),
]

TWICE = "line 1: an object has two members of one name"

REFUSED = [
    Refused("no JSON", "{\n", "line 1: this is no JSON text"),
    Refused("no UTF-8", "\"\udcff\"\n", "line 1: this is no JSON text"),
    Refused("no object", "5\n", "line 1: this is no object"),
    Refused("an array", "[]\n", "line 1: this is no object"),
    Refused("null", "null\n", "line 1: this is no object"),
    Refused("no headers", "{}\n", "line 1: headers is missing"),
    Refused("headers that are no array", '{"headers":{}}\n', "line 1: headers is no array"),
    Refused("an unknown member", '{"headers":[],"head":1}\n', "line 1: head is no member of this object"),
    Refused("a name that clears a terminal", '{"headers":[],"\\u001b[2J\\u0007":1}\n', "line 1: \\u001b[2J\\u0007 is no member of this object"),
    Refused("a name with a line feed", '{"headers":[],"a\\nether_make: b":1}\n', "line 1: a\\u000aether_make: b is no member of this object"),
    Refused("a name with a backslash", '{"headers":[],"a\\\\u001b":1}\n', "line 1: a\\\\u001b is no member of this object"),
    Refused("a name that is not ASCII (RFC 8259, 7)", '{"headers":[],"\u00e9\u202e\U0001d11e\u007f":1}\n', "line 1: \\u00e9\\u202e\\ud834\\udd1e\\u007f is no member of this object"),
    Refused("a name of 64 characters", line(**{"a" * 64: 1}), f"line 1: {'a' * 64} is no member of this object"),
    Refused("a long name", line({**ETH, "b" * 1_000_000: 1}), f"line 1: header 0: {'b' * 64}.. is no member of this object"),
    Refused("a fault without bytes", '{"fault":{},"headers":[]}\n', "line 1: bytes is missing"),
    Refused("a fault whose bytes are null", '{"fault":{"bytes":null},"headers":[]}\n', "line 1: bytes is missing"),
    Refused("a fault that is no object", '{"fault":"45","headers":[]}\n', "line 1: fault is no object"),
    Refused("a fault with the end of a rest", '{"fault":{"end":5,"bytes":"45"},"headers":[]}\n', "line 1: end is no member of this object"),
    Refused("a fault whose bytes are no text", '{"fault":{"bytes":45},"headers":[]}\n', "line 1: bytes is no text"),
    Refused("half a byte of a fault", '{"fault":{"bytes":"450"},"headers":[]}\n', "line 1: bytes spells no bytes"),
    Refused("a rest and a fault", '{"rest":{"bytes":"45"},"fault":{"bytes":"45"},"headers":[]}\n', "line 1: fault is no member of this object"),
    Refused("a fault and a rest", '{"fault":{"bytes":"45"},"rest":{},"headers":[]}\n', "line 1: fault is no member of this object"),
    Refused("the line's number counts empty lines", line(ETH) + "\n" + "x\n", "line 3: this is no JSON text", (ADDRESSES + "0000",)),
    Refused("nothing is read after a line that is refused", line(ETH) + "x\n" + line(ETH), "line 2: this is no JSON text", (ADDRESSES + "0000",)),
    Refused("no name of a header", line({"dst": "ff:ff:ff:ff:ff:ff"}), "line 1: header 0: header is missing"),
    Refused("a name that is no text", line({"header": 5}), "line 1: header 0: header is no text"),
    Refused("an unknown header", line(ETH, {"header": "ipv4"}), "line 1: header 1: header names no header that is made"),
    Refused("a tag first", line({"header": "vlan"}), "line 1: header 0: header names a header that begins no frame"),
    Refused("a member of another header", line({**ETH, "vid": 5}), "line 1: header 0: vid is no member of this object"),
    Refused("the first of two headers", line({**ETH, "a": 5}, {"header": "vlan", "b": 5}), "line 1: header 0: a is no member of this object"),
    Refused("a number that is too big", line(ETH, {"header": "vlan", "vid": 4096}), "line 1: header 1: vid has more bits than the field"),
    Refused("the first of two fields", line(ETH, {"header": "vlan", "vid": 4096, "pcp": 8}), "line 1: header 1: pcp has more bits than the field"),
    Refused("a number below 0", line(ETH, {"header": "vlan", "vid": -1}), "line 1: header 1: vid is no number from 0 on"),
    Refused("a number that is not whole", line(ETH, {"header": "vlan", "vid": 0.5}), "line 1: header 1: vid is no number from 0 on"),
    Refused("a text for a number", line(ETH, {"header": "vlan", "vid": "5"}), "line 1: header 1: vid is no number from 0 on"),
    Refused("a number for an address", line({"header": "eth", "dst": 5}), "line 1: header 0: dst is no text"),
    Refused("an address cut short", line({"header": "eth", "dst": "02:00:00:00:00"}), "line 1: header 0: dst has another number of bytes than the field"),
    Refused("an address with one digit", line({"header": "eth", "dst": "2:0:0:0:0:1"}), "line 1: header 0: dst spells no bytes"),
    Refused("an address that ends in a colon", line({"header": "eth", "dst": "02:00:00:00:00:01:"}), "line 1: header 0: dst spells no bytes"),
    Refused("an address with hyphens", line({"header": "eth", "dst": "02-00-00-00-00-01"}), "line 1: header 0: dst spells no bytes"),
    Refused("an address of IPv4 with 256", line(ETH, {"header": "arp", "spa": "10.0.0.256"}), "line 1: header 1: spa spells no bytes"),
    Refused("an address of IPv4 with a zero before", line(ETH, {"header": "arp", "spa": "10.0.0.01"}), "line 1: header 1: spa spells no bytes"),
    Refused("three numbers", line(ETH, {"header": "arp", "spa": "10.0.0"}), "line 1: header 1: spa has another number of bytes than the field"),
    Refused("sizes that contradict", line(ETH, {"header": "arp", "hln": 8, "sha": "02:00:00:00:00:01"}),
            "line 1: header 1: sha has another number of bytes than the field"),
    Refused("addresses that contradict", line(ETH, {"header": "arp", "sha": "02:00:00:00:00:01", "tha": "02:00"}),
            "line 1: header 1: tha has another number of bytes than the field"),
    Refused("a size above 255", line(ETH, {"header": "arp", "hln": 256}), "line 1: header 1: hln has more bits than the field"),
    Refused("an SCI without its bit", line(ETH, {"header": "macsec", "sc": 0, "sci": "02:00:00:00:00:01:00:01"}),
            "line 1: header 1: sci is a field that this header does not have"),
    Refused("an ether type that is encrypted", line(ETH, {"header": "macsec", "e": 1, "type": 2048}),
            "line 1: header 1: type is a field that this header does not have"),
    Refused("an ether type that is changed", line(ETH, {"header": "macsec", "c": 1, "type": 2048}),
            "line 1: header 1: type is a field that this header does not have"),
    Refused("an SCI cut short", line(ETH, {"header": "macsec", "sci": "02:00:00:00:00:01"}),
            "line 1: header 1: sci has another number of bytes than the field"),
    Refused("an SCI that is a number", line(ETH, {"header": "macsec", "sci": 5}), "line 1: header 1: sci is no text"),
    Refused("an association number above 3", line(ETH, {"header": "macsec", "an": 4}), "line 1: header 1: an has more bits than the field"),
    Refused("a short length above 63", line(ETH, {"header": "macsec", "sl": 64}), "line 1: header 1: sl has more bits than the field"),
    Refused("a packet number with 33 bits", line(ETH, {"header": "macsec", "pn": 1 << 32}), "line 1: header 1: pn has more bits than the field"),
    Refused("a version above 1", line(ETH, {"header": "macsec", "v": 2}), "line 1: header 1: v has more bits than the field"),
    Refused("a flag above 1", line(ETH, {"header": "macsec", "e": 2}), "line 1: header 1: e has more bits than the field"),
    Refused("reserved bits above 3", line(ETH, {"header": "macsec", "reserved": 4}), "line 1: header 1: reserved has more bits than the field"),
    Refused("a flag that is true", line(ETH, {"header": "macsec", "es": True}), "line 1: header 1: es is no number from 0 on"),
    Refused("a SecTag first", line({"header": "macsec"}), "line 1: header 0: header names a header that begins no frame"),
    Refused("an address of another length", line({"header": "sll", "addr_len": 6, "addr": "02:00:00:00:00:00:00:01"}),
            "line 1: header 0: addr has another number of bytes than the field"),
    Refused("an address that is longer than its field", line({"header": "sll", "addr": "01:02:03:04:05:06:07:08:09"}),
            "line 1: header 0: addr has another number of bytes than the field"),
    Refused("an address without its length", line({"header": "sll", "addr_len": 0, "addr": "02:00:00:00:00:01"}),
            "line 1: header 0: addr has another number of bytes than the field"),
    Refused("half of a long address", line({"header": "sll2", "addr_len": 20, "addr": "02:00:00:00:00:01"}),
            "line 1: header 0: addr has another number of bytes than the field"),
    Refused("an address with spaces", line({"header": "sll", "addr": "02 00"}), "line 1: header 0: addr spells no bytes"),
    Refused("an address that is an array", line({"header": "sll", "addr": [2]}), "line 1: header 0: addr is no text"),
    Refused("a length that is a text", line({"header": "sll", "addr_len": "6"}), "line 1: header 0: addr_len is no number from 0 on"),
    Refused("a length with 17 bits", line({"header": "sll", "addr_len": 65536}), "line 1: header 0: addr_len has more bits than the field"),
    Refused("a length with 9 bits", line({"header": "sll2", "addr_len": 256}), "line 1: header 0: addr_len has more bits than the field"),
    Refused("a packet type with 17 bits", line({"header": "sll", "packet_type": 65536}), "line 1: header 0: packet_type has more bits than the field"),
    Refused("a packet type with 9 bits", line({"header": "sll2", "packet_type": 256}), "line 1: header 0: packet_type has more bits than the field"),
    Refused("an interface index with 33 bits", line({"header": "sll2", "if_index": 1 << 32}), "line 1: header 0: if_index has more bits than the field"),
    Refused("a hardware type with 17 bits", line({"header": "sll2", "hw_type": 65536}), "line 1: header 0: hw_type has more bits than the field"),
    Refused("a protocol with 17 bits", line({"header": "sll", "protocol": 65536}), "line 1: header 0: protocol has more bits than the field"),
    Refused("an interface of version 1", line({"header": "sll", "if_index": 1}), "line 1: header 0: if_index is no member of this object"),
    Refused("a type of a cooked header", line({"header": "sll", "type": 2048}), "line 1: header 0: type is no member of this object"),
    Refused("ARP first", line({"header": "arp"}), "line 1: header 0: header names a header that begins no frame"),
    Refused("a section that is no header", line({"header": "frame"}), "line 1: header 0: header names no header that is made"),
    Refused("a name in upper case", line({"header": "ETH"}), "line 1: header 0: header names no header that is made"),
    Refused("a link type of another header", line(ETH, link=113), "line 1: link is not the link type of the first header"),
    Refused("a link type of no header", line(ETH, link=0), "line 1: link is not the link type of the first header"),
    Refused("a link type that is a text", line(ETH, link="1"), "line 1: link is no number from 0 on"),
    Refused("a link type with 17 bits", line(link=65536), "line 1: link has more bits than the field"),
    Refused("a cooked frame after one of Ethernet", line(ETH) + line({"header": "sll"}), "line 2: link is not the link type of the frames before",
            (ADDRESSES + "0000",)),
    Refused("version 2 after version 1", line({"header": "sll"}) + line({"header": "sll2"}), "line 2: link is not the link type of the frames before",
            ("0000" "0001" "0006" "0000000000000000" "0000",), 113),
    Refused("another link type without headers", line() + line(link=113), "line 2: link is not the link type of the frames before", ("",)),
    Refused("headers that are a text", '{"headers":"eth"}\n', "line 1: headers is no array"),
    Refused("a header that is a text", '{"headers":["eth"]}\n', "line 1: header 0: header is missing"),
    Refused("two values in a line", "{} {}\n", "line 1: this is no JSON text"),
    Refused("an object over two lines", '{"headers":\n[]}\n', "line 1: this is no JSON text"),
    Refused("a comment", "// []\n", "line 1: this is no JSON text"),
    Refused("a number in hexadecimal", '{"headers":[{"header":"eth","type":0x800}]}\n', "line 1: this is no JSON text"),
    Refused("two members of one name (RFC 8259, 4)", '{"headers":[{"header":"eth","type":1,"type":2}]}\n', TWICE),
    Refused("two members of one name and value", '{"headers":[{"header":"eth","type":1,"type":1}]}\n', TWICE),
    Refused("two members of one name, and one of them null", '{"headers":[{"header":"eth","type":1,"type":null}]}\n', TWICE),
    Refused("two members whose names are spelled in two ways", '{"headers":[{"header":"eth","type":1,"t\\u0079pe":2}]}\n', TWICE),
    Refused("two lists of headers", '{"headers":[{"header":"eth"}],"headers":[]}\n', TWICE),
    Refused("two members of a rest", line(ETH)[:-2] + ',"rest":{"bytes":"aa","bytes":"bb"}}\n', TWICE),
    Refused("two members of a range", '{"headers":[{"header":"eth","type":{"from":1,"to":2,"to":3}}]}\n', TWICE),
    Refused("two members of what is not used", '{"headers":[],"number":[{"a":1,"a":2}]}\n', TWICE),
    Refused("two members in an array", '[{"a":1,"a":2}]\n', TWICE),
    Refused("two members of one name in the second line", line(ETH) + '{"link":1,"link":1,"headers":[]}\n', TWICE.replace("1", "2"), (ADDRESSES + "0000",)),
    Refused("a number beyond a float", '{"headers":[],"number":1e999}\n', "line 1: this is no JSON text"),
    Refused("400 digits", '{"headers":[],"number":' + "9" * 400 + "}\n", "line 1: this is no JSON text"),
    Refused("half of a surrogate pair", '{"headers":[],"number":"\\ud800"}\n', "line 1: this is no JSON text"),
    Refused("128 levels", '{"headers":[],"number":' + "[" * 127 + "]" * 127 + "}\n", "line 1: this is no JSON text"),
    Refused("whitespace that JSON does not have (RFC 8259, 2)", " \f\n", "line 1: this is no JSON text"),
    Refused("a no-break space", "\u00a0\n", "line 1: this is no JSON text"),
    Refused("the line's number counts blank lines", " \n\r\nx\n", "line 3: this is no JSON text"),
    Refused("a time with 33 bits", line(time="2106-02-07T06:28:16Z"), "line 1: time is a time before 1970 or after 7 February 2106"),
    Refused("a time before 1970", line(time="1969-12-31T23:59:59.999999999Z"), "line 1: time is a time before 1970 or after 7 February 2106"),
    Refused("the year 0", line(time="0000-01-01T00:00:00Z"), "line 1: time is a time before 1970 or after 7 February 2106"),
    Refused("the year 9999", line(time="9999-12-31T23:59:59Z"), "line 1: time is a time before 1970 or after 7 February 2106"),
    Refused("a time of the year 10000", '{"time":253402300800.000000000,"headers":[]}\n', "line 1: time is no text"),
    Refused("a time that is empty", line(time=""), "line 1: time is no date and time of day in UTC"),
    Refused("a date alone", line(time="2023-11-14"), "line 1: time is no date and time of day in UTC"),
    Refused("a time with an offset", line(time="2023-11-14T22:13:20+01:00"), "line 1: time is no date and time of day in UTC"),
    Refused("a time without Z", line(time="2023-11-14T22:13:20.000001000"), "line 1: time is no date and time of day in UTC"),
    Refused("a point without decimals", line(time="2023-11-14T22:13:20.Z"), "line 1: time is no date and time of day in UTC"),
    Refused("ten decimals", line(time="2023-11-14T22:13:20.0000000001Z"), "line 1: time is no date and time of day in UTC"),
    Refused("a decimal that is none", line(time="2023-11-14T22:13:20.00000000aZ"), "line 1: time is no date and time of day in UTC"),
    Refused("a space in place of T", line(time="2023-11-14 22:13:20Z"), "line 1: time is no date and time of day in UTC"),
    Refused("29 February of a year that has none", line(time="2023-02-29T00:00:00Z"), "line 1: time is no date and time of day in UTC"),
    Refused("29 February 2100", line(time="2100-02-29T00:00:00Z"), "line 1: time is no date and time of day in UTC"),
    Refused("31 April", line(time="2023-04-31T00:00:00Z"), "line 1: time is no date and time of day in UTC"),
    Refused("a day of 0", line(time="2023-04-00T00:00:00Z"), "line 1: time is no date and time of day in UTC"),
    Refused("a month of 0", line(time="2023-00-01T00:00:00Z"), "line 1: time is no date and time of day in UTC"),
    Refused("a month of 13", line(time="2023-13-01T00:00:00Z"), "line 1: time is no date and time of day in UTC"),
    Refused("an hour of 24", line(time="2023-04-01T24:00:00Z"), "line 1: time is no date and time of day in UTC"),
    Refused("a minute of 60", line(time="2023-04-01T23:60:00Z"), "line 1: time is no date and time of day in UTC"),
    Refused("a leap second", line(time="2016-12-31T23:59:60Z"), "line 1: time is no date and time of day in UTC"),
    Refused("a check sequence", line({**ETH, "fcs": "00:00:00:00"}), "line 1: header 0: fcs is a field that this header does not have"),
    Refused("a rest that is no object", line(ETH, rest=5), "line 1: rest is no object"),
    Refused("a member of the rest", line(ETH, rest={"text": ""}), "line 1: text is no member of this object"),
    Refused("bytes that are no text", line(ETH, rest={"bytes": 45}), "line 1: bytes is no text"),
    Refused("half a byte", line(ETH, rest={"bytes": "450"}), "line 1: bytes spells no bytes"),
    Refused("a frame that is too long", line(ETH, rest={"bytes": "00" * 262_131}), "line 1: the frame has more than 262144 bytes"),
]


def made(program, lines, *words):
    """What the program writes, what it says, and its status."""
    done = subprocess.run([program, *words], input=lines.encode("utf-8", "surrogateescape"), capture_output=True, check=False)
    return done.stdout, done.stderr.decode(), done.returncode


def made_text(program, lines, *words):
    output, said, status = made(program, lines, *words)
    return output.decode(), said, status


def checked(frame):
    return frame + struct.pack("<I", zlib.crc32(frame))


def capture_of(frames, link=1, time=(0, 0), fcs=None):
    """A capture whose frames all have one time and a check sequence of this length (draft-ietf-opsawg-pcap, sections 4 and 5)."""
    word = link if fcs is None else link | 1 << 26 | fcs // 2 << 28
    return struct.pack("<IHHIIII", 0xA1B23C4D, 2, 4, 0, 0, 262_144, word) + b"".join(
        struct.pack("<IIII", *time, min(len(frame), 262_144), len(frame)) + frame[:262_144] for frame in frames)


def frames_of(capture):
    frames, at = [], 24
    while at < len(capture):
        length = struct.unpack_from("<I", capture, at + 8)[0]
        frames.append(capture[at + 16:at + 16 + length])
        at += 16 + length
    return frames


def frame_cases(program):
    for case in FRAMES:
        yield case.name, made(program, case.lines), (capture_of([bytes.fromhex(it) for it in case.frames], case.link, case.time), "", 0)
    longest = line(ETH, rest={"bytes": "00" * (262_144 - 14)})
    yield "the longest frame", made(program, longest), (capture_of([bytes.fromhex(ADDRESSES + "0000") + bytes(262_130)]), "", 0)


def memory_cases(program):
    """Many lines take the memory of one."""
    def limited():
        resource.setrlimit(resource.RLIMIT_AS, (8 << 20, 8 << 20))

    count_of_lines = 100_000
    lines = line(ETH, {"header": "vlan", "vid": 5}, {"header": "arp"}).encode() * count_of_lines
    done = subprocess.run([program], input=lines, capture_output=True, check=False, preexec_fn=limited)
    frame = bytes.fromhex(ADDRESSES + "8100" "0005" "0806" "0001" "0800" "06" "04" "0001" + "00" * 20)
    yield "100,000 lines in 8 MiB", (hash(done.stdout), done.stderr, done.returncode), (hash(capture_of([frame] * count_of_lines)), b"", 0)


def padded_cases(program):
    """Frames of Ethernet have 60 bytes without their check sequence (IEEE 802.3, 3.2.8), and zeros at their end."""
    for length in (0, 1, 45, 46, 47, 1500):
        frame = bytes.fromhex(ADDRESSES + "0000") + b"\xff" * length
        lines = line(ETH, rest={"bytes": "ff" * length})
        yield f"{length} bytes and padding", made(program, lines, "--pad"), (capture_of([frame.ljust(60, b"\0")]), "", 0)
    yield "no header and padding", made(program, line(), "--pad"), (capture_of([bytes(60)]), "", 0)
    cooked = bytes.fromhex("0000" "0001" "0006" "0000000000000000" "0000")
    yield "no padding of a cooked frame", made(program, line({"header": "sll"}), "--pad"), (capture_of([cooked], 113), "", 0)
    said = made(program, line(ETH) + "x\n", "--pad")
    yield "padding before a refusal", said, (capture_of([bytes.fromhex(ADDRESSES + "0000").ljust(60, b"\0")]), "ether_make: line 2: this is no JSON text\n", 3)


def checked_cases(program):
    """Check sequences of Ethernet (IEEE 802.3, 3.2.9): those of zlib, the least significant byte first."""
    for length in (0, 1, 45, 46, 47, 1500, 262_126, 262_130):
        frame = bytes.fromhex(ADDRESSES + "0000") + b"\xff" * length
        lines = line(ETH, rest={"bytes": "ff" * length})
        yield f"{length} bytes and a check sequence", made(program, lines, "--fcs"), (capture_of([checked(frame)], fcs=4), "", 0)
        yield f"{length} bytes, padding and a check sequence", made(program, lines, "--fcs", "--pad"), (capture_of([checked(frame.ljust(60, b"\0"))], fcs=4), "", 0)
    yield "no header and a check sequence", made(program, line(), "--fcs"), (capture_of([bytes(4)], fcs=4), "", 0)
    yield "the check value of CRC-32", made(program, line(rest={"bytes": b"123456789".hex()}), "--fcs"), (capture_of([b"123456789" + bytes.fromhex("2639f4cb")], fcs=4), "", 0)
    yield "no frame and check sequences", made(program, "", "--fcs"), (capture_of([], fcs=4), "", 0)
    cooked = bytes.fromhex("0000" "0001" "0006" "0000000000000000" "0000")
    yield "no check sequence of a cooked frame", made(program, line({"header": "sll"}), "--fcs"), (capture_of([cooked], 113), "", 0)


def hex_cases(program):
    """Lines of hexadecimal digits."""
    lines = line(ETH) + "\n" + line(rest={"bytes": "00ABff"}) + line()
    yield "lines of hex", made_text(program, lines, "--hex"), (ADDRESSES + "0000\n00abff\n\n", "", 0)
    yield "lines of hex, padding and check sequences", made_text(program, line(ETH), "--hex", "--pad", "--fcs"), (
        checked(bytes.fromhex(ADDRESSES + "0000").ljust(60, b"\0")).hex() + "\n", "", 0)
    yield "no line of hex", made_text(program, "", "--hex"), ("", "", 0)
    tool = os.path.join(os.path.dirname(program), "ether_tool")
    if os.path.exists(tool):
        read = subprocess.run([tool, "eth"], input=made(program, line(ETH, {"header": "vlan", "vid": 5}), "--hex")[0], capture_output=True, check=False)
        yield "lines that ether_tool reads", read.stdout.decode(), "ethernet2 0 00005e000101 020000000001 0x8100\nvlan 14 pcp 0 dei 0 vid 5 0x0000\nrest 18 18 type 0x0000\n"
    yield "lines of hex before a refusal", made_text(program, line(ETH) + "x\n", "--hex"), (ADDRESSES + "0000\n", "ether_make: line 2: this is no JSON text\n", 3)


def refused_cases(program):
    for case in REFUSED:
        before = capture_of([bytes.fromhex(it) for it in case.frames], case.link)
        yield case.name, made(program, case.lines), (before, f"ether_make: {case.said}\n", 3)


def reason_cases():
    """The REASONs in the table of FORMAT are those of the sources, in any order."""
    top = os.path.join(os.path.dirname(os.path.abspath(__file__)), "..")
    with open(f"{top}/crates/ether_make/src/refusal.rt", encoding="utf-8") as file:
        reasons = re.findall(r'Reason::\w+ => "([^"]+)"', file.read())
    with open(f"{top}/docs/FORMAT.md", encoding="utf-8") as file:
        table = file.read().partition("REASON | When\n---|---\n")[2].partition("\n\n")[0]
    yield "the reasons of FORMAT", sorted(it for row in table.splitlines() for it in row.partition(" | ")[0].split(", ")), sorted(reasons)


def word_cases(program):
    def said(*words):
        done = subprocess.run([program, *words], stdin=subprocess.DEVNULL, capture_output=True, check=False)
        return done.stdout.decode(), done.stderr.decode(), done.returncode

    with open(os.path.join(os.path.dirname(os.path.abspath(__file__)), "..", "VERSION"), encoding="utf-8") as file:
        yield "--version", said("--version"), (f"ether_make {file.read().strip()}\n", "", 0)
        yield "-V", said("-V"), said("--version")
    usage = "usage: ether_make [--pad] [--fcs] [--count N] [--seed N] [--rate N] [--hex] [-w FILE] [FILE].."
    yield "--help", (said("--help")[0].splitlines()[0], said("--help")[1:], said("-h")), (usage, ("", 0), said("--help"))
    with subprocess.Popen([program], stdin=subprocess.PIPE, stdout=subprocess.PIPE, stderr=subprocess.PIPE) as closed:
        closed.stdout.close()
        closed.stdin.write(line(ETH).encode())
        closed.stdin.close()
        yield "nobody reads the capture", (closed.stderr.read(), closed.wait()), (b"", 4)
    if os.path.exists("/dev/full"):
        with open("/dev/full", "wb") as full:
            done = subprocess.run([program], input=line(ETH).encode(), stdout=full, stderr=subprocess.PIPE, check=False)
        yield "a full disk", (done.stderr, done.returncode), (b"ether_make: standard output: No space left on device (os error 28)\n", 4)
    folder = os.open(".", os.O_RDONLY)
    done = subprocess.run([program], stdin=folder, capture_output=True, check=False)
    os.close(folder)
    yield "a folder", (done.stdout, done.stderr, done.returncode), (capture_of([]), b"ether_make: standard input: Is a directory (os error 21)\n", 4)
    yield "a word that is no text", said(b"\xff"), ("", "ether_make: an argument is not UTF-8\n", 4)
    for words, wrong in WRONG_WORDS.items():
        yield f"wrong words: {words}", said(*words.split()), ("", f"ether_make: {wrong}\n", 2)


def live_cases(program):
    """What is made of a line is written before the program waits for more."""
    with subprocess.Popen([program, "--hex"], stdin=subprocess.PIPE, stdout=subprocess.PIPE, bufsize=0) as child:
        for name, written, lines in (
            ("a line", line(ETH), 1), ("the next line", line(ETH), 1), ("two lines and a part", line(ETH) * 2 + line(ETH)[:20], 2),
            ("the other part", line(ETH)[20:], 1), ("more lines than a buffer has", line(ETH) * 500, 500), ("a blank line and one", "\n" + line(ETH), 1),
        ):
            child.stdin.write(written.encode())
            wanted = (ADDRESSES + "0000\n") * lines
            yield f"live: {name}", read_soon(child.stdout, len(wanted)), wanted
        child.stdin.close()
        yield "live: the end", (read_soon(child.stdout, 1), child.wait()), ("", 0)
    with subprocess.Popen([program], stdin=subprocess.PIPE, stdout=subprocess.PIPE, bufsize=0) as child:
        child.stdin.write(line(ETH).encode())
        wanted = capture_of([bytes.fromhex(ADDRESSES + "0000")]).decode("latin-1")
        yield "live: a capture", read_soon(child.stdout, len(wanted)), wanted
        child.stdin.close()


def read_soon(pipe, count_of_bytes, seconds=5):
    """So many bytes of a pipe, or those that are there after some seconds."""
    read = b""
    while len(read) < count_of_bytes and select.select([pipe], [], [], seconds)[0]:
        more = os.read(pipe.fileno(), count_of_bytes - len(read))
        if not more:
            break
        read += more
    return read.decode("latin-1")


def scapy_cases(program):
    """The frames that scapy makes of the same fields."""
    try:
        from scapy.contrib.macsec import MACsec  # pylint: disable=import-outside-toplevel
        from scapy.layers.l2 import ARP, Dot1Q, Ether  # pylint: disable=import-outside-toplevel
    except ImportError:
        print("without scapy")
        return
    for number in range(0, 4096, 273):
        vlan, op = {"header": "vlan", "pcp": number % 8, "dei": number % 2, "vid": number}, number * 16
        arp = {"header": "arp", "op": op, "sha": "02:00:00:00:00:0a", "spa": f"10.0.{number % 256}.1", "tha": "02:00:00:00:00:0b", "tpa": "10.0.0.2"}
        theirs = (Ether(dst=ETH["dst"], src=ETH["src"]) / Dot1Q(prio=number % 8, id=number % 2, vlan=number)
                  / ARP(op=op, hwsrc=arp["sha"], psrc=arp["spa"], hwdst=arp["tha"], pdst=arp["tpa"]))
        yield f"scapy's frame {number}", made(program, line(ETH, vlan, arp)), (capture_of([bytes(theirs)]), "", 0)
        sectag = {"header": "macsec", "es": number % 2, "scb": number // 2 % 2, "an": number % 4, "sl": number % 64, "pn": number * 1_000_003,
                  "sci": f"02:00:00:00:00:01:{number // 256:02x}:{number % 256:02x}"}
        theirs = (Ether(dst=ETH["dst"], src=ETH["src"])
                  / MACsec(ES=number % 2, SC=1, SCB=number // 2 % 2, AN=number % 4, SL=number % 64, PN=number * 1_000_003,
                           SCI=bytes.fromhex("020000000001") + number.to_bytes(2, "big"), type=0x8100) / Dot1Q(vlan=number, type=0))
        tagged = line(ETH, sectag, {"header": "vlan", "vid": number})
        yield f"scapy's SecTag {number}", made(program, tagged), (capture_of([bytes(theirs)]), "", 0)


def tshark_cases(program):
    """What tshark reads in captures of all frames: each frame, and no malformed one among those with whole headers."""
    if not shutil.which("tshark"):
        print("without tshark")
        return
    ethernet = [case for case in FRAMES if case.link == 1]
    lines = "".join(case.lines.rstrip("\n") + "\n" for case in ethernet)
    words = ["tshark", "-r", "-", "-T", "fields", "-e", "frame.len", "-e", "eth.src", "-e", "vlan.id", "-e", "arp.dst.proto_ipv4"]
    capture = made(program, lines)[0]
    read = subprocess.run(words, input=capture, capture_output=True, check=False)
    yield "tshark's frames", len(read.stdout.splitlines()), sum(len(case.frames) for case in ethernet)
    request = made(program, next(case for case in FRAMES if case.name == "an ARP request").lines)[0]
    read = subprocess.run(words, input=request, capture_output=True, check=False)
    yield "tshark's ARP request", read.stdout.decode(), "42\t02:00:00:00:00:01\t\t10.9.0.2\n"
    capture = made(program, line(ETH, rest={"bytes": "ff" * 50}) + line(ETH, {"header": "arp"}), "--fcs", "--pad")[0]
    words = ["tshark", "-o", "eth.check_fcs:TRUE", "-r", "-", "-T", "fields", "-e", "frame.len", "-e", "eth.fcs.status"]
    read = subprocess.run(words, input=capture, capture_output=True, check=False)
    yield "tshark's check sequences", read.stdout.decode(), "68\t1\n64\t1\n"
    example = next(case for case in FRAMES if "example of MACsec" in case.name)
    sll = {"header": "sll", "packet_type": 4, "addr": "02:00:00:00:00:01"}
    sll2 = {"header": "sll2", "if_index": 7, "packet_type": 4, "addr": "02:00:00:00:00:01"}
    whole = [("a tag", line(ETH, {"header": "vlan", "vid": 5}, {"header": "arp"}), ["vlan.id", "arp.opcode"], "5\t1"),
             ("the example of MACsec", example.lines, ["macsec.AN", "macsec.SL", "macsec.PN", "macsec.SCI.system_identifier"],
              "0x02\t42\t2999092325\t12:15:35:24:c0:89"),
             ("a cooked frame", line(sll, {"header": "arp", "op": 2}, time="2023-11-14T22:13:20.000001000Z"),
              ["frame.time_epoch", "sll.pkttype", "sll.halen", "sll.src.eth", "sll.etype", "arp.opcode"],
              "1700000000.000001000\t4\t6\t02:00:00:00:00:01\t0x0806\t2"),
             ("a cooked frame of version 2", line(sll2, {"header": "arp", "op": 2}), ["sll.ifindex", "sll.pkttype", "sll.src.eth", "sll.etype"],
              "7\t4\t02:00:00:00:00:01\t0x0806")]
    for name, lines, fields, wanted in whole:
        capture = made(program, lines)[0]
        words = ["tshark", "-r", "-", "-T", "fields", *(word for field in fields for word in ("-e", field))]
        read = subprocess.run(words, input=capture, capture_output=True, check=False)
        yield f"tshark's fields: {name}", read.stdout.decode(), f"{wanted}\n"
        read = subprocess.run(["tshark", "-r", "-", "-V"], input=capture, capture_output=True, check=False)
        yield f"nothing malformed: {name}", (len(read.stdout) > 0, b"alformed" in read.stdout), (True, False)


def file_cases(program):
    """Lines of files, and an output in a file."""
    with tempfile.TemporaryDirectory() as folder:
        def path(name, lines=None):
            if lines is not None:
                with open(f"{folder}/{name}", "w", encoding="utf-8") as file:
                    file.write(lines)
            return f"{folder}/{name}"

        def content(name):
            with open(f"{folder}/{name}", "rb") as file:
                return file.read()

        tag, sll = {"header": "vlan", "vid": 5}, {"header": "sll"}
        one, two = path("one", line(ETH)), path("two", line(ETH, tag).rstrip("\n"))
        frames = [bytes.fromhex(ADDRESSES + "0000"), bytes.fromhex(ADDRESSES + "8100" "0005" "0000")]
        yield "two files", made(program, "x", two, one), (capture_of([frames[1], frames[0]]), "", 0)
        yield "standard input between files", made(program, line(rest={"bytes": "aa"}), two, "-", one), (capture_of([frames[1], b"\xaa", frames[0]]), "", 0)
        yield "standard input by its name", made(program, line(ETH), "-"), (capture_of(frames[:1]), "", 0)
        yield "an empty file", made(program, "x", path("empty", "")), (capture_of([]), "", 0)
        yield "options after files", made_text(program, "", one, "--hex", two), (ADDRESSES + "0000\n" + ADDRESSES + "810000050000\n", "", 0)
        wrong = path("wrong", line(ETH) + "\nx\n" + line(ETH))
        yield "a refusal in a file", made(program, "", two, wrong, one), (capture_of([frames[1], frames[0]]), f"ether_make: {wrong}: line 3: this is no JSON text\n", 3)
        yield "a refusal in standard input among files", made(program, "x", one, "-"), (capture_of(frames[:1]), "ether_make: line 1: this is no JSON text\n", 3)
        other = path("other", line(sll))
        yield "another link type in another file", made(program, "", one, other), (
            capture_of(frames[:1]), f"ether_make: {other}: line 1: link is not the link type of the frames before\n", 3)
        missing = path("missing")
        yield "a file that is missing", made(program, "", one, missing, two), (
            capture_of(frames[:1]), f"ether_make: {missing}: No such file or directory (os error 2)\n", 4)
        yield "a folder among files", made(program, "", one, folder), (capture_of(frames[:1]), f"ether_make: {folder}: Is a directory (os error 21)\n", 4)
        yield "an output file", (made(program, line(ETH), "-w", path("made", "old")), content("made")), ((b"", "", 0), capture_of(frames[:1]))
        yield "standard output by its name", made(program, line(ETH), "-w", "-"), (capture_of(frames[:1]), "", 0)
        nowhere = path("missing/made")
        yield "an output in no folder", made(program, line(ETH), "-w", nowhere), (b"", f"ether_make: {nowhere}: can't be written: there is no such folder\n", 4)
        if os.path.exists("/dev/full"):
            yield "a full output file", made(program, line(ETH), "-w", "/dev/full"), (b"", "ether_make: /dev/full: can't be written: no space is left\n", 4)


# Gives the outermost VLAN tag with identifier 5 the identifier 7, as `--set-vlan 5:7` does.
SET_VLAN = """(.headers | map(.header == "vlan" and .vid == 5) | index(true)) as $i
              | if $i != null then .headers[$i].vid = 7 else . end"""


def printed_cases(program, capture):
    """What `ether_capture` prints of frames, as it is and after jq changed it."""
    if not os.path.exists(capture):
        print("without ether_capture")
        return
    tag, sectag = {"header": "vlan", "vid": 5}, {"header": "macsec", "an": 3, "es": 1, "sci": "02:00:00:00:00:01:00:01"}
    frames = {1: [line(ETH, tag, {"header": "arp"}, time="2023-11-14T22:13:20.000001000Z"), line(ETH, {**tag, "vid": 6}, tag, {"header": "arp"}),
                  line(ETH, {**tag, "pcp": 7, "dei": 1, "type": 2048}), line({**ETH, "type": 34525}, time="2106-02-07T06:28:15.999999999Z"),
                  line(ETH, sectag), line(ETH, {"header": "macsec", "e": 1, "c": 1}), line(ETH, tag, sectag, tag, {"header": "arp", "op": 2}),
                  line(ETH, {"header": "arp", "hln": 0, "pln": 16})],
              113: [line({"header": "sll", "addr": "02:00:00:00:00:01"}, tag, {"header": "arp"}), line({"header": "sll", "addr_len": 0}),
                    line({"header": "sll", "hw_type": 32, "addr_len": 20, "addr": "01:02:03:04:05:06:07:08", "protocol": 2048})],
              276: [line({"header": "sll2", "if_index": 7, "addr": "02:00:00:00:00:01"}, tag, {"header": "arp"}), line({"header": "sll2", "packet_type": 4})]}
    for link, lines in frames.items():
        made_first = made(program, "".join(lines))[0]
        printed = subprocess.run([capture, "--format", "json"], input=made_first, capture_output=True, check=False).stdout
        yield f"what ether_capture prints, link type {link}", made(program, printed.decode()), (made_first, "", 0)
        if link == 276:
            continue  # --set-vlan leaves these frames alone
        if not shutil.which("jq"):
            print("without jq")
            continue
        changed = subprocess.run(["jq", "-c", SET_VLAN], input=printed, capture_output=True, check=False).stdout
        copy = subprocess.run([capture, "--set-vlan", "5:7", "--write"], input=made_first, capture_output=True, check=False).stdout
        remade = made(program, changed.decode())
        yield f"tags that jq set, link type {link}", (frames_of(remade[0]), remade[1:]), (frames_of(copy), ("", 0))
        yield f"jq set tags, link type {link}", (len(frames_of(remade[0])), remade[0] != made_first), (len(lines), True)


def packets_of(capture):
    """The link type of a classic capture, and of each packet its time in nanoseconds and its bytes (draft-ietf-opsawg-pcap, sections 4 and 5)."""
    order, unit = {bytes.fromhex("d4c3b2a1"): ("<", 1000), bytes.fromhex("4d3cb2a1"): ("<", 1), bytes.fromhex("a1b2c3d4"): (">", 1000)}[capture[:4]]
    packets, at = [], 24
    while at < len(capture):
        seconds, fraction, length = struct.unpack_from(f"{order}III", capture, at)
        packets.append((seconds * 10 ** 9 + fraction * unit, capture[at + 16:at + 16 + length]))
        at += 16 + length
    return struct.unpack_from(f"{order}I", capture, 20)[0] % 65536, packets


def exact_captures():
    """Captures whose packets have faults, padding, check sequences and reserved bits, or are cut."""
    tags = bytes.fromhex("ffffffffffff 020000000001 88a8 a001 8100 0005 0800") + bytes(range(40))
    sectag = bytes.fromhex("ffffffffffff 020000000001 88e5 2b c0 00000007 0200000000010001") + bytes(range(50))
    arp = bytes.fromhex("ffffffffffff 020000000001 0806 0001 0800 06 04 0001 020000000001 0a000001 000000000000 0a000002") + bytes(18)
    yield "tags that are cut", capture_of([tags[:end] for end in range(len(tags))], time=(1_700_000_000, 999_999_999))
    yield "SecTags that are cut", capture_of([sectag[:end] for end in range(len(sectag))])
    yield "ARP that is cut, and padding", capture_of([arp[:end] for end in range(len(arp) + 1)], time=(2 ** 32 - 1, 5))
    yield "each second byte of a SecTag", capture_of([sectag[:14] + bytes([tci, sl]) + sectag[16:] for tci in (0, 0x20, 0x0C, 0x80) for sl in range(256)])
    checked = capture_of([tags, arp, sectag, tags[:17]])
    yield "check sequences", checked[:20] + struct.pack("<I", 0x24000001) + checked[24:]
    yield "another link type", capture_of([b"\x45", b""], link=101)
    cooked = bytes.fromhex("0004 0001 0006 0200000000010000 8100 0005 0806") + arp[14:]
    yield "cooked capture v1", capture_of([cooked[:end] for end in range(len(cooked))] + [b"\0\x09" + cooked[2:], cooked[:2] + b"\3\x38" + cooked[4:]], link=113)
    cooked = bytes.fromhex("8100 abcd 00000003 0001 02 06 0200000000010000 0005 0806") + arp[14:]
    yield "cooked capture v2", capture_of([cooked[:end] for end in range(len(cooked))] + [cooked[:10] + b"\x09" + cooked[11:]], link=276)


def exact_cases(program, capture):
    """The lines of `--bytes` mean the packets again, byte for byte, at their times."""
    if not os.path.exists(capture):
        print("without ether_capture")
        return
    top = os.path.join(os.path.dirname(os.path.abspath(__file__)), "..")
    with tempfile.TemporaryDirectory() as folder:
        subprocess.run([sys.executable, os.path.join(top, "bench", "captures", "make.py"), folder, "0.3"], stdout=subprocess.DEVNULL, check=True)
        drawn = []
        for name in ("mixed.pcap", "small.pcap"):
            with open(os.path.join(folder, name), "rb") as file:
                drawn.append((name, file.read()))
    for name, given in [*exact_captures(), *drawn]:
        printed = subprocess.run([capture, "--format", "json", "--bytes"], input=given, capture_output=True, check=False).stdout
        written, said, status = made(program, printed.decode())
        yield f"byte for byte: {name}", (packets_of(written), said, status), (packets_of(given), "", 0)


def main():
    words = argparse.ArgumentParser(description=__doc__, formatter_class=argparse.RawDescriptionHelpFormatter)
    words.add_argument("program", metavar="PROGRAM")
    words.add_argument("word", metavar="WORD", nargs="?", default="")
    words.add_argument("--capture", metavar="PROGRAM", help="the program ether_capture; without it, the one that is built next to PROGRAM")
    given = words.parse_args()
    folder = os.path.dirname(given.program)
    built = os.path.join(folder, "..", "..", "ether_capture", "out", "ether_capture"), os.path.join(folder, "ether_capture")
    capture = given.capture or next((it for it in built if os.path.exists(it)), built[0])
    cases = [*frame_cases(given.program), *memory_cases(given.program), *padded_cases(given.program), *checked_cases(given.program), *hex_cases(given.program), *refused_cases(given.program), *reason_cases(), *word_cases(given.program), *live_cases(given.program), *file_cases(given.program), *make_cases(os.path.realpath(given.program)),
             *scapy_cases(given.program), *tshark_cases(given.program),
             *printed_cases(given.program, capture), *exact_cases(given.program, capture), *range_cases(given.program), *sent_cases(given.program)]
    return count(cases, given.word)


if __name__ == "__main__":
    sys.exit(main())
