"""Tests what `ether_tool` prints and how it ends, with nothing but Python.

    python3 tests/ether_tool.py PROGRAM [WORD]

PROGRAM is the built program, WORD one that the names of the cases have which are run, all if it is left out. What is expected was not taken
from it: a separate script unpacked the fields in the order of the standards, and printed them; lengths that a reader asks for were counted
by hand. The captured frames are those of the libraries' tests; tshark shows the same fields of them. The last line is 'N passed, M failed'.
"""

import argparse
import os
import sys
from dataclasses import dataclass
from functools import partial

from programs import count, run, run_in_pieces, run_until_a_fault, on_a_full_disk
from written_files import closed_streams

DISK_IS_FULL = ("ether_tool: standard output: No space left on device (os error 28)\n", 4)
USAGE = "usage: ether_tool eth | fcs | sll | type XXXX | feed [limit N]\n"


@dataclass
class Case:
    """Lines, the words after the program's name, what is printed and the exit status."""

    name: str
    words: str
    lines: str
    text: str
    status: int


PLAIN = "ffffffffffff0200000000010800"
PLAIN_TEXT = "ethernet2 0 ffffffffffff 020000000001 0x0800\nrest 14 14 type 0x0800\n"
TAGGED = "ffffffffffff0200000000018100b1230800"
TAGGED_TEXT = "ethernet2 0 ffffffffffff 020000000001 0x8100\nvlan 14 pcp 5 dei 1 vid 291 0x0800\nrest 18 18 type 0x0800\n"
EMPTY_TEXT = "fault 0 open length 14 0 slice\n"

# Worked examples, captured frames and others as they are sent, and units cut short by what holds them.
FORMATS = [
    Case("a tag after ethernet", "eth",
         "ffffffffffff0200000000018100b1230800",
         "ethernet2 0 ffffffffffff 020000000001 0x8100\n"
         "vlan 14 pcp 5 dei 1 vid 291 0x0800\n"
         "rest 18 18 type 0x0800\n", 0),
    Case("no byte at all: eth", "eth",
         "\n",
         "fault 0 open length 14 0 slice\n", 1),
    Case("no byte at all: fcs", "fcs",
         "\n",
         "fault 0 closed length 18 0 slice\n", 1),
    Case("no byte at all: sll", "sll",
         "\n",
         "fault 0 open length 16 0 slice\n", 1),
    Case("no byte at all: type 8100", "type 8100",
         "\n",
         "fault 0 open length 4 0 slice\n", 1),
    Case("no byte at all: type 88E5", "type 88E5",
         "\n",
         "fault 0 open length 6 0 slice\n", 1),
    Case("no byte at all: type 0806", "type 0806",
         "\n",
         "fault 0 open length 8 0 slice\n", 1),
    Case("no byte at all: type 0800", "type 0800",
         "\n",
         "rest 0 0 type 0x0800\n", 0),
    # The tag names four bytes, so that the last two are no part of its payload.
    Case("a closed window within a SecTag", "type 88E5",
         "0006000000018100aabbccddeeee",
         "macsec 0 unmodified 0x8100 es 0 scb 0 an 0 sl 6 pn 1 sci - window 4 closed\n"
         "vlan 8 pcp 5 dei 0 vid 2747 0xCCDD\n"
         "rest 12 12 type 0xCCDD\n", 0),
    Case("a cooked capture of a length frame", "sll",
         "0000000100ff02000000000100000001",
         "linux_sll 0 packet 0 hw 1 alen 255 addr 0200000000010000 0x0001\n"
         "rest 16 16 type 0x0001\n", 0),
    # It is no part of the payload, and bytes after the frame would move it.
    Case("a frame check sequence, which is no part of the payload", "fcs",
         "ffffffffffff020000000001080011223344",
         "ethernet2 0 ffffffffffff 020000000001 0x0800 fcs 11223344\n"
         "rest 14 14 type 0x0800\n", 0),
    Case("one byte less than a header and a check sequence", "fcs",
         "ffffffffffff0200000000010800112233",
         "fault 0 closed length 18 17 slice\n", 1),
    Case("a tag cut short by a check sequence", "fcs",
         "ffffffffffff0200000000018100000111223344",
         "ethernet2 0 ffffffffffff 020000000001 0x8100 fcs 11223344\n"
         "fault 14 closed length 4 2 slice\n", 1),
    # The short length is 0, so that the payload reaches to the end; the reserved bits are not shown.
    Case("an encrypted payload", "type 88e5",
         "2cc000000001001122334455667799",
         "macsec 0 encrypted es 0 scb 0 an 0 sl 0 pn 1 sci 0011223344556677 window 1 open\n"
         "rest 14 15 sealed\n", 0),
    Case("an ARP packet", "type 0806",
         "00010800060400010200000000010a0000010000000000000a000002",
         "arp 0 hw 1 proto 0x0800 hlen 6 plen 4 op 1\n"
         "rest 28 28 after_arp\n", 0),
    Case("an ARP packet with padding", "type 0806",
         "00010800060400010200000000010a0000010000000000000a000002000000000000000000000000000000000000",
         "arp 0 hw 1 proto 0x0800 hlen 6 plen 4 op 1\n"
         "rest 28 46 after_arp\n", 0),
    Case("an ARP packet without its addresses", "type 0806",
         "0001080006040001",
         "fault 0 open length 28 8 arp_addr_lengths\n", 1),
    Case("seven bytes of an ARP packet", "type 0806",
         "00010800060400",
         "fault 0 open length 8 7 slice\n", 1),
    Case("a short length of 1 in a readable payload", "type 88E5",
         "000100000000",
         "fault 0 open content macsec_short_len\n", 1),
    Case("a SecTag of version 1", "type 88E5",
         "800000000000",
         "fault 0 open content macsec_version\n", 1),
    Case("the packet type is refused first", "sll",
         "00080101000000000000000000000000",
         "fault 0 open content sll_packet_type 8\n", 1),
    Case("a hardware type that is not known", "sll",
         "00070101000000000000000000000000",
         "fault 0 open content sll_hardware_type 257\n", 1),
    Case("packet type 8 of a known hardware type", "sll",
         "00080001000000000000000000000000",
         "fault 0 open content sll_packet_type 8\n", 1),
    # Each of the four SecTags names the length of all that is within it.
    Case("four SecTags, each with the length of all that is within it", "type 88E5",
         "001a0000000188e500120000000288e5000a0000000388e50002000000040800",
         "macsec 0 unmodified 0x88E5 es 0 scb 0 an 0 sl 26 pn 1 sci - window 24 closed\n"
         "macsec 8 unmodified 0x88E5 es 0 scb 0 an 0 sl 18 pn 2 sci - window 16 closed\n"
         "macsec 16 unmodified 0x88E5 es 0 scb 0 an 0 sl 10 pn 3 sci - window 8 closed\n"
         "macsec 24 unmodified 0x0800 es 0 scb 0 an 0 sl 2 pn 4 sci - window 0 closed\n"
         "rest 32 32 type 0x0800\n", 0),
    Case("a SecTag whose length exceeds three closed windows", "type 88E5",
         "001a0000000188e500120000000288e5000a0000000388e50003000000040800",
         "macsec 0 unmodified 0x88E5 es 0 scb 0 an 0 sl 26 pn 1 sci - window 24 closed\n"
         "macsec 8 unmodified 0x88E5 es 0 scb 0 an 0 sl 18 pn 2 sci - window 16 closed\n"
         "macsec 16 unmodified 0x88E5 es 0 scb 0 an 0 sl 10 pn 3 sci - window 8 closed\n"
         "fault 24 closed length 9 8 macsec_short_length\n", 1),
    Case("two VLAN tags", "eth",
         "ffffffffffff02000000000188a80001810000020800",
         "ethernet2 0 ffffffffffff 020000000001 0x88A8\n"
         "vlan 14 pcp 0 dei 0 vid 1 0x8100\n"
         "vlan 18 pcp 0 dei 0 vid 2 0x0800\n"
         "rest 22 22 type 0x0800\n", 0),
    Case("a payload that was changed", "type 88E5",
         "57030001e240aabbcc",
         "macsec 0 modified es 1 scb 1 an 3 sl 3 pn 123456 sci - window 3 closed\n"
         "rest 6 9 sealed\n", 0),
    Case("an encrypted payload without the mark of a change", "type 88E5",
         "5b00ffffffffaabbcc",
         "macsec 0 encrypted_unmodified es 1 scb 1 an 3 sl 0 pn 4294967295 sci - window 3 open\n"
         "rest 6 9 sealed\n", 0),
    Case("an encrypted payload with an SCI and a short length", "type 88E5",
         "7c02000000090123456789abcdefaabbcc",
         "macsec 0 encrypted es 1 scb 1 an 0 sl 2 pn 9 sci 0123456789abcdef window 2 closed\n"
         "rest 14 16 sealed\n", 0),
    Case("a readable payload of IPv6", "type 88E5",
         "02000000000186dd60",
         "macsec 0 unmodified 0x86DD es 0 scb 0 an 2 sl 0 pn 1 sci - window 1 open\n"
         "rest 8 9 type 0x86DD\n", 0),
    Case("GRE in a cooked capture", "sll",
         "0000030a00000000000000000000080045",
         "linux_sll 0 packet 0 hw 778 alen 0 addr 0000000000000000 0x0800\n"
         "rest 16 17 sll gre 0x0800\n", 0),
    Case("netlink in a cooked capture", "sll",
         "0004033800000000000000000000001014000000",
         "linux_sll 0 packet 4 hw 824 alen 0 addr 0000000000000000 0x0010\n"
         "rest 16 20 sll netlink 0x0010\n", 0),
    Case("radiotap in a cooked capture", "sll",
         "00000323000000000000000000000004",
         "linux_sll 0 packet 0 hw 803 alen 0 addr 0000000000000000 0x0004\n"
         "rest 16 16 sll ignored 0x0004\n", 0),
    Case("frame relay in a cooked capture", "sll",
         "0003030200000000000000000000abcd",
         "linux_sll 0 packet 3 hw 770 alen 0 addr 0000000000000000 0xABCD\n"
         "rest 16 16 sll ignored 0xABCD\n", 0),
    Case("an ether type of a cooked capture", "sll",
         "000400010006020000000001000086dd60",
         "linux_sll 0 packet 4 hw 1 alen 6 addr 0200000000010000 0x86DD\n"
         "rest 16 17 type 0x86DD\n", 0),
    Case("a captured request with a tag", "eth",
         "ffffffffffff02005e1000018100b1230806000108000604000102005e100001c0000201000000000000c0000202",
         "ethernet2 0 ffffffffffff 02005e100001 0x8100\n"
         "vlan 14 pcp 5 dei 1 vid 291 0x0806\n"
         "arp 18 hw 1 proto 0x0800 hlen 6 plen 4 op 1\n"
         "rest 46 46 after_arp\n", 0),
    Case("a captured request with two tags", "eth",
         "ffffffffffff02005e10000188a8000a810000640806000108000604000102005e100001c0000201000000000000c0000202",
         "ethernet2 0 ffffffffffff 02005e100001 0x88A8\n"
         "vlan 14 pcp 0 dei 0 vid 10 0x8100\n"
         "vlan 18 pcp 0 dei 0 vid 100 0x0806\n"
         "arp 22 hw 1 proto 0x0800 hlen 6 plen 4 op 1\n"
         "rest 50 50 after_arp\n", 0),
    Case("a captured length frame", "eth",
         "0180c200000002005e10000100264242030000000000800002005e10000100000000800002005e10000180010000140002000f0000000000"
         "00000000",
         "ethernet2 0 0180c2000000 02005e100001 0x0026\n"
         "rest 14 60 type 0x0026\n", 0),
    Case("a captured request in a cooked capture", "sll",
         "00010001000602005e10000100000806000108000604000102005e100001c0000201000000000000c0000202",
         "linux_sll 0 packet 1 hw 1 alen 6 addr 02005e1000010000 0x0806\n"
         "arp 16 hw 1 proto 0x0800 hlen 6 plen 4 op 1\n"
         "rest 44 44 after_arp\n", 0),
    Case("a captured length frame in a cooked capture", "sll",
         "00020001000602005e100001000000044242030000000000800002005e10000100000000800002005e10000180010000140002000f000000"
         "000000000000",
         "linux_sll 0 packet 2 hw 1 alen 6 addr 02005e1000010000 0x0004\n"
         "rest 16 62 type 0x0004\n", 0),
    Case("a captured packet of the loopback device", "sll",
         "0000030400060000000000000000080045000054",
         "fault 0 open content sll_hardware_type 772\n", 1),
    # The 54-octet frame of IEEE 802.1AE, Annex C. The ICV after the payload is no part of it.
    Case("integrity protection", "eth",
         "d609b1f056637a0d46df998d88e5222ab2c2846512153524c0895e8108000f101112131415161718191a1b1c1d1e1f202122232425262728"
         "292a2b2c2d2e2f30313233340001f09478a9b09007d06f46e9b6a1da25dd",
         "ethernet2 0 d609b1f05663 7a0d46df998d 0x88E5\n"
         "macsec 14 unmodified 0x0800 es 0 scb 0 an 2 sl 42 pn 2999092325 sci 12153524c0895e81 window 40 closed\n"
         "rest 30 70 type 0x0800\n", 0),
    # The 54-octet frame of IEEE 802.1AE, Annex C, whole and cut short.
    Case("confidentiality protection", "eth",
         "e20106d7cd0df0761e8dcd3d88e54c2a76d457ed13b4c72b389dc5018e72a171dd85a5d3752274d3a019fbcaed09a425cd9b2e1c9b72eee7"
         "c9de7d52b3f3d6a5284f4a6d3fe22a5d6c2b960494c3",
         "ethernet2 0 e20106d7cd0d f0761e8dcd3d 0x88E5\n"
         "macsec 14 encrypted es 1 scb 0 an 0 sl 42 pn 1993627629 sci - window 42 closed\n"
         "rest 20 62 sealed\n", 0),
    Case("confidentiality protection, cut short", "eth",
         "e20106d7cd0df0761e8dcd3d88e54c2a76d457ed13b4c72b389dc5018e72a171dd85a5d3752274d3a019fbcaed09a425cd9b",
         "ethernet2 0 e20106d7cd0d f0761e8dcd3d 0x88E5\n"
         "fault 14 open length 48 36 macsec_short_length\n", 1),
    # The reply to a request that Linux sent, after a header and filled up to 60 bytes by hand.
    Case("a reply with padding", "eth",
         "020000000001020000000002080600010800060400020200000000020a0000020200000000010a0000010000000000000000000000000000"
         "00000000",
         "ethernet2 0 020000000001 020000000002 0x0806\n"
         "arp 14 hw 1 proto 0x0800 hlen 6 plen 4 op 2\n"
         "rest 42 60 after_arp\n", 0),
    # A captured request, filled up to 60 bytes by hand, with the CRC-32 of the library zlib. Read without a check sequence, it is
    # taken for padding.
    Case("a request with padding and a check sequence", "fcs",
         "ffffffffffff02005e1000010806000108000604000102005e100001c0000201000000000000c00002020000000000000000000000000000"
         "00000000d9008af9",
         "ethernet2 0 ffffffffffff 02005e100001 0x0806 fcs d9008af9\n"
         "arp 14 hw 1 proto 0x0800 hlen 6 plen 4 op 1\n"
         "rest 42 60 after_arp\n", 0),
    Case("a check sequence taken for padding", "eth",
         "ffffffffffff02005e1000010806000108000604000102005e100001c0000201000000000000c00002020000000000000000000000000000"
         "00000000d9008af9",
         "ethernet2 0 ffffffffffff 02005e100001 0x0806\n"
         "arp 14 hw 1 proto 0x0800 hlen 6 plen 4 op 1\n"
         "rest 42 64 after_arp\n", 0),
    Case("each cut of a tagged frame", "eth",
         "".join(TAGGED[:2 * length] + "\n" for length in range(19)),
         "".join(f"fault 0 open length 14 {length} slice\n" for length in range(14))
         + "".join(f"ethernet2 0 ffffffffffff 020000000001 0x8100\nfault 14 open length 4 {length} slice\n" for length in range(4))
         + TAGGED_TEXT, 1),
    Case("a tag cut short by a SecTag", "type 88E5",
         "0004000000018100aabbccdd",
         "macsec 0 unmodified 0x8100 es 0 scb 0 an 0 sl 4 pn 1 sci - window 2 closed\n"
         "fault 8 closed length 4 2 macsec_short_length\n", 1),
    Case("an ARP packet cut short by a SecTag", "type 88E5",
         "000600000001080600010800",
         "macsec 0 unmodified 0x0806 es 0 scb 0 an 0 sl 6 pn 1 sci - window 4 closed\n"
         "fault 8 closed length 8 4 macsec_short_length\n", 1),
    Case("ARP addresses cut short by a SecTag", "type 88E5",
         "000a0000000108060001080006040001",
         "macsec 0 unmodified 0x0806 es 0 scb 0 an 0 sl 10 pn 1 sci - window 8 closed\n"
         "fault 8 closed length 28 8 arp_addr_lengths\n", 1),
    Case("a SecTag before a check sequence", "fcs",
         "ffffffffffff02000000000188e50004000000018100aabb11223344",
         "ethernet2 0 ffffffffffff 020000000001 0x88E5 fcs 11223344\n"
         "macsec 14 unmodified 0x8100 es 0 scb 0 an 0 sl 4 pn 1 sci - window 2 closed\n"
         "fault 22 closed length 4 2 macsec_short_length\n", 1),
]

# What a reader of a stream has to ask for, header by header.
FED = [
    # 14 bytes of Ethernet II, 6 of a SecTag, 8 with its ether type, 12 with its payload. The last two are not asked for.
    Case("no more is asked for than each header names", "feed",
         "ffffffffffff02000000000188e50006000000018100aabbccddeeee",
         "feed refusals 4 taken 26\n", 0),
    Case("an empty frame is asked for nothing", "feed",
         "\n",
         "feed refusals 0 taken 0\n"
         "fault 0 open length 14 0 slice\n", 1),
    # 14 bytes, 8 of an ARP packet, and its addresses.
    Case("padding is not asked for", "feed",
         "ffffffffffff020000000001080600010800060400010200000000010a0000010000000000000a0000020000000000000000000000000000"
         "00000000",
         "feed refusals 3 taken 42\n", 0),
    Case("a payload of IPv4 is not asked for", "feed",
         "ffffffffffff020000000001080045",
         "feed refusals 1 taken 14\n", 0),
    # The fault is that of the bytes taken, to which the last two do not belong.
    Case("a header that is cut short is left", "feed",
         "ffffffffffff02000000000188a8000181000002",
         "feed refusals 2 taken 18\n"
         "fault 18 open length 4 0 slice\n", 1),
    Case("a SecTag of version 1, fed", "feed",
         "ffffffffffff02000000000188e5800000000000",
         "feed refusals 2 taken 20\n"
         "fault 14 open content macsec_version\n", 1),
    Case("a tag cut short by a SecTag, fed", "feed",
         "ffffffffffff02000000000188e50004000000018100aabbccdd",
         "feed refusals 4 taken 24\n"
         "fault 22 closed length 4 2 macsec_short_length\n", 1),
    # The first of four SecTags names the length of all that is in it.
    Case("nothing is asked for within a closed window", "feed",
         "ffffffffffff02000000000188e5001a0000000188e500120000000288e5000a0000000388e50002000000040800",
         "feed refusals 4 taken 46\n", 0),
    Case("lines up to a bad one, fed", "feed",
         "ffffffffffff02000000000188e50006000000018100aabbccddeeee\r\n"
         "\n"
         "FFFFFFFFFFFF0200000000018100B1230800\n"
         "0g\n"
         "\n",
         "feed refusals 4 taken 26\n"
         "feed refusals 0 taken 0\n"
         "fault 0 open length 14 0 slice\n"
         "feed refusals 2 taken 18\n"
         "line 4: bad line\n", 3),
]

# The start of the output without a limit, up to the last tag that is read, and the rest.
LIMITED = [
    Case("the second tag is left at a limit of 1", "eth limit 1",
         "ffffffffffff02000000000188a8000181000002",
         "ethernet2 0 ffffffffffff 020000000001 0x88A8\n"
         "vlan 14 pcp 0 dei 0 vid 1 0x8100\n"
         "rest 18 20 type 0x8100\n", 0),
    Case("the first tag is left at a limit of 0", "eth limit 0",
         "ffffffffffff02000000000188a8000181000002",
         "ethernet2 0 ffffffffffff 020000000001 0x88A8\n"
         "rest 14 20 type 0x88A8\n", 0),
    Case("the second tag is refused within a limit of 2", "eth limit 2",
         "ffffffffffff02000000000188a8000181000002",
         "ethernet2 0 ffffffffffff 020000000001 0x88A8\n"
         "vlan 14 pcp 0 dei 0 vid 1 0x8100\n"
         "fault 18 open length 4 2 slice\n", 1),
    Case("the second tag is refused within a limit of 3", "eth limit 3",
         "ffffffffffff02000000000188a8000181000002",
         "ethernet2 0 ffffffffffff 020000000001 0x88A8\n"
         "vlan 14 pcp 0 dei 0 vid 1 0x8100\n"
         "fault 18 open length 4 2 slice\n", 1),
    Case("the second tag is refused within a limit of 9999", "eth limit 9999",
         "ffffffffffff02000000000188a8000181000002",
         "ethernet2 0 ffffffffffff 020000000001 0x88A8\n"
         "vlan 14 pcp 0 dei 0 vid 1 0x8100\n"
         "fault 18 open length 4 2 slice\n", 1),
    Case("a limit before a check sequence", "fcs limit 0",
         "ffffffffffff0200000000018100b123080011223344",
         "ethernet2 0 ffffffffffff 020000000001 0x8100 fcs 11223344\n"
         "rest 14 18 type 0x8100\n", 0),
    Case("a limit in a cooked capture", "sll limit 1",
         "00000001000602000000000100008100b123810000020800",
         "linux_sll 0 packet 0 hw 1 alen 6 addr 0200000000010000 0x8100\n"
         "vlan 16 pcp 5 dei 1 vid 291 0x8100\n"
         "rest 20 24 type 0x8100\n", 0),
    Case("a first tag counts that the ether type announces", "type 8100 limit 0",
         "b1230800",
         "rest 0 4 type 0x8100\n", 0),
    Case("a SecTag counts", "type 88E5 limit 1",
         "0006000000018100aabbccddeeee",
         "macsec 0 unmodified 0x8100 es 0 scb 0 an 0 sl 6 pn 1 sci - window 4 closed\n"
         "rest 8 12 type 0x8100\n", 0),
    Case("a SecTag at a limit of 0 is not read", "type 88E5 limit 0",
         "80",
         "rest 0 1 type 0x88E5\n", 0),
    Case("an ARP packet doesn't count", "eth limit 0",
         "ffffffffffff020000000001080600010800060400010200000000010a0000010000000000000a0000020000000000000000000000000000"
         "00000000",
         "ethernet2 0 ffffffffffff 020000000001 0x0806\n"
         "arp 14 hw 1 proto 0x0800 hlen 6 plen 4 op 1\n"
         "rest 42 60 after_arp\n", 0),
    Case("nothing is asked for beyond a limit of 0", "feed limit 0",
         "ffffffffffff02000000000188e50006000000018100aabbccddeeee",
         "feed refusals 1 taken 14\n", 0),
    Case("nothing is asked for beyond a limit of 1", "feed limit 1",
         "ffffffffffff02000000000188e50006000000018100aabbccddeeee",
         "feed refusals 4 taken 26\n", 0),
    Case("nothing is asked for beyond a limit of 2", "feed limit 2",
         "ffffffffffff02000000000188e50006000000018100aabbccddeeee",
         "feed refusals 4 taken 26\n", 0),
    Case("each line is counted anew", "type 8100 limit 1",
         "00018100\n"
         "00028100\n"
         "0g\n",
         "vlan 0 pcp 0 dei 0 vid 1 0x8100\n"
         "rest 4 4 type 0x8100\n"
         "vlan 0 pcp 0 dei 0 vid 2 0x8100\n"
         "rest 4 4 type 0x8100\n"
         "line 3: bad line\n", 3),
]

# The lines end in each of the ways in which a line may end: a tagged frame, an empty one, and a plain one with a byte more.
MIXED = Case("lines of three kinds", "eth", TAGGED + "\r\n\nFFFFFFFFFFFF020000000001080045",
             TAGGED_TEXT + EMPTY_TEXT + PLAIN_TEXT.replace("14 14", "14 15"), 1)

# Lines, and how they end.
LINES = [
    MIXED,
    Case("no line", "eth", "", "", 0),
    Case("a carriage return before the line feed", "eth", PLAIN + "\r\n", PLAIN_TEXT, 0),
    Case("a captured segment in a VLAN", "eth",
         "0010dbff100000152c9dcc00810001f7080045000028298d40007d0683a0ac1bca8e451694e2d40a0050dfab9cc6cd1e"
         "e5d1501001005a740000000000000000",
         "ethernet2 0 0010dbff1000 00152c9dcc00 0x8100\nvlan 14 pcp 0 dei 0 vid 503 0x0800\nrest 18 64 type 0x0800\n", 0),
    Case("one byte", "eth", "00\r\n", "fault 0 open length 14 1 slice\n", 1),
    Case("the second line is bad", "eth", "\n0g\n42\n", EMPTY_TEXT + "line 2: bad line\n", 3),
    Case("a blank in the second line", "eth", "\r\n4 \n42\n", EMPTY_TEXT + "line 2: bad line\n", 3),
    Case("a blank after the last line", "eth", "\n43 ", EMPTY_TEXT + "line 2: bad line\n", 3),
    Case("one digit in the last line", "eth", TAGGED + "\r\n0", TAGGED_TEXT + "line 2: bad line\n", 3),
    Case("a bad line in a payload's mode", "type 8100", "b1230800\n0g\nb1230800\n",
         "vlan 0 pcp 5 dei 1 vid 291 0x0800\nrest 4 4 type 0x0800\nline 2: bad line\n", 3),
    Case("4,096 digits", "eth", "a" * 4096, "ethernet2 0 aaaaaaaaaaaa aaaaaaaaaaaa 0xAAAA\nrest 14 2048 type 0xAAAA\n", 0),
    Case("4,096 digits and an end", "eth", "a" * 4096 + "\r\n",
         "ethernet2 0 aaaaaaaaaaaa aaaaaaaaaaaa 0xAAAA\nrest 14 2048 type 0xAAAA\n", 0),
    *(Case(f"a bad line: {line[:8]!r} of {len(line)}", "eth", line, "line 1: bad line\n", 3)
      for line in ("abc", "0g", "g0", "41\r", "41\r\r\n", "0x41\nabc\n", "0 ", "\r0", "0/", ":0", "@0", "0`",
                   "0" * 4097, "0" * 4098, "a" * 4096 + "\r")),
]

# Words that name a mode and a limit, with the type of the payload that they read.
WORDS = [
    *(Case(f"type {word}", f"type {word}", "00", f"rest 0 1 type 0x{word.upper()}\n", 0)
      for word in ("aBcD", "Ef01", "0000", "FFFF", "1000", "86dd")),
    *(Case(f"limit {word}", f"type 8100 limit {word}", "0001810000028100000381000004",
           "".join(f"vlan {4 * tag} pcp 0 dei 0 vid {tag + 1} 0x8100\n" for tag in range(count))
           + ("fault 12 open length 4 2 slice\n" if count == 3 and word != "3" else f"rest {4 * count} 14 type 0x8100\n"),
           int(count == 3 and word != "3"))
      for word, count in (("0", 0), ("0000", 0), ("1", 1), ("0002", 2), ("3", 3), ("9", 3), ("10", 3), ("0010", 3), ("999", 3), ("9999", 3))),
]

# Words that name no mode, and a limit without a mode, without its number or with other words.
OTHER_WORDS = [
    *(words.split(" ") for words in (
        "Eth", "et", "ether", "eth ", "", "FCS", "fc", "sll1", "type", "Feed", "fee", "feeds", "88E5", "eth eth", "fcs 88E5", "sll ",
        "eth fcs", "feed eth", "feed 88E5", "Type 88E5", "types 88E5", " 88E5", "eth 88E5", "type 88E5 88E5", "88E5 type", "limit",
        "limit 1", "limit 1 eth", "limit limit 1", "type limit 1", "et limit 1", "type 88E limit 1", "eth fcs limit 1", "eth limit",
        "type 88E5 limit", "eth 1", "eth 1 limit", "eth limits 1", "eth limit limit 1", "eth limit 1 limit", "eth limit 1 eth",
        "eth limit 1 eth fcs", "eth limit 1 limit 1")),
    *(["type", digits] for digits in (
        "", "8", "88", "88E", "88E50", "088E5", "88E5 ", "88Eg", "88G5", "8/E5", "8:E5", "0x88", " 88E", "+88E", "-806", "88_5",
        "88\u00e9", "eth")),
    *(["eth", "limit", digits] for digits in (
        "", "12345", "00001", "+1", "-1", " 1", "1 ", "0x1", "F", "1.0", "\u0663", "/", ":")),
]


def each_length():
    """The text of frames of zeros of each length that a line may have."""
    header = "ethernet2 0 000000000000 000000000000 0x0000\n"
    return "".join(f"fault 0 open length 14 {length} slice\n" if length < 14 else f"{header}rest 14 {length} type 0x0000\n"
                   for length in range(2049))


# 508 tags after an Ethernet II header, each announcing one more, and two bytes.
TAGS = "0" * 24 + "81000000" * 509
TAGS_TEXT = "ethernet2 0 000000000000 000000000000 0x8100\n" + "".join(
    f"vlan {14 + 4 * tag} pcp 0 dei 0 vid 0 0x8100\n" for tag in range(508)) + "fault 2046 open length 4 2 slice\n"

LONG = [
    Case("each length of a frame", "eth", "".join("00" * length + "\n" for length in range(2049)), each_length(), 1),
    Case("508 tags", "eth", TAGS, TAGS_TEXT, 1),
    Case("508 tags, fed", "feed", TAGS, "feed refusals 509 taken 2046\nfault 2046 open length 4 0 slice\n", 1),
    Case("20,000 lines", "eth", (TAGGED + "\r\n") * 20_000, TAGGED_TEXT * 20_000, 0),
]


def tried(program):
    """All cases: the name of each, what is found, and what is wanted."""
    for case in FORMATS + FED + LIMITED + LINES + WORDS + LONG:
        yield case.name, partial(run, program, case.words.split(), case.lines.encode()), (case.text, case.status)
    for cases, steps in ((LINES, (1, 2, 17, 4096, 4097)), (LONG, (4098, 65_537))):
        for case in cases:
            for step in steps if len(case.lines) < 4096 or steps[0] > 1 else steps[3:]:
                found = partial(run_in_pieces, program, case.words.split(), case.lines.encode(), step)
                yield f"{case.name} in pieces of {step}", found, (case.text, case.status)
    yield "no words", partial(run, program, [], TAGGED.encode()), (TAGGED_TEXT, 0)
    for words in OTHER_WORDS:
        yield f"words {words}", partial(run, program, words, TAGGED.encode()), (USAGE, 2)
    with open(os.path.join(os.path.dirname(os.path.realpath(__file__)), "..", "VERSION"), encoding="utf-8") as file:
        yield "--version", partial(run, program, ["--version"], b""), (f"ether_tool {file.read().strip()}\n", 0)
    yield "--help", partial(words_of_help, program), (USAGE, ["eth", "fcs", "sll", "type", "feed", "limit", "--help", "--version"], 0)
    yield "--help, a full disk", partial(on_a_full_disk, program, ["--help"], b""), DISK_IS_FULL
    yield "a word that is no text", partial(run, program, [b"\xff"], TAGGED.encode()), ("", 4)
    for length in range(len(MIXED.lines)):
        found = partial(run_until_a_fault, program, ["eth"], MIXED.lines[:length].encode())
        yield f"a reader that fails after {length} bytes", found, ("".join(whole_lines(length)), 4)
    for words in (["eth"], ["feed"], ["ether"]):
        yield f"a full disk, {words}", partial(on_a_full_disk, program, words, TAGGED.encode()), DISK_IS_FULL
    yield from closed_streams(program, "ether_tool", ("eth", "feed"), "lines", f"{TAGGED}\n".encode())


def words_of_help(program):
    """The first line of the help, the first word of each line that is indented, and the status."""
    text, status = run(program, ["--help"], b"")
    first, *lines = text.splitlines(keepends=True)
    return first, [line.split()[0] for line in lines if line.startswith("  ")], status


def whole_lines(length):
    """The texts of the lines of `MIXED` that end within its first bytes."""
    return [TAGGED_TEXT, EMPTY_TEXT][:MIXED.lines[:length].count("\n")]


def main():
    words = argparse.ArgumentParser(description=__doc__, formatter_class=argparse.RawDescriptionHelpFormatter)
    words.add_argument("program", metavar="PROGRAM")
    words.add_argument("word", metavar="WORD", nargs="?", default="")
    given = words.parse_args()
    return count(tried(os.path.realpath(given.program)), given.word)


if __name__ == "__main__":
    sys.exit(main())
