"""Tests of ranges: a line of JSON that `ether_make` makes many frames of.

What is expected is worked out here from the fields' widths and places (IEEE 802.3, 3.1.1; IEEE 802.1Q, 9.6; RFC 826). The words of SplitMix64
for the seed 1234567 are those of the algorithm's page on Rosetta Code.
"""

import itertools
import json
import resource
import struct
import subprocess

ETH = {"header": "eth", "dst": "00:00:5e:00:01:01", "src": "02:00:00:00:00:01"}
ADDRESSES = bytes.fromhex("00005e000101020000000001")
WORDS = [6457827717110365317, 3203168211198807973, 9817491932198370423, 4593380528125082431, 16408922859458223821]


def line(*headers, **members):
    return json.dumps({"headers": list(headers), **members}) + "\n"


def counted(first, last, **members):
    return {"from": first, "to": last, **members}


def tagged(identifier, priority=0, announced=0):
    return ADDRESSES + struct.pack(">HHH", 0x8100, priority << 13 | identifier, announced)


def made(program, lines, *words):
    return subprocess.run([program, *words], input=lines.encode(), capture_output=True, check=False)


def records_of(capture):
    """The times and the frames of a capture."""
    records, at = [], 24
    while at < len(capture):
        seconds, nanoseconds, length = struct.unpack_from("<III", capture, at)
        records.append(((seconds, nanoseconds), capture[at + 16:at + 16 + length]))
        at += 16 + length
    return records


def request(**fields):
    return line(ETH, {"header": "arp", **fields})


def arp(sender=bytes(6), sender_address=bytes(4), target_address=bytes(4), operation=1):
    return ADDRESSES + struct.pack(">HHHBBH", 0x0806, 1, 0x0800, 6, 4, operation) + sender + sender_address + bytes(6) + target_address


FRAMES = [
    ("identifiers", line(ETH, {"header": "vlan", "vid": counted(1, 4094)}), (), [tagged(it) for it in range(1, 4095)]),
    ("one number", line(ETH, {"header": "vlan", "vid": counted(7, 7)}), (), [tagged(7)]),
    ("a step", line(ETH, {"header": "vlan", "vid": counted(10, 20, step=5)}), (), [tagged(10), tagged(15), tagged(20)]),
    ("a step past the last number", line(ETH, {"header": "vlan", "vid": counted(10, 19, step=5)}), (), [tagged(10), tagged(15)]),
    ("the range that comes first changes with each frame", line(ETH, {"header": "vlan", "pcp": counted(0, 1), "vid": counted(5, 7)}), (),
     [tagged(vid, pcp) for vid in (5, 6, 7) for pcp in (0, 1)]),
    ("ranges of two headers", line({**ETH, "type": counted(1, 2)}, {"header": "vlan", "vid": counted(0, 2, step=2)}), (),
     [ADDRESSES + struct.pack(">HHH", kind, vid, 0) for vid in (0, 2) for kind in (1, 2)]),
    ("hardware addresses", line({**ETH, "dst": counted("00:00:5e:00:00:fe", "00:00:5e:00:01:01")}), (),
     [bytes.fromhex("00005e00") + struct.pack(">H", it) + ADDRESSES[6:] + bytes(2) for it in range(0xFE, 0x102)]),
    ("addresses of IPv4", request(tpa=counted("10.0.0.254", "10.0.1.1"), spa="10.0.0.1"), (),
     [arp(sender_address=bytes([10, 0, 0, 1]), target_address=bytes([10, 0, *divmod(it, 256)])) for it in range(254, 258)]),
    ("every 256th address", request(spa=counted("10.0.0.0", "10.0.2.255", step=256)), (), [arp(sender_address=bytes([10, 0, it, 0])) for it in range(3)]),
    ("all numbers of 64 bits", line(ETH, {"header": "macsec", "sci": counted("00:00:00:00:00:00:00:00", "ff:ff:ff:ff:ff:ff:ff:ff", step=1 << 63)}), (),
     [ADDRESSES + bytes.fromhex("88e5 20 00 00000000") + struct.pack(">QH", it << 63, 0) for it in (0, 1)]),
    ("a cooked header's address", line({"header": "sll", "addr": counted("0a:0b:00", "0a:0b:02")}), (),
     [struct.pack(">HHH", 0, 1, 3) + bytes([10, 11, it]) + bytes(5 + 2) for it in range(3)]),
    ("the length of a field is that of its first number", request(hln=counted(6, 8)), (),
     [arp()[:18] + bytes([it]) + arp()[19:] for it in (6, 7, 8)]),
    ("two lines", line(ETH, {"header": "vlan", "vid": counted(1, 2)}) + line(ETH) + line(ETH, {"header": "vlan", "vid": counted(3, 4)}), (),
     [tagged(1), tagged(2), ADDRESSES + bytes(2), tagged(3), tagged(4)]),
    ("--count of a line without ranges", line(ETH, {"header": "vlan", "vid": 5}), ("--count", "3"), [tagged(5)] * 3),
    ("--count begins again", line(ETH, {"header": "vlan", "vid": counted(1, 2)}), ("--count", "5"), [tagged(it) for it in (1, 2, 1, 2, 1)]),
    ("--count ends before all combinations", line(ETH, {"header": "vlan", "vid": counted(1, 4000)}), ("--count", "2"), [tagged(1), tagged(2)]),
    ("--count is for each line", line(ETH, {"header": "vlan", "vid": counted(1, 9)}) * 2, ("--count", "2"), [tagged(1), tagged(2)] * 2),
    ("numbers are drawn", line(ETH, {"header": "vlan", "vid": counted(0, 4095, random=True)}), ("--count", "5", "--seed", "1234567"),
     [tagged(it % 4096) for it in WORDS]),
    ("from some numbers", line(ETH, {"header": "vlan", "vid": counted(100, 199, step=3, random=True)}), ("--count", "5", "--seed", "1234567"),
     [tagged(100 + 3 * (it % 34)) for it in WORDS]),
    ("a range that is drawn beside one that is counted", line(ETH, {"header": "vlan", "pcp": counted(0, 7), "vid": counted(0, 4095, random=True)}),
     ("--seed", "1234567", "--count", "5"), [tagged(it % 4096, at) for at, it in enumerate(WORDS)]),
    ("two that are drawn, and the next line goes on", line(ETH, {"header": "vlan", "pcp": counted(0, 7, random=True), "vid": counted(0, 4095, random=True)}) * 2,
     ("--seed", "1234567"), [tagged(WORDS[1] % 4096, WORDS[0] % 8), tagged(WORDS[3] % 4096, WORDS[2] % 8)]),
    ("64 bits are drawn", line(ETH, {"header": "macsec", "sci": counted("00:00:00:00:00:00:00:00", "ff:ff:ff:ff:ff:ff:ff:ff", random=True)}),
     ("--seed", "1234567"), [ADDRESSES + bytes.fromhex("88e5 20 00 00000000") + struct.pack(">QH", WORDS[0], 0)]),
    ("without a seed it is 0", line(ETH, {"header": "vlan", "vid": counted(0, 4095, random=False)}), ("--count", "1"), [tagged(0)]),
    ("padding", line(ETH, {"header": "vlan", "vid": counted(1, 2)}), ("--pad",), [tagged(it).ljust(60, b"\0") for it in (1, 2)]),
]

REFUSED = [
    ("the last number is before the first one", {"vid": counted(2, 1)}, "vid is no range of numbers that the field has"),
    ("no last number", {"vid": {"from": 1}}, "vid is no range of numbers that the field has"),
    ("no first number", {"vid": {"to": 1}}, "vid is no number from 0 on"),
    ("a step of 0", {"vid": counted(1, 2, step=0)}, "vid is no range of numbers that the field has"),
    ("another member", {"vid": counted(1, 2, by=1)}, "vid is no range of numbers that the field has"),
    ("no flag", {"vid": counted(1, 2, random=1)}, "vid is no range of numbers that the field has"),
    ("the first number has too many bits", {"vid": counted(4096, 5000)}, "vid has more bits than the field"),
    ("the last number has too many bits", {"vid": counted(1, 4096)}, "vid is no range of numbers that the field has"),
    ("a text", {"vid": counted("1", "2")}, "vid is no number from 0 on"),
    ("an array", {"vid": [1, 2]}, "vid is no number from 0 on"),
]


def times(first, count, rate):
    """The times of frames at a rate: the first one, in nanoseconds, and so many parts of a second later, rounded down."""
    return [divmod(first + at * 10**9 // rate, 10**9) for at in range(count)]


def rate_cases(program):
    tags = line(ETH, {"header": "vlan", "vid": counted(1, 3)}, time="2023-11-14T22:13:20.5Z")
    begin = 1_700_000_000_500_000_000
    for rate in (1, 3, 7, 1000, 999_999_999, 4_294_967_295):
        read = records_of(made(program, tags * 2, "--rate", str(rate)).stdout)
        yield f"{rate} frames a second", [it for it, _ in read], times(begin, 6, rate)
    later = line(ETH, time="2030-01-01T00:00:00Z")
    read = records_of(made(program, tags + later, "--rate", "2").stdout)
    yield "a later line goes on at the rate", [it for it, _ in read], times(begin, 4, 2)
    yield "without a rate each has its own", [it for it, _ in records_of(made(program, tags + later).stdout)], \
        [divmod(begin, 10**9)] * 3 + [(1_893_456_000, 0)]
    last = line(ETH, time="2106-02-07T06:28:14Z")
    done = made(program, last, "--rate", "1", "--count", "2")
    yield "up to the last second", ([it for it, _ in records_of(done.stdout)], done.returncode), ([(2**32 - 2, 0), (2**32 - 1, 0)], 0)
    done = made(program, line(ETH) + last, "--rate", "1")
    yield "from the first frame on", [it for it, _ in records_of(done.stdout)], [(0, 0), (1, 0)]
    done = made(program, last, "--rate", "1", "--count", "3")
    yield "after it none is made", (records_of(done.stdout), done.stderr.decode(), done.returncode), \
        ([], "ether_make: line 1: time is a time before 1970 or after 7 February 2106\n", 3)


def many_cases(program):
    """Many frames of one line take the memory of one, and combinations are all different."""
    def limited():
        resource.setrlimit(resource.RLIMIT_AS, (8 << 20, 8 << 20))

    lines = request(sha=counted("02:00:00:00:00:00", "02:00:00:00:03:ff"), spa=counted("10.0.0.0", "10.0.0.255"))
    done = subprocess.run([program], input=lines.encode(), capture_output=True, check=False, preexec_fn=limited)
    frames = [frame for _, frame in records_of(done.stdout)]
    wanted = [arp(bytes([2, 0, 0, 0, *divmod(number, 256)]), bytes([10, 0, 0, host])) for host, number in itertools.product(range(256), range(1024))]
    yield "262,144 combinations", (len(frames), frames == wanted, done.returncode), (262_144, True, 0)
    huge = counted("00:00:00:00:00:00", "ff:ff:ff:ff:ff:ff")
    done = made(program, line({**ETH, "dst": huge, "src": huge}))
    yield "too many combinations", (done.stderr.decode(), done.returncode), \
        ("ether_make: line 1: headers has too many combinations of ranges without --count\n", 3)
    done = made(program, line({**ETH, "dst": huge, "src": huge}, {"header": "vlan", "vid": counted(5, 6)}), "--count", "3")
    yield "three of too many combinations", (done.stderr.decode(), [frame.hex() for _, frame in records_of(done.stdout)], done.returncode), \
        ("", [f"00000000000{number}" "000000000000" "8100" "0005" "0000" for number in range(3)], 0)
    done = made(program, line({**ETH, "dst": huge, "src": {**huge, "random": True}}), "--count", "2")
    yield "what is drawn makes no combinations", (len(records_of(done.stdout)), done.returncode), (2, 0)


def range_cases(program):
    for name, lines, words, wanted in FRAMES:
        done = made(program, lines, *words)
        yield f"range: {name}", ([frame for _, frame in records_of(done.stdout)], done.stderr, done.returncode), (wanted, b"", 0)
    for name, fields, said in REFUSED:
        done = made(program, line(ETH) + line(ETH, {"header": "vlan", **fields}))
        yield f"range: {name}", (len(records_of(done.stdout)), done.stderr.decode(), done.returncode), (1, f"ether_make: line 2: header 1: {said}\n", 3)
    done = made(program, request(sha=counted("00:" * 8 + "00", "00:" * 8 + "01")))
    yield "range: an address of nine bytes", done.stderr.decode(), "ether_make: line 1: header 1: sha is no range of numbers that the field has\n"
    for name, got, wanted in itertools.chain(rate_cases(program), many_cases(program)):
        yield f"range: {name}", got, wanted
