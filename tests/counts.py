"""Tests `ether_capture --stats`: by worked examples, and by what tshark says of drawn packets.

`ether_capture.py` runs `examples`, `other_programs.py` runs `counted_by_tshark`.
"""
import collections
import json
import os
import subprocess
import tempfile
from functools import partial
from shutil import which

from made_captures import CLASSIC, ETHERNET, INPUT, SECTION_HEADER, classic, joined, record_is_cut
from formats import drawn, optioned
from programs import run_apart

ARP = classic(joined("ffffffffffff 020000000001 0806 0001 0800 06 04 0001 020000000001 0a000001 000000000000 0a000002"))
TAGS = classic(joined("ffffffffffff 020000000001 88a8 a001 8100 0005 0800 aabb"), joined("ffffffffffff 020000000001 0800"),
               joined("ffffffffffff 020000000001 0800 4500"))

UNTAGGED, TAGGED = "ffffffffffff 020000000001 0800", "ffffffffffff 020000000001 8100 0005 0800"
MINUTES = classic() + b"".join(
    seconds.to_bytes(4, "big") + bytes(4) + 2 * len(joined(frame)).to_bytes(4, "big") + joined(frame)
    for seconds, frame in ((1700006340, TAGGED), (1700006399, UNTAGGED), (1700006399, TAGGED), (1700006400, TAGGED)))

# What is counted, by hand: name, capture, words, status, and for each text of a column its packets and their bytes.
COUNTS = [
    ("a classic capture, with a fault", CLASSIC, [], 1, """\
eth.type	0x8100	1	46
eth.type	0x88A8	1	60
fault.kind	length	1	60
headers.header	eth,vlan	2	106
rest.type	0x0800	1	46
total		2	106
vlan.type	0x0800	1	46
vlan.type	0x8100	1	60
vlan.vid	1	1	60
vlan.vid	291	1	46
"""),
    ("an ARP packet", ARP, [], 0, """\
arp.sha	02:00:00:00:00:01	1	42
arp.spa	10.0.0.1	1	42
eth.type	0x0806	1	42
headers.header	eth,arp	1	42
total		1	42
"""),
    ("two tags", TAGS, ["--format", "lines"], 0, """\
eth.type	0x0800	2	30
eth.type	0x88A8	1	24
headers.header	eth	2	30
headers.header	eth,vlan,vlan	1	24
rest.type	0x0800	3	54
total		3	54
vlan.type	0x8100,0x0800	1	24
vlan.vid	1,5	1	24
"""),
    ("columns that are named", TAGS, ["--fields", "eth.src,vlan.pcp,frame.original"], 0, """\
eth.src	02:00:00:00:00:01	3	54
frame.original	14	1	14
frame.original	16	1	16
frame.original	24	1	24
total		3	54
vlan.pcp	5,0	1	24
"""),
    ("packets that are selected", CLASSIC, ["--select", "vlan 291", "--fields", "vlan.vid"], 0, "total		1	46\nvlan.vid	291	1	46\n"),
    ("the first packet", TAGS, ["-c", "1", "--fields", "rest.type"], 0, "rest.type	0x0800	1	24\ntotal		1	24\n"),
    ("at a limit", TAGS, ["--limit", "1", "--fields", "headers.header"], 0,
     "headers.header	eth	2	30\nheaders.header	eth,vlan	1	24\ntotal		3	54\n"),
    ("no packet", classic(), [], 0, "total		0	0\n"),
    ("packets that are not selected", ARP, ["--select", "vlan"], 0, "total		0	0\n"),
    ("a header that is cut, which is no failure", classic(bytes(13)), ["--status-on-fault", "no"], 0, "fault.kind	length	1	13\ntotal		1	13\n"),
]


# Of columns together: name, capture, words, status, and for each row of texts its packets and their bytes.
TOGETHER = [
    ("tags and types", TAGS, ["vlan.vid,vlan.pcp,eth.type"], 0, """\
total		3	54
vlan.vid	vlan.pcp	eth.type			0x0800	2	30
vlan.vid	vlan.pcp	eth.type	1,5	5,0	0x88A8	1	24
"""),
    ("a column alone", TAGS, ["eth.src"], 0, "eth.src	02:00:00:00:00:01	3	54\ntotal		3	54\n"),
    ("packets that have none of them", TAGS, ["arp.spa,arp.sha"], 0, "total		3	54\n"),
    ("who claims an address", ARP, ["arp.spa,arp.sha"], 0, "arp.spa	arp.sha	10.0.0.1	02:00:00:00:00:01	1	42\ntotal		1	42\n"),
    ("packets that are selected", CLASSIC, ["fault.kind,vlan.vid", "--select", "vlan 291"], 0, "fault.kind	vlan.vid		291	1	46\ntotal		1	46\n"),
    ("no packet", classic(), ["eth.src,eth.dst"], 0, "total		0	0\n"),
    # seconds since 1970 and tags: 23:59:59 and 00:00:00 of the next minute, hour and day, as `date -u -d @SECONDS` prints them
    ("minutes and tags", MINUTES, ["frame.minute,vlan.vid"], 0, """\
frame.minute	vlan.vid	2023-11-14T23:59Z		1	14
frame.minute	vlan.vid	2023-11-14T23:59Z	5	2	36
frame.minute	vlan.vid	2023-11-15T00:00Z	5	1	18
total		4	68
"""),
    ("hours", MINUTES, ["frame.hour"], 0, "frame.hour	2023-11-14T23Z	3	50\nframe.hour	2023-11-15T00Z	1	18\ntotal		4	68\n"),
    ("days", MINUTES, ["frame.day"], 0, "frame.day	2023-11-14	3	50\nframe.day	2023-11-15	1	18\ntotal		4	68\n"),
    ("the same column twice", ARP, ["arp.op,arp.op", "--format", "lines"], 0, "arp.op	arp.op	1	1	1	42\ntotal		1	42\n"),
]


WHOLE = "standard input: line {}: no whole line of a count, as --stats prints it\n"
MOST = 2 ** 64 - 1

# Counts that are added up: name, the counts, words, status, their sums, and what is said.
SUMS = [
    ("two runs", "eth.src\ta\t1\t60\ntotal\t\t1\t60\neth.src\ta\t2\t120\neth.src\tb\t1\t14\ntotal\t\t3\t134\n", [], 0,
     "eth.src\ta\t3\t180\neth.src\tb\t1\t14\ntotal\t\t4\t194\n", ""),
    ("as JSON", "vlan.vid\t5\t1\t60\nvlan.vid\t5\t2\t120\n", ["--format", "json"], 0,
     '{"column":"vlan.vid","value":"5","packets":3,"bytes":180}\n', ""),
    ("of columns together as JSON", "a\tb\tc\tx\t\ty\t1\t2\na\tb\tc\tx\t\ty\t3\t4\na\tb\tx\ty\t5\t6\n", ["--format", "json"], 0,
     '{"columns":["a","b","c"],"values":["x","","y"],"packets":4,"bytes":6}\n'
     '{"columns":["a","b"],"values":["x","y"],"packets":5,"bytes":6}\n', ""),
    ("keys that are no names and texts, as JSON", "a\tb\tc\t1\t2\na\t3\t4\n\t5\t6\n", ["--format", "json"], 0,
     '{"column":"","value":"","packets":5,"bytes":6}\n{"column":"a","value":"","packets":3,"bytes":4}\n'
     '{"columns":["a"],"values":["b","c"],"packets":1,"bytes":2}\n', ""),
    ("of columns together, where a text is empty", "a\tb\t\tx\t1\t2\na\tb\t\tx\t3\t4\na\tb\tx\t\t5\t6\n", [], 0,
     "a\tb\t\tx\t4\t6\na\tb\tx\t\t5\t6\n", ""),
    ("more than 64 bits hold", f"a\tb\t{MOST}\t{MOST - 1}\na\tb\t1\t1\n", [], 0, f"a\tb\t{MOST}\t{MOST}\n", ""),
    ("a number of 65 bits", f"a\tb\t1\t2\na\tb\t{MOST + 1}\t1\n", [], 3, "", WHOLE.format(2)),
    ("a number of 77 bits", "a\tb\t1\t99999999999999999999999\n", [], 3, "", WHOLE.format(1)),
    ("the greatest number of 64 bits, with zeros before it", f"a\tb\t1\t000{MOST}\n", [], 0, f"a\tb\t1\t{MOST}\n", ""),
    ("nothing", "", [], 0, "", ""),
    ("a word in place of a number", "a\tb\t1\t2\na\tb\t1\tx\n", [], 3, "", WHOLE.format(2)),
    ("a number with a sign", "a\tb\t+1\t2\n", [], 3, "", WHOLE.format(1)),
    ("no number", "a\tb\t\t2\n", [], 3, "", WHOLE.format(1)),
    ("one number", "1\t2\n", [], 3, "", WHOLE.format(1)),
    ("an empty line", "a\tb\t1\t2\n\n", [], 3, "", WHOLE.format(2)),
    ("a line that is cut", "a\tb\t1\t2\na\tb\t3\t4", [], 3, "", WHOLE.format(2)),
    ("JSON", '{"column":"a","value":"b","packets":1,"bytes":2}\n', [], 3, "", WHOLE.format(1)),
]


# Of a comment with bytes that JSON escapes: words, and what is printed
COMMENTED = [
    ([], "frame.comment\tsay \"a\\tb\"\t1\t14\ntotal\t\t1\t14\n"),
    (["--format", "json"], '{"column":"frame.comment","value":"say \\"a\\\\tb\\"","packets":1,"bytes":14}\n'
     '{"column":"total","value":"","packets":1,"bytes":14}\n'),
]


def as_objects(text):
    """What JSON has for these lines."""
    return [as_object(*line.rsplit("\t", 2)) for line in text.splitlines()]


def as_object(key, packets, size):
    """.. for a line with this key: names, and as many texts."""
    fields = key.split("\t")
    names, texts = fields[:len(fields) // 2], fields[len(fields) // 2:]
    members = {"columns": names, "values": texts} if len(names) > 1 else {"column": names[0], "value": texts[0]}
    return {**members, "packets": int(packets), "bytes": int(size)}


def objects(program, words, capture):
    """The objects of JSON that are counted, what is said, and the status."""
    out, said, status = run_apart(program, ["--stats", "--format", "json", *words], capture)
    return [json.loads(line) for line in out.splitlines()], said, status


def examples(program):
    """Returns what was tried, as (name, found, expected)."""
    for name, capture, words, status, text in COUNTS:
        yield f"counts: {name}", partial(run_apart, program, ["--stats", *words], capture), (text, "", status)
        if "--format" not in words:
            yield f"counts as JSON: {name}", partial(objects, program, words, capture), (as_objects(text), "", status)
    for name, capture, words, status, text in TOGETHER:
        yield f"counts of columns together: {name}", partial(run_apart, program, ["--stats", "--by", *words], capture), (text, "", status)
        if "--format" not in words:
            yield f"counts of columns together as JSON: {name}", partial(objects, program, ["--by", *words], capture), (as_objects(text), "", status)
    line = '{"column":"vlan.vid","value":"291","packets":1,"bytes":46}\n'
    found = partial(run_apart, program, ["--stats", "--format", "json", "--fields", "vlan.vid", "--select", "vlan 291"], CLASSIC)
    yield "counts as JSON, byte for byte", found, ('{"column":"total","value":"","packets":1,"bytes":46}\n' + line, "", 0)
    for words, wanted in COMMENTED:
        capture = SECTION_HEADER + ETHERNET + optioned([(1, b'say "a\tb"')])
        yield f"counts of comments: {words}", partial(run_apart, program, ["--stats", "--fields", "frame.comment", *words], capture), (wanted, "", 0)
    yield ("counts up to a cut record", partial(run_apart, program, ["--stats", "--fields", "vlan.vid"], TAGS[:82]),
           ("total\t\t1\t24\nvlan.vid\t1,5\t1\t24\n", INPUT + record_is_cut(64, 30, 18), 3))
    for name, text, words, status, sums, said in SUMS:
        yield f"sums: {name}", partial(run_apart, program, ["--merge", *words], text.encode()), (sums, said, status)
    yield from files(program)
    yield from parts(program)


def parts(program):
    """Counts of a capture that is cut in three add up to those of the whole."""
    packets = drawn(3_000)
    for words in ([], ["--fields", "eth.src,vlan.vid"], ["--by", "eth.type,vlan.vid"], ["--by", "frame.original"]):
        words = ["--stats", "--status-on-fault", "no", *words]
        cut = [packets[:7], packets[7:1_500], packets[1_500:]]
        counts = "".join(run_apart(program, words, classic(*part))[0] for part in cut)
        found = run_apart(program, ["--merge"], counts.encode())
        yield f"sums of parts: {' '.join(words)}", found, run_apart(program, words, classic(*packets))


def files(program):
    """Counts of several captures are those of their packets together."""
    with tempfile.TemporaryDirectory() as folder:
        names = [os.path.join(folder, name) for name in ("a.pcap", "b.pcap")]
        for name, capture in zip(names, (TAGS, ARP)):
            with open(name, "wb") as file:
                file.write(capture)
        found = run_apart(program, ["--stats", "--fields", "eth.src", *names], b"")
        absent = os.path.join(folder, "c.pcap")
        lacking = run_apart(program, ["--stats", "--fields", "eth.src", names[1], absent], b"")
        nothing = run_apart(program, ["--stats", absent], b"")
    return [("counts of two captures", found, ("eth.src\t02:00:00:00:00:01\t4\t96\ntotal\t\t4\t96\n", "", 0)),
            ("counts without a file that is not there", lacking,
             ("eth.src\t02:00:00:00:00:01\t1\t42\ntotal\t\t1\t42\n", f"{absent}: can't be opened: there is no such file\n", 4)),
            ("counts of no file", nothing, ("total\t\t0\t0\n", f"{absent}: can't be opened: there is no such file\n", 4))]


def counted_by_tshark(program):
    """20,000 drawn packets: what is counted is what tshark's fields give."""
    if not which("tshark"):
        print("left out: counts with tshark, since it is not there")
        return []
    fields = {"eth.src": "eth.src", "eth.dst": "eth.dst", "arp.op": "arp.opcode", "arp.sha": "arp.src.hw_mac", "arp.spa": "arp.src.proto_ipv4"}
    with tempfile.NamedTemporaryFile(suffix=".pcap") as pcap:
        pcap.write(classic(*drawn(20_000)))
        pcap.flush()
        words = [word for it in ("frame.len", *fields.values()) for word in ("-e", it)]
        done = subprocess.run(["tshark", "-n", "-r", pcap.name, "-T", "fields", *words], capture_output=True, text=True, check=False)
        out = subprocess.run([program, "--stats", "--format", "json", "--fields", ",".join(fields), pcap.name], capture_output=True, text=True, check=False)
        both = subprocess.run([program, "--stats", "--by", ",".join(fields), pcap.name], capture_output=True, text=True, check=False)
    wanted, rows = collections.defaultdict(lambda: [0, 0]), collections.defaultdict(lambda: [0, 0])
    for line in done.stdout.splitlines():
        size, *values = line.split("\t")
        if any(values):
            rows["\t".join([*fields, *values])][0] += 1
            rows["\t".join([*fields, *values])][1] += int(size)
        for key in [("total", ""), *((column, value) for column, value in zip(fields, values) if value)]:
            wanted[key][0] += 1
            wanted[key][1] += int(size)
    found = {(it["column"], it["value"]): [it["packets"], it["bytes"]] for it in map(json.loads, out.stdout.splitlines())}
    lines = sorted(f"{row}\t{packets}\t{size}\n" for row, (packets, size) in [*rows.items(), ("total\t", wanted["total", ""])])
    return [("counts with tshark", (found, len(found) > 100), (dict(wanted), True)),
            ("counts of columns together with tshark", (both.stdout, len(lines) > 100), ("".join(lines), True))]
