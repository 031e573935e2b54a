"""Tests of tables of captures, also as arrays of NumPy and data frames of pandas, if the Python that runs them has both: tables.py FOLDER,
where FOLDER has the package. The last line is 'N passed, M failed'."""
import pickle
import random
import struct
import sys

from checks import ADDRESSES, ARP, TAGGED, check, counts, raised, words

folder, = words("FOLDER")
sys.path.insert(0, folder)
import etherpeel
from compared import drawn_frame, walk_of

try:
    import numpy
    import pandas
except ImportError:
    numpy = pandas = None

LAST = 2**63 - 1  # nanoseconds


def file_of(packets, link_type):
    """A classic capture, big-endian (draft-ietf-opsawg-pcap)."""
    records = b"".join(struct.pack(">IIII", 1700000000, n, len(it), len(it)) + it for n, it in enumerate(packets))
    return struct.pack(">IHHIIII", 0xA1B23C4D, 2, 4, 0, 0, 262144, link_type) + records


def section(*packets):
    """A section of pcapng with an interface in nanoseconds, and blocks: enhanced ones by their time, simple ones without."""
    def block(kind, body):
        body += bytes(-len(body) % 4)
        return struct.pack(">II", kind, len(body) + 12) + body + struct.pack(">I", len(body) + 12)

    text = block(0x0A0D0D0A, struct.pack(">IHHq", 0x1A2B3C4D, 1, 0, -1)) + block(1, struct.pack(">HHIHHBxxxHH", 1, 0, 0, 9, 1, 9, 0, 0))
    for time, packet in packets:
        if time is None:
            text += block(3, struct.pack(">I", len(packet)) + packet)
        else:
            text += block(6, struct.pack(">IIIII", 0, time >> 32, time % 2**32, len(packet), len(packet)) + packet)
    return text


def worked_examples():
    to_all, source = 0xFFFFFFFFFFFF, 0x020000000001
    table = etherpeel.open(section((5, TAGGED), (LAST, ARP), (LAST + 1, TAGGED[:16]), (None, b""))).table()
    check("tagged", table[0], (5, 19, 19, 1, to_all, source, (0x123,), 0x0800, False, False, None, 0))
    check("ARP", table[1], (LAST, 42, 42, 1, to_all, source, (), 0, False, True, None, 0))
    check("cut", table[2], (None, 16, 16, 1, to_all, source, (), 0x8100, False, False, etherpeel.FaultKind.LENGTH, 14))
    check("empty", table[3], (None, 0, 0, 1, None, None, (), 0, False, False, etherpeel.FaultKind.LENGTH, 0))
    check("a sequence", (len(table), list(table), table[1:3], table[-1]), (4, table[:], [table[1], table[2]], table[3]))
    check("no row", raised(table.__getitem__, 4), IndexError)
    check("repr", repr(table), "<etherpeel.Table with 4 rows>")
    other = etherpeel.open(file_of([TAGGED], 147)).table()
    check("nothing walked", other[0], (1700000000000000000, 19, 19, 147, None, None, (), 0, False, False, None, 0))
    copy = pickle.loads(pickle.dumps(table))
    check("pickled", (type(copy), list(copy), list(pickle.loads(pickle.dumps(other)))), (etherpeel.Table, list(table), list(other)))
    if numpy:
        check("columns of NumPy", numpy.asarray(table).dtype.names, tuple(name for name, _ in etherpeel._header.Row._fields_))
    check("no packets", list(etherpeel.open(file_of([], 1)).table()), [])


def expected(frame, link_type):
    """The row of the second walk."""
    walker = walk_of(1 if link_type == 1 else 3, None, frame, 3)
    kinds = [unit[0] for unit in walker.units]
    addresses = [int.from_bytes(it, "big") for it in walker.units[0][5][:2]] if kinds[:1] == [1] else [None, None]
    ids = tuple(unit[5][0] for unit in walker.units if unit[0] == 3)
    kind, protocol = walker.rest
    fault = (etherpeel.FaultKind(walker.fault[4]), walker.fault[0]) if walker.fault else (None, 0)
    return (len(frame), len(frame), link_type, *addresses, ids, protocol if kind == 1 else 0, 4 in kinds, 5 in kinds, *fault)


def drawn(count):
    """Rows are those of the second walk. Cooked captures of a hardware type that the walk does not know are read otherwise."""
    draw = random.Random("tables")
    for link_type in (1, 113):
        frames = [drawn_frame(draw) for _ in range(count)]
        if link_type == 113:
            frames = [it for it in frames if len(it) < 16 or int.from_bytes(it[2:4], "big") in (1, 770, 778, 803, 824)]
        table = etherpeel.open(file_of(frames, link_type)).table()
        for at, frame in enumerate(frames):
            found, wanted = table[at], (1700000000000000000 + at, *expected(frame, link_type))
            if found != wanted:
                check(f"link type {link_type}: {frame.hex()}", found, wanted)
        counts[True] += len(frames)


def arrays():
    """The columns have what the rows have."""
    table = etherpeel.open(section((5, TAGGED), (LAST, ARP), (None, TAGGED[:16]), *[(n, TAGGED[:18]) for n in range(5000)])).table()
    records = numpy.asarray(table)
    check("records", (records.shape, records["vlan_ids"].tolist()[:2], records["destination"].tolist()[:1]),
          ((5003,), [[0x123, 0, 0], [0, 0, 0]], [0xFFFFFFFFFFFF]))
    check("memory", (numpy.shares_memory(records, numpy.asarray(table)), records.flags.writeable), (True, False))
    columns = table.columns()
    check("columns", (columns["vlan_1"].tolist(), columns["vlan_count"].tolist()),
          ([it.vlan_ids[0] if it.vlan_ids else 0 for it in table], [len(it.vlan_ids) for it in table]))
    for name in ("captured_len", "original_len", "link_type", "ether_type", "fault_offset"):
        check(name, columns[name].tolist(), [getattr(it, name) for it in table])
    times = columns["time"]
    check("times", (str(times.dtype), times[:3].astype("int64").tolist(), numpy.isnat(times).tolist()[:4]),
          ("datetime64[ns]", [5, LAST, -2**63], [False, False, True, False]))
    frame = table.to_pandas()
    check("data frame", (len(frame), list(frame.columns) == list(columns), str(frame.time[0]), frame.time.isna().sum()),
          (5003, True, "1970-01-01 00:00:00.000000005", 1))
    check("groups", frame.groupby("vlan_1")["original_len"].sum().to_dict(), {0: 42 + 16, 0x123: 19 + 5000 * 18})
    check("no packets", (len(etherpeel.open(file_of([], 1)).table().to_pandas()), numpy.asarray(etherpeel.open(file_of([], 1)).table()).shape),
          (0, (0,)))


worked_examples()
drawn(3000)
if pandas:
    arrays()
else:
    print("left out: arrays of NumPy and pandas, since this Python has not both")
print(f"{counts[True]} passed, {counts[False]} failed")
