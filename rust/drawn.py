"""Compares the crate with a second walk (c/tests/walker.py), which has only offsets and arithmetic, on drawn frames.

    python3 rust/drawn.py [COUNT]

draws COUNT frames, 200,000 if it is left out, from a fixed seed, for each start, with a limit and without. Of each it
compares all fields of all units, what is left and the fault; the summary, also of a cut; what `write_back` writes; what
a feed takes; completions; the identifiers of a packet; and VLAN tags that are pushed, set and popped. The last line is
'N passed, M failed'.
"""
import argparse
import os
import random
import subprocess
import sys

HERE = os.path.dirname(os.path.abspath(__file__))
sys.dont_write_bytecode = True
sys.path.insert(0, os.path.join(os.path.dirname(HERE), "c", "tests"))
import building  # noqa: E402
from walker import ETHERNET2, LINUX_SLL, Walker, number  # noqa: E402

FOLDER = os.path.join(HERE, "drawn")
TYPES = (0x8100, 0x88A8, 0x9100, 0x88E5, 0x88E5, 0x0806, 0x0800)
COUNT, PART = 200_000, 10_000


def typed(draw, depth=0):
    """An ether type, and the bytes that it announces."""
    ether_type = draw.choice(TYPES[:-1] if depth < 3 else TYPES)
    return ether_type.to_bytes(2, "big") + announced(draw, ether_type, depth + 1)


def announced(draw, ether_type, depth):
    if ether_type == 0x88E5:
        return sec_tag(draw, depth)
    if ether_type == 0x0806:
        n, m = draw.choice(((6, 4), (6, 4), (draw.randrange(9), draw.randrange(9))))
        return draw.randbytes(4) + bytes((n, m)) + draw.randbytes(2 + 2 * n + 2 * m + draw.choice((0, 18)))
    return draw.randbytes(2) + typed(draw, depth) if ether_type in TYPES[:3] else draw.randbytes(draw.randrange(40))


def sec_tag(draw, depth):
    """A SecTag and its payload: now and then a refused version bit; a short length that is 0, right or drawn."""
    control = draw.randrange(128) & draw.choice((0x73, 0x7F)) | (0x80 if draw.random() < 0.03 else 0)
    payload = draw.randbytes(draw.randrange(48)) if control & 0x0C else typed(draw, depth)
    right = len(payload) if len(payload) < 64 else 0
    short_len = draw.choice((0, right, right, draw.randrange(256)))
    sci = draw.randbytes(8) if control & 0x20 else b""
    return bytes((control, short_len)) + draw.randbytes(4) + sci + payload + draw.randbytes(draw.choice((0, 16)))


def scattered(draw):
    """Bytes with many ether types that announce something, and many small numbers."""
    frame = bytearray(it & draw.choice((7, 255)) for it in draw.randbytes(draw.randrange(60)))
    for at in range(draw.choice((0, 12)), len(frame) - 1, 2):
        if draw.random() < 0.5:
            frame[at:at + 2] = draw.choice(TYPES).to_bytes(2, "big")
    return bytes(frame)


def drawn_frame(draw, start, ether_type):
    """A frame of this start; a third is cut, and some are no such frames."""
    if draw.random() < 0.2:
        return scattered(draw)
    if start == 3:
        hardware = draw.choice((1, 1, 1, 770, 778, 803, 824, 2))
        frame = bytes((0, draw.randrange(9))) + hardware.to_bytes(2, "big") + draw.randbytes(10) + typed(draw)
    else:
        frame = announced(draw, ether_type, 0) if start == 4 else draw.randbytes(12) + typed(draw)
    return frame[:draw.randrange(len(frame) + 1)] if draw.random() < 0.3 else frame


def drawn_line(draw):
    """A start, an ether type, a limit, a cut, the two of a VLAN tag, and a frame."""
    start = draw.randrange(1, 5)
    ether_type = draw.choice(TYPES) if start == 4 else None
    frame = drawn_frame(draw, start, ether_type)
    limit = draw.choice((None, None, 0, 1, 2, 3))
    return start, ether_type, limit, draw.randrange(len(frame) + 1), draw.choice(TYPES[:3]), draw.randrange(4096), frame


def walk(start, ether_type, frame, limit):
    first = {1: ETHERNET2, 2: ETHERNET2, 3: LINUX_SLL}.get(start)
    return Walker(frame, first, has_fcs=start == 2, ether_type=ether_type, limit=limit)


def words(values):
    return " ".join(it.hex() if isinstance(it, bytes) else str(it) for it in values)


def unit(frame, it):
    """A unit of the second walk as a line, with the addresses of an ARP packet in place of their places."""
    kind, at, header_len, end, closed, fields = it
    if kind == 5:
        *places, hardware, protocol, operation, n, m = fields
        addresses = " ".join(f"{frame[place:place + size].hex()}." for place, size in zip(places, (n, m, n, m)))
        fields = (hardware, protocol, operation, addresses)
    return f"{kind} {at} {header_len} {end} {closed} {words(fields)};"


def left(walker):
    """What is left and the fault."""
    return f"{words(walker.rest)}|{words(walker.fault or ())}|"


def named_len(walker):
    """The length that an open refusal names."""
    return walker.fault[0] + walker.fault[1] if walker.fault and walker.fault[3] else None


def fed(start, ether_type, frame, limit):
    """How often a reader that asks for what is missing is given it, how much it takes, and the fault then."""
    refusals = taken = 0
    while True:
        walker = walk(start, ether_type, frame[:taken], limit)
        length = named_len(walker)
        if length is None or length > len(frame):
            return f"{refusals} {taken}|{words(walker.fault or ())}|"
        refusals, taken = refusals + 1, length


def cleared(frame, walker):
    """The frame up to the walk's last window, with two bits of each SecTag cleared."""
    front = bytearray(frame[:walker.end])
    for kind, offset, *_ in walker.units:
        if kind == 4:
            front[offset + 1] %= 64
    return bytes(front)


def placed(walker):
    """The headers with their places, without their windows, which a cut changes."""
    return [(kind, offset, header_len, fields) for kind, offset, header_len, _, _, fields in walker.units]


def packet(start, ether_type, frame):
    """The identifiers of a packet, a digit for each tag, the least cut, and the frame with each tag written again."""
    walker = walk(start, ether_type, frame, 3)
    tags = [it for it in walker.units if it[0] in (3, 4)]
    ids = "".join(f"{it[5][0]} " for it in tags if it[0] == 3)
    whole = placed(walker)
    end = max((at + header_len for _, at, header_len, *_ in walker.units), default=0)
    cuts = range(end, len(frame) + 1)
    least = next(n for n in cuts if placed(walk(start, ether_type, frame[:n], 3)) == whole) if start != 2 else None
    return ids + "1" * len(tags), least, (cleared(frame, walker) + frame[walker.end:]).hex()


def tagged(start, frame, tpid, vid):
    """The frame with a VLAN tag put in, and after it was set and taken off; or nothing was put in."""
    at = 14 if start == 3 else 12
    walker = walk(start, None, frame, 0)
    if not walker.units or start == 3 and walker.units[0][5][1] != 1:
        return f"0 00000000{frame.hex()}"
    pushed = frame[:at] + tpid.to_bytes(2, "big") + vid.to_bytes(2, "big") + frame[at:]
    has_room = number(pushed, at, 2) == tpid
    return f"{int(has_room)} {pushed.hex()} 1 {4095 - vid} {frame.hex()}"


def completed(walker):
    """The bytes that complete the unit in which a frame is cut, the one more unit, and no fault then; or nothing."""
    if named_len(walker) is None:
        return ""
    at, _, have, _, _, layer, *_ = walker.fault
    front = walker.frame[at:] + bytes(16)
    if layer in (2, 5) or layer == 4 and have < 6:
        return ""
    if layer == 4:
        typed, sci = 2 * (front[0] & 0x0C == 0), 8 * (front[0] & 0x20 != 0)
        header_len = 6 + sci + typed
        total, type_at = header_len + max(front[1] % 64 - typed, 0), header_len - 2 if typed else None
    else:
        total, type_at = {1: (14, 12), 3: (4, 2), 6: (8 + 2 * front[4] + 2 * front[5], None)}[layer]
    fill = bytearray(total - have)
    if type_at is not None and have == type_at + 1 and front[type_at] in (0x81, 0x91):
        fill[0] = 1  # or the ether type would announce a VLAN tag
    return f"{fill.hex()} 1 1"


def wrong(line, told):
    """What is told of a line otherwise than by the second walk, or None."""
    start, ether_type, limit, cut, tpid, vid, frame = line
    walker, short = walk(start, ether_type, frame, limit), walk(start, ether_type, frame[:cut], limit)
    front = cleared(frame, walker)
    summary, snapped = (f"{len(it.units)} {it.at} {it.end} {left(it)}" for it in (walker, short))
    wanted = "".join(unit(frame, it) for it in walker.units)
    wanted += f"{walker.at} {walker.end} {left(walker)}{summary}{snapped}"
    wanted += f"{len(front)} {front.hex()}{'5a' * (len(frame) + 1 - len(front))}|{fed(start, ether_type, frame, limit)}"
    if not told.startswith(wanted):
        return wanted
    fill, of_packet, tags = told[len(wanted):].split("|")
    ids, least, same = packet(start, ether_type, frame)
    found = of_packet.rsplit(" ", 2)
    if found[0] != ids or least is not None and found[1] != str(least) or found[2] != same:
        return f"a packet {ids} {least} {same}"
    if fill != completed(short):
        return f"a completion {completed(short)}"
    wanted = tagged(start, frame, tpid, vid) if start != 4 else ""
    return None if tags == wanted else f"tags {wanted}"


def input_line(line):
    return " ".join("-" if it is None else it.hex() if isinstance(it, bytes) else str(it) for it in line)


def failures(count, program):
    """For each part of the frames None, or the first that is told otherwise."""
    draw = random.Random(1)
    for begin in range(0, count, PART):
        lines = [drawn_line(draw) for _ in range(min(PART, count - begin))]
        given = "\n".join(map(input_line, lines))
        ran = subprocess.run([program], input=given, capture_output=True, text=True)
        told = ran.stdout.split("\n")[:-1]
        if ran.returncode or len(told) != len(lines):
            yield f"the program ended with {ran.returncode} after {len(told)} frames: {ran.stderr[-500:]}"
            continue
        bad = ((line, it, why) for line, it in zip(lines, told) if (why := wrong(line, it)))
        yield next((f"{input_line(line)}\n{it}\nwanted:\n{why}" for line, it, why in bad), None)


def built():
    """The program, built anew, or SystemExit with what cargo says."""
    text, status = building.cargo("build", "--release", folder=FOLDER)
    if status:
        sys.exit(text)
    return os.path.join(FOLDER, "target", "release", "drawn")


def main():
    words = argparse.ArgumentParser(description=__doc__, formatter_class=argparse.RawDescriptionHelpFormatter)
    words.add_argument("count", metavar="COUNT", nargs="?", type=int, default=COUNT)
    found = list(failures(words.parse_args().count, built()))
    print("\n".join(it for it in found if it))
    print(f"{found.count(None)} passed, {len(found) - found.count(None)} failed")
    return 1 if len(found) > found.count(None) else 0


if __name__ == "__main__":
    sys.exit(main())
