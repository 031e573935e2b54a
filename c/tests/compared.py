"""The package compared with the second walk (walker.py), on drawn frames and short ones."""
import itertools
import random

import etherpeel
from checks import ADDRESSES, ARP, TAGGED, check, counts, raised
from etherpeel import FaultKind
from walker import ETHERNET2, LINUX_SLL, Walker


def number(value):
    return int(value or 0)


def header_of(header):
    """The fields of a header as the second walk has them, with the addresses of an ARP packet."""
    if isinstance(header, etherpeel.Macsec):
        return (number(header.sci), header.packet_number, number(header.ether_type), header.end_station, header.sci is not None,
                header.single_copy_broadcast, header.encrypted, header.changed, header.association_number, header.short_len)
    if isinstance(header, etherpeel.Vlan):
        return header.vid, header.ether_type, header.pcp, header.dei
    return tuple(header)


KINDS = [etherpeel.Ethernet2, etherpeel.LinuxSll, etherpeel.Vlan, etherpeel.Macsec, etherpeel.Arp]


def unit_of(unit):
    placed = unit.payload_start == unit.offset + unit.header_len
    return (KINDS.index(type(unit.header)) + 1 if placed else None, unit.offset, unit.header_len, unit.payload_end, unit.closed,
            header_of(unit.header))


def expected_unit(frame, unit):
    """A unit of the second walk, with the addresses in place of their places."""
    if unit[0] != 5:
        return unit
    *places, hardware, protocol, operation, n, m = unit[5]
    addresses = [frame[at:at + size] for at, size in zip(places, (n, m, n, m))]
    return (*unit[:5], (hardware, protocol, operation, *addresses))


def fault_of(fault):
    """A fault as the second walk has it."""
    if fault is None:
        return None
    return (fault.offset, fault.required_len, fault.len, fault.missing, fault.kind, number(fault.layer), number(fault.len_source),
            number(fault.packet_type), number(fault.hardware_type), fault.closed)


def drawn_frame(draw):
    """Bytes with many ether types that announce something, and many short numbers."""
    frame = bytearray(draw.choice((draw.randrange(256), draw.randrange(8))) for _ in range(draw.randrange(100)))
    for at in range(12, len(frame) - 1, 2):
        if draw.random() < 0.6:
            frame[at:at + 2] = draw.choice((0x8100, 0x88A8, 0x9100, 0x88E5, 0x88E5, 0x0806, 0x0800)).to_bytes(2, "big")
    if draw.random() < 0.5:  # a cooked capture that is not refused at once
        frame[0:4] = bytes((0, draw.randrange(9))) + draw.choice((1, 1, 770, 778, 803, 824, 2)).to_bytes(2, "big")
    return bytes(frame)


STARTS = [(1, None), (2, None), (3, None), (4, 0x8100), (4, 0x88A8), (4, 0x9100), (4, 0x88E5), (4, 0x0806), (4, 0x0800)]


def walk_of(start, ether_type, frame, limit=None):
    """The second walk of a frame."""
    first = {1: ETHERNET2, 2: ETHERNET2, 3: LINUX_SLL}.get(start)
    return Walker(frame, first, has_fcs=start == 2, ether_type=ether_type, limit=limit)


def named_len(walker):
    """The length that an open refusal names."""
    return walker.fault[0] + walker.fault[1] if walker.fault and walker.fault[3] else None


def cleared(frame, walker):
    """The front of the frame up to the walk's last window, with two bits of each SecTag cleared."""
    front = bytearray(frame[:walker.end])
    for kind, offset, *_ in walker.units:
        if kind == 4:
            front[offset + 1] %= 64
    return bytes(front)


def compare(start, ether_type, frame, limit=None):
    """The library's walk is the second walk: the same units with all fields, the same rest, the same fault."""
    walker = walk_of(start, ether_type, frame, limit)
    words = {"ether_type": ether_type, "limit": limit}
    try:
        units, fault = etherpeel.walk(frame, start, **words), None
    except etherpeel.Refused as refused:
        units, fault = refused.units, refused.fault
    found = etherpeel.summary(frame, start, **words)
    told = ([unit_of(unit) for unit in units], found.units, (found.rest_start, found.rest_end),
            (found.rest_kind, found.rest_protocol), fault_of(fault), fault_of(found.fault))
    expected = ([expected_unit(frame, unit) for unit in walker.units], len(walker.units), (walker.at, walker.end), walker.rest,
                walker.fault, walker.fault)
    if told != expected:
        check(f"start {start} ether type {ether_type} limit {limit} frame {frame.hex()}", told, expected)
    return walker, found


def compare_calls(start, ether_type, frame, limit=None):
    """So are the headers written back, and what is asked for while the frame arrives byte by byte."""
    walker, _ = compare(start, ether_type, frame, limit)
    words = {"ether_type": ether_type, "limit": limit}
    target = bytearray(b"Z" * (len(frame) + 1))
    written = etherpeel.write_back_into(target, frame, start, **words)
    front = cleared(frame, walker)
    asked = [n for n in range(1, len(frame) + 1) if named_len(walk_of(start, ether_type, frame[:n - 1], limit)) == n]
    taken = max(asked, default=0)
    fed = etherpeel.feed(frame, start, **words)
    told = (written, bytes(target), fed.refusals, fed.taken, fault_of(fed.fault))
    expected = (len(front), front + b"Z" * (len(frame) + 1 - len(front)), len(asked), taken,
                walk_of(start, ether_type, frame[:taken], limit).fault)
    if told != expected:
        check(f"calls: start {start} ether type {ether_type} limit {limit} frame {frame.hex()}", told, expected)


def placed(walker):
    """The headers of the second walk with their places, without their windows, which a cut changes."""
    return [(kind, offset, header_len, fields) for kind, offset, header_len, _, _, fields in walker.units]


def compare_packet(start, ether_type, frame):
    """The packet is the second walk with a limit of three; its least cut is found by trying each."""
    walker = walk_of(start, ether_type, frame, 3)
    packet = etherpeel.packet(frame, start, ether_type=ether_type)
    cuts = (n for n in range(len(frame) + 1) if placed(walk_of(start, ether_type, frame[:n], 3)) == placed(walker))
    told = ([unit_of(unit) for unit in packet.units], fault_of(packet.summary.fault), packet.vlan_ids,
            packet.min_snap_len if start != 2 else None)
    expected = ([expected_unit(frame, unit) for unit in walker.units], walker.fault,
                tuple(fields[0] for kind, *_, fields in walker.units if kind == 3), next(cuts) if start != 2 else None)
    if told != expected:
        check(f"packet: start {start} ether type {ether_type} frame {frame.hex()}", told, expected)


def compare_replaced(start, ether_type, frame):
    """Each header that replaces itself leaves the frame, but for two bits of a SecTag."""
    walker, words = walk_of(start, ether_type, frame, 3), {"start": start, "ether_type": ether_type}
    replaced, index = bytearray(frame), 0
    for unit in etherpeel.packet(frame, **words).units:
        if isinstance(unit.header, (etherpeel.Vlan, etherpeel.Macsec)):
            etherpeel.replace_link_ext(replaced, index, unit.header, **words)
            index += 1
        elif isinstance(unit.header, etherpeel.Arp):
            etherpeel.replace_arp(replaced, unit.header, **words)
        else:
            etherpeel.replace_link(replaced, unit.header, start)
    check_quietly("replaced by itself", replaced, cleared(frame, walker) + frame[walker.end:])


def compare_tags(start, frame, tpid, vid):
    """A tag that is put in and taken off again, and an identifier that is set, by slices of the frame."""
    at = 14 if start == 3 else 12
    walker = walk_of(start, None, frame, 1)
    buffer = bytearray(4) + frame
    tci = (5 << 13 | vid).to_bytes(2, "big")
    pushed = frame[:at] + tpid.to_bytes(2, "big") + tci + frame[at:]
    if raised(etherpeel.push_vlan, buffer, etherpeel.Vlan(vid, pcp=5), tpid, start):
        ok = not walker.units or start == 3 and walker.units[0][5][1] != 1
        check_quietly("push is refused", (ok, buffer), (True, bytearray(4) + frame))
        return
    check_quietly("push", (bool(walker.units), buffer), (True, pushed))
    etherpeel.set_vlan_id(buffer, 0, 4095 - vid, start)
    check_quietly("set", buffer, pushed[:at + 2] + (5 << 13 | 4095 - vid).to_bytes(2, "big") + frame[at:])
    tag = etherpeel.pop_vlan(buffer, start)
    check_quietly("pop", (tag, buffer[4:]), (etherpeel.Vlan(4095 - vid, 5, False, number_at(frame, at)), frame))


def number_at(frame, at):
    return int.from_bytes(frame[at:at + 2], "big")


def check_quietly(what, found, expected):
    """Counts only what differs."""
    if found != expected:
        check(what, found, expected)


def drawn_packets(rounds):
    draw = random.Random(3)
    for _ in range(rounds):
        frame, start = drawn_frame(draw), draw.randrange(1, 5)
        ether_type = draw.choice((0x8100, 0x88E5, 0x0806)) if start == 4 else None
        compare_packet(start, ether_type, frame)
        compare_replaced(start, ether_type, frame)
        compare_tags(draw.randrange(1, 4), frame, draw.choice((0x8100, 0x88A8, 0x9100)), draw.randrange(4096))
    check(f"{rounds} packets", counts[False], 0)


def drawn_frames(rounds):
    """The second walk on drawn frames, with a limit in half of them."""
    draw = random.Random(1)
    faults, most = set(), 0
    for turn in range(rounds):
        frame = drawn_frame(draw)
        start = draw.randrange(1, 5)
        ether_type = draw.choice((0x8100, 0x88E5, 0x0806, 0x0800)) if start == 4 else None
        walker, found = compare(start, ether_type, frame)
        compare_calls(start, ether_type, frame[:40], (None, 0, 1, 2)[turn % 4])
        faults.add(found.fault and found.fault.kind)
        most = max(most, len(walker.units))
    check(f"{rounds} frames", counts[False], 0)
    check("many units and all kinds of faults", most >= 6 and faults == {None, *FaultKind}, True)


def short_lists():
    """All lists of up to three bytes that announce something or are small, and all beginnings of SecTags and ARP packets."""
    letters = bytes.fromhex("0001080c8188a8e506")
    for length in range(4):
        for letters_of in itertools.product(letters, repeat=length):
            for start, ether_type in STARTS:
                for limit in (None, 0, 1):
                    compare_calls(start, ether_type, bytes(letters_of), limit)
    for a, b, c, d in itertools.product(letters, repeat=4):
        tag = bytes((a, b, 0, 0, 0, 1, c, d)) + bytes.fromhex("81000806 0007") + bytes((c, d, 0, 0, 0, 0))
        compare(4, 0x88E5, tag)
        compare(4, 0x88E5, tag[:11])
        compare(4, 0x0806, bytes((0, 1, 8, 0, a, b, c, d)) + bytes(range(1, 13)))
        for start, ether_type in STARTS:
            compare(start, ether_type, bytes((a, b, c, d)))
    check("short lists and beginnings", counts[False], 0)


def fronts():
    """Each front of the examples, from each start, with a limit and without."""
    for frame in (TAGGED, ARP, ADDRESSES + bytes.fromhex("88e5 0006 00000001 8100 aabbccdd eeee")):
        for start, ether_type in STARTS:
            for end in range(len(frame) + 1):
                for limit in (None, 0, 1, 2):
                    compare_calls(start, ether_type, frame[:end], limit)
    check("fronts", counts[False], 0)
