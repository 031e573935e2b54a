"""Compares the copies of `ether_capture --write` with what tshark and tcpdump select and read.

    python3 captures/copies.py PROGRAM [EXPRESSIONS] [PACKETS]

PROGRAM is the built program. Of each capture of `make.py`:

- the copy of all packets is the capture itself;
- the copy of the packets that an expression selects has the units that are no packets, and the packets that tshark selects by a display
  filter of the same meaning, byte for byte; a copy of it by the same expression is the same;
- tshark reads the copy without a word on standard error, and with the same fields of each packet as in the capture;
- tcpdump reads the copy if it reads the capture.

Of captures with frames that are cut within a tag only the copy of all is compared: tshark has the identifier of a tag whose ether type is cut off.

- the copy that is cut to headers has each packet up to where the second walk (`c/tests/walker.py`) has the end of its headers, with the same
  fields in tshark;
- the copy with another identifier has it in the first VLAN tag of the second walk that has the old one, and nowhere else.

Of random classic captures, as `filters.py` makes them, the copy is the file that `tcpdump -r FILE -w - EXPRESSION` writes. The last line is
'N passed, M failed'.
"""

import argparse
import os
import random
import shutil
import subprocess
import sys
import tempfile

import filters
import make

sys.path.insert(0, os.path.join(os.path.dirname(os.path.abspath(__file__)), "..", "c", "tests"))
from walker import ETHERNET2, LINUX_SLL, Walker, number  # noqa: E402

FIELDS = ["frame.time_epoch", "frame.cap_len", "frame.len", "frame.encap_type", "frame.protocols", "eth.dst", "eth.src", "vlan.id"]
# tshark has fields of their own for tags with a service identifier.
ARP = "eth.type == 0x0806 || vlan.etype == 0x0806 || sll.etype == 0x0806"
VLAN = {it: f"vlan.id == {it} || ieee8021ad.id == {it}" for it in (1, 7, 8, 291)}
SAME = {"vlan 7": VLAN[7], "vlan 291 or vlan 1": f"{VLAN[291]} || {VLAN[1]}", "arp or vlan 8": f"{ARP} || {VLAN[8]}",
        "arp and vlan": f"({ARP}) && (vlan.id || ieee8021ad.id)"}


def written(program, words, name):
    return subprocess.run([program, "--write", *words, name], stdout=subprocess.PIPE, check=True).stdout


def tshark(name, chosen, fields):
    """The fields of the frames that a display filter selects, without those that tshark makes of custom blocks; and its complaints."""
    words = [word for it in fields for word in ("-e", it)]
    done = subprocess.run(["tshark", "-n", "-r", name, "-Y", f"frame.encap_type && ({chosen})", "-T", "fields", *words],
                          capture_output=True, check=False)
    said = [line for line in done.stderr.decode().splitlines() if line and "as user" not in line]
    return [line.split("\t") for line in done.stdout.decode().splitlines()], said


def is_read_by_tcpdump(name):
    return subprocess.run(["tcpdump", "-n", "-r", name], stdout=subprocess.DEVNULL, stderr=subprocess.DEVNULL, check=False).returncode == 0


def of_made(program, folder):
    """The captures of `make.py` and their copies: what was compared, found and wanted."""
    name, made = os.path.join(folder, "capture"), os.path.join(folder, "copy")
    for capture in make.captures():
        with open(name, "wb") as file:
            file.write(capture.data())
        yield f"{capture.name}, all", written(program, [], name), capture.data()
        if capture.name.startswith("classic_cut_") or capture.name == "ng_padding":
            continue
        is_read = is_read_by_tcpdump(name)
        rows = tshark(name, "frame", ["frame.number", *FIELDS])[0]
        for text, chosen in SAME.items():
            what = f"{capture.name}, {text}"
            numbers = {number for number, in tshark(name, chosen, ["frame.number"])[0]}
            selected = [at for at, row in enumerate(rows) if row[0] in numbers]
            units, at = [], 0
            for unit, packet in capture.units:
                if packet is None or at in selected:
                    units.append(unit)
                at += packet is not None
            copy = written(program, ["--select", text], name)
            yield what, copy, b"".join(units)
            with open(made, "wb") as file:
                file.write(copy)
            yield f"{what}, again", written(program, ["--select", text], made), copy
            yield f"{what}, read by tshark", tshark(made, "frame", FIELDS), ([rows[it][1:] for it in selected], [])
            yield f"{what}, read by tcpdump", is_read_by_tcpdump(made) or not is_read, True


# What a packet's bytes that are cut off can't change.
KEPT = ["frame.time_epoch", "frame.len", "frame.encap_type", "eth.dst", "eth.src", "vlan.id", "sll.pkttype", "arp.opcode"]
NO_ETHER_TYPE = (770, 778, 803, 824)  # hardware types after which no ether type announces the payload


def reach(walk):
    """How far the headers of a walk reach, with payloads whose length a SecTag names."""
    ends = [0]
    for kind, at, header_len, _, _, fields in walk.units:
        typed = 2 if kind == 4 and not fields[6] and not fields[7] else 0
        named = fields[9] - typed if kind == 4 and fields[9] >= max(typed, 1) else 0
        ends.append(at + header_len + named)
    return max(ends)


def without_fcs(packet):
    return packet.data[:max(max(packet.original, len(packet.data)) - packet.fcs_len, 0)]


def frame_walk(packet):
    """The second walk of a frame of Ethernet or of cooked capture v1; None of another packet."""
    if packet.link == make.ETHERNET and packet.fcs_len == 4 and len(packet.data) >= packet.original:
        return Walker(packet.data, ETHERNET2, has_fcs=True)
    if packet.link in (make.ETHERNET, make.LINUX_SLL):
        return Walker(without_fcs(packet), ETHERNET2 if packet.link == make.ETHERNET else LINUX_SLL)
    return None


def headers_len(packet):
    """How many captured bytes the headers of a packet take."""
    walk, frame = frame_walk(packet), without_fcs(packet)
    if walk:
        return reach(walk)
    if packet.link != make.LINUX_SLL2 or len(frame) < 20 or frame[10] > 7:
        return 0
    protocol, hardware = int.from_bytes(frame[:2], "big"), int.from_bytes(frame[8:10], "big")
    return 20 if hardware in NO_ETHER_TYPE else 20 + reach(Walker(frame[20:], ether_type=protocol))


def is_simple(unit, order):
    return order is not None and unit[:4] in (b"\3\0\0\0", b"\0\0\0\3")


def cut(unit, packet, order):
    """The unit of a packet that is cut to its headers; None of a simple packet block. `order` is that of a pcapng section, or None."""
    end = headers_len(packet)
    if len(packet.data) <= end:
        return unit
    if order is None:
        length = end.to_bytes(4, "little" if unit[8:12] == len(packet.data).to_bytes(4, "little") else "big")
        return unit[:8] + length + unit[12:16 + end]
    if is_simple(unit, order):
        return None
    body = unit[8:20] + end.to_bytes(4, order) + unit[24:28] + make.padded(packet.data[:end]) + unit[28 + len(make.padded(packet.data)):-4]
    total = (12 + len(body)).to_bytes(4, order)
    return unit[:4] + total + body + total


def renumbered(old, new):
    """An edit: another identifier in the outermost VLAN tag that has the old one."""
    def edit(unit, packet, order):
        walk = frame_walk(packet)
        tags = [at for kind, at, *_ in (walk.units if walk else []) if kind == 3 and number(packet.data, at, 2) % 4096 == old]
        if not tags:
            return unit
        if is_simple(unit, order):
            return None
        at = tags[0] + (16 if order is None else 28)
        return unit[:at] + (number(unit, at, 2) // 4096 * 4096 + new).to_bytes(2, "big") + unit[at + 2:]
    return edit


def edited(capture, edit):
    """A capture whose packets are edited, up to a simple packet that can't be, and whether that is all of it."""
    units, order = [], None
    for unit, packet in capture.units:
        if unit[:4] == b"\n\r\r\n":
            order = "little" if unit[8:12] == b"M<+\x1a" else "big"
        units.append(unit if packet is None else edit(unit, packet, order))
        if units[-1] is None:
            return b"".join(units[:-1]), False
    return b"".join(units), True


def of_edits(program, folder):
    """The captures of `make.py`, cut to headers, and with other identifiers."""
    name, made = os.path.join(folder, "capture"), os.path.join(folder, "copy")
    for capture in make.captures():
        with open(name, "wb") as file:
            file.write(capture.data())
        for old, new in ((1, 4095), (7, 8), (8, 0), (291, 291)):
            wanted, is_whole = edited(capture, renumbered(old, new))
            done = subprocess.run([program, "--write", "--set-vlan", f"{old}:{new}", name], capture_output=True, check=False)
            yield f"{capture.name}, {new} for {old}", (done.stdout, done.returncode), (wanted, 0 if is_whole else 3)
        wanted, is_whole = edited(capture, cut)
        done = subprocess.run([program, "--write", "--cut-to-headers", name], capture_output=True, check=False)
        yield f"{capture.name}, headers", (done.stdout, done.returncode), (wanted, 0 if is_whole else 3)
        # cooked captures of the loopback device are refused, so that their headers are cut off
        if is_whole and not capture.name.startswith("classic_cut_") and not capture.name.endswith(("_cooked", "ng_padding")):
            with open(made, "wb") as file:
                file.write(done.stdout)
            yield f"{capture.name}, headers read by tshark", tshark(made, "frame", KEPT), (tshark(name, "frame", KEPT)[0], [])


def of_tcpdump(program, folder, expressions, packets):
    """Random captures, and what tcpdump writes of them."""
    draw = random.Random(6)
    for tagged in (False, True):
        name = os.path.join(folder, f"random_{tagged}")
        with open(name, "wb") as file:
            file.write(filters.capture(draw, packets, tagged))
        texts = [f"vlan {it}" for it in filters.IDS] if tagged else [filters.expression(draw, 3) for _ in range(expressions)]
        for text in texts:
            done = subprocess.run(["tcpdump", "-r", name, "-w", "-", text], capture_output=True, check=False)
            if b"expression rejects all packets" not in done.stderr:
                yield text, written(program, ["--select", text], name), done.stdout


def main():
    words = argparse.ArgumentParser(description=__doc__, formatter_class=argparse.RawDescriptionHelpFormatter)
    words.add_argument("program", metavar="PROGRAM")
    words.add_argument("expressions", metavar="EXPRESSIONS", nargs="?", type=int, default=40)
    words.add_argument("packets", metavar="PACKETS", nargs="?", type=int, default=20_000)
    given = words.parse_args()
    program, expressions, packets = os.path.realpath(given.program), given.expressions, given.packets
    missing = [it for it in ("tshark", "tcpdump") if not shutil.which(it)]
    if missing:
        print(f"left out: {' and '.join(missing)} not installed\n0 passed, 0 failed")
        return 0
    passed = failed = 0
    with tempfile.TemporaryDirectory() as folder:
        for tried in (of_made(program, folder), of_edits(program, folder), of_tcpdump(program, folder, expressions, packets)):
            for what, found, wanted in tried:
                passed += found == wanted
                if found != wanted:
                    failed += 1
                    print(f"{what}: {str(found)[:300]}, not {str(wanted)[:300]}")
    print(f"{passed} passed, {failed} failed")
    return 1 if failed else 0


if __name__ == "__main__":
    sys.exit(main())
