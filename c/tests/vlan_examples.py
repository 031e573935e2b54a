"""Compares what the examples print that are about the VLANs of captures: vlan_examples.py VLANS FOLDER [DASK]

VLANS is c/examples/vlans.c, built; FOLDER has the package; DASK is a Python that has dask.distributed, for vlans_dask.py. The captures
are of Ethernet and of Linux cooked capture v1 and v2, as `tcpdump -i any` writes them, made by the definitions of their formats. If
they are installed, tshark reads each, and text2pcap makes one. The last line is 'N passed, M failed'.
"""
import collections
import os
import shutil
import struct
import subprocess
import sys
import tempfile

from checks import check, counts, words

EXAMPLES = os.path.join(os.path.dirname(os.path.dirname(os.path.abspath(__file__))), "examples")
vlans, folder, dask = words("VLANS", "FOLDER", "[DASK]")
ADDRESS = bytes.fromhex("020000000001")
# of each link type the identifiers of the VLAN tags of its packets, the outermost first
PACKETS = {1: [[291], [10, 100], [], [10], [1, 2, 3, 4]], 113: [[7], [], [7, 8]], 276: [[5], [5, 6], [], [4095]]}


# ---- captures, by the definitions of LINKTYPE_ETHERNET, LINKTYPE_LINUX_SLL and LINKTYPE_LINUX_SLL2

def tagged(ids):
    """The ether type of a packet with these tags, and what follows it."""
    types = [0x8100] * len(ids) + [0x0800]
    return types[0], b"".join(struct.pack(">HH", vid, after) for vid, after in zip(ids, types[1:])) + bytes.fromhex("45000014") + bytes(16)


def packet(link, ids):
    ether_type, payload = tagged(ids)
    if link == 1:
        return b"\xff" * 6 + ADDRESS + struct.pack(">H", ether_type) + payload
    if link == 113:
        return struct.pack(">HHH8sH", 4, 1, 6, ADDRESS, ether_type) + payload
    return struct.pack(">HHIHBB8s", ether_type, 0, 3, 1, 4, 6, ADDRESS) + payload


def classic(link):
    records = (packet(link, ids) for ids in PACKETS[link])
    return struct.pack("<IHHiIII", 0xA1B2C3D4, 2, 4, 0, 0, 262144, link) + b"".join(
        struct.pack("<IIII", 1700000000, 0, len(it), len(it)) + it for it in records)


def block(kind, body):
    body += bytes(-len(body) % 4)
    return struct.pack("<II", kind, len(body) + 12) + body + struct.pack("<I", len(body) + 12)


def pcapng():
    """All packets in one file, with an interface for each link type."""
    parts = [block(0x0A0D0D0A, struct.pack("<IHHq", 0x1A2B3C4D, 1, 0, -1))]
    parts += [block(1, struct.pack("<HHI", link, 0, 262144)) for link in PACKETS]
    for interface, link in enumerate(PACKETS):
        for it in (packet(link, ids) for ids in PACKETS[link]):
            parts.append(block(6, struct.pack("<IIIII", interface, 0, 0, len(it), len(it)) + it))
    return b"".join(parts)


# ---- what is printed

def ran(*words):
    """The status, the lines of the output and the text on standard error, without the lines in which dask warns."""
    done = subprocess.run(words, stdout=subprocess.PIPE, stderr=subprocess.PIPE, text=True, env={**os.environ, "PYTHONPATH": folder})
    told = [line for line in done.stderr.splitlines() if line.startswith(os.path.dirname(words[-1])) or line.startswith("usage")]
    return done.returncode, done.stdout.splitlines(), told


def by_outermost(packets):
    """The lines for packets with these identifiers."""
    found = collections.Counter(ids[0] for ids in packets if ids)
    return [f"VLAN {vid}: {count} packets" for vid, count in sorted(found.items())]


def all_of(path, packets):
    """The line for a file."""
    return " ".join([path, *map(str, sorted({vid for ids in packets for vid in ids}))])


def shown_by_tshark(path):
    told = subprocess.run(["tshark", "-r", path, "-T", "fields", "-e", "vlan.id"], stdout=subprocess.PIPE, stderr=subprocess.PIPE, text=True,
                          check=True)
    return [[int(vid) for vid in line.split(",") if vid] for line in told.stdout.splitlines()]


def made_by_text2pcap(path):
    """Packets of cooked capture v2 in a file that text2pcap makes; its link type is that of option -l."""
    lines = "".join("0 " + packet(276, ids).hex(" ") + "\n\n" for ids in PACKETS[276])
    subprocess.run(["text2pcap", "-l", "276", "-", path], input=lines.encode(), stderr=subprocess.PIPE, check=True)


def files(where):
    """Files with the identifiers of their packets, and how what is said of them begins if they can't be read to the end."""
    cut = classic(276)[:-3]
    start = len(cut) - len(packet(276, PACKETS[276][-1])) + 3 - 16
    contents = [(f"{link}.pcap", classic(link), PACKETS[link], None) for link in PACKETS]
    contents += [("all.pcapng", pcapng(), sum(PACKETS.values(), []), None), ("cut.pcap", cut, PACKETS[276][:-1], f"At byte {start}: "),
                 ("empty.pcap", b"", [], "At byte 0: "), ("none.pcap", None, [], "No such file or directory")]
    for name, content, packets, reason in contents:
        if content is not None:
            with open(f"{where}/{name}", "wb") as file:
                file.write(content)
        yield f"{where}/{name}", packets, reason
    if shutil.which("text2pcap"):
        made_by_text2pcap(f"{where}/text2pcap.pcapng")
        yield f"{where}/text2pcap.pcapng", PACKETS[276], None
    else:
        print("left out: a capture that text2pcap makes, since it was not found")


def compared(path, packets, reason):
    """The examples that read one capture, and tshark."""
    status = 1 if reason else 0
    in_c, in_python = ran(vlans, path), ran(sys.executable, f"{EXAMPLES}/vlans.py", path)
    check(f"vlans.c {path}", in_c[:2], (status, by_outermost(packets)))
    check(f"vlans.c and vlans.py {path}", in_python, in_c)
    check(f"{path}, standard error", [line.startswith(f"{path}: {reason}") for line in in_c[2]], [True] * status)
    if shutil.which("tshark") and not reason:
        check(f"{path}, tshark", shown_by_tshark(path), packets)
    return in_c[2]


def main():
    with tempfile.TemporaryDirectory() as where:
        them = list(files(where))
        told = [line for it in them for line in compared(*it)]
        check("a folder", [ran(vlans, where), ran(sys.executable, f"{EXAMPLES}/vlans.py", where)],
              [(1, [], [f"{where}: {reason}"]) for reason in ("not a file on disk", "Is a directory")])
        check("usage", [ran(vlans), ran(sys.executable, f"{EXAMPLES}/vlans.py")],
              [(2, [], ["usage: vlans f.pcap"]), (2, [], ["usage: vlans.py f.pcap"])])
        if dask:
            whole = [(path, packets) for path, packets, reason in them if not reason]
            for group, expected in ((them, (1, [all_of(*it[:2]) for it in them], told)),
                                    (whole, (0, [all_of(*it) for it in whole], []))):
                check("vlans_dask.py", ran(dask, f"{EXAMPLES}/vlans_dask.py", "-", *(it[0] for it in group)), expected)
    if not shutil.which("tshark"):
        print("left out: the VLANs of captures compared with tshark, since it was not found")
    if not dask:
        print("left out: vlans_dask.py, since no Python with dask.distributed was found")
    print(f"{counts[True]} passed, {counts[False]} failed")


main()
