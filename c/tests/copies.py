"""Runs the examples of docs/C.md that name interfaces and copy captures: copies.py CC LIBRARY FOLDER. The last line is 'N passed, M failed'.

The copies have a tag of the VLAN 5 in each frame. They are compared with those that tests/capture_copies.py wants of `ether_capture --push-vlan`, which
are written by hand; and if that program is built, with its copies of the captures of captures/make.py. If tshark is installed, it reads copies in both
formats and byte orders, also one of two sections, with the same times, interfaces and comments as the captures. If tcpdump is installed, it reads each
copy if it reads the capture.
"""
import os
import shutil
import struct
import subprocess
import sys

from c_document import TOP, blocks, built, check, counts, runner, work

sys.path[:0] = [f"{TOP}/tests", f"{TOP}/captures"]
import make  # noqa: E402
from capture_copies import COPIES, PUSH  # noqa: E402

MAIN = """
int main(int argc, char **argv) {
    static uint8_t file[1 << 20], target[1 << 20];
    static etherpeel_interface interfaces[64];
    static etherpeel_reader reader;
    static etherpeel_captured packet;
    const size_t len = fread(file, 1, sizeof file, stdin);
    const int names = strcmp(argv[argc - 1], "names") == 0;
    size_t written = 0;
    for (size_t at = 0;;) {
        const size_t before = reader.interface_count;
        etherpeel_read_unit unit;
        uint32_t status = etherpeel_reader_read(&reader, interfaces, 64, file + at, len - at, &packet, &unit);
        if (status == ETHERPEEL_DONE && !names)
            status = copy_unit(&reader, interfaces, &unit, &packet, file + at, target, sizeof target, &written);
        if (status != ETHERPEEL_DONE)
            return at == len && reader.state != ETHERPEEL_READER_BEGINNING ? 0 : (int)status;
        if (names && reader.interface_count > before)
            print_interface(&reader, file + at, unit.len);
        fwrite(target, 1, written, stdout);
        at += unit.len;
    }
}
"""
UNCOPIED = 23
PROGRAMS = [f"{TOP}/crates/ether_capture/out/ether_capture", f"{TOP}/rust/ether_tools/target/release/ether_capture"]
MANY_INTERFACES = "ng_many_interfaces"  # this capture has more interfaces than the example keeps
# What tshark reads of each packet; the edit changes only the last three.
FIELDS = ["frame.interface_name", "frame.interface_description", "frame.comment", "frame.time_epoch", "eth.dst", "eth.src",
          "frame.cap_len", "frame.len", "vlan.id"]


def ran(path, capture, *words):
    """What the program writes, and its status."""
    done = subprocess.run([*runner, path, *words], input=capture, stdout=subprocess.PIPE)
    return done.stdout, done.returncode


def sections():
    """Two sections with named interfaces, one in each byte order, and what the example prints of them."""
    file = make.Pcapng("two sections").section("<", options=[(2, b"hardware")])
    file.interface(snap_len=96, others=[(1, b"first"), (2, b"eth0"), (3, b"a port")]).interface(snap_len=96, others=[(2, b"eth1"), (1, b"second")])
    file.packet(make.PLAIN, 1_700_000_000_000_001, interface=1, options=[(1, b"a comment")]).packet(make.VLAN_ONE, 1_700_000_000_000_002, flags=1)
    file.packet(make.ARP, 1_700_000_000_000_003, original=1500, obsolete=True)
    file.section(">").interface(snap_len=96, others=[(2, b"eth2")]).packet(make.ARP_IN_VLAN, 1_700_000_000_000_004, options=[(1, b"another")])
    return file.capture.data(), "first\neth0\neth1\nsecond\neth2\n"


def captures():
    """A name and the bytes of each capture that tshark reads."""
    frames = make.whole([make.PLAIN, make.VLAN_ONE, make.ARP]) + [(make.ARP[:20], 60)]
    for order in "<>":
        for nanoseconds in (False, True):
            yield f"classic{order}{nanoseconds:d}", make.classic("", order, frames, nanoseconds=nanoseconds).data()
    yield "sections", sections()[0]


def written_copies(path):
    """Compares copies with those of `ether_capture`; one that stops at a packet has the same units before it."""
    for it in COPIES:
        if it.words == [PUSH, "0x8100:5"]:
            wanted = it.copy, UNCOPIED if it.status else 0
            found = ran(path, it.capture)
            check(f"a copy: {it.name}", found == wanted, (found[0].hex(), found[1]))


def same_copies(path, program):
    """Compares copies with those that `ether_capture` writes."""
    for capture in make.captures():
        if capture.name != MANY_INTERFACES:
            wanted = subprocess.run([program, "--write", PUSH, "0x8100:5"], input=capture.data(), stdout=subprocess.PIPE, stderr=subprocess.DEVNULL)
            copy, status = ran(path, capture.data())
            check(f"a copy of {capture.name}", (copy, status == 0) == (wanted.stdout, wanted.returncode == 0), (copy.hex(), status))


def fields(path):
    """What tshark reads of each packet of a capture."""
    words = [word for it in FIELDS for word in ("-e", it)]
    done = subprocess.run(["tshark", "-n", "-r", path, "-T", "fields", *words], capture_output=True, text=True)
    return [line.split("\t") for line in done.stdout.splitlines()]


def tagged(row):
    """The fields of a packet, with four bytes and a tag more."""
    *same, captured, original, vlans = row
    return [*same, str(int(captured) + 4), str(int(original) + 4), ",".join(it for it in ("5", vlans) if it)]


def is_read_by_tcpdump(path):
    return subprocess.run(["tcpdump", "-n", "-r", path], stdout=subprocess.DEVNULL, stderr=subprocess.DEVNULL).returncode == 0


def read_copies(path):
    """Compares what other programs read of copies with what they read of the captures."""
    for name, capture in captures():
        paths = f"{work}/{name}", f"{work}/{name}_copy"
        copy, status = ran(path, capture)
        check(f"a copy of {name}", status == 0, status)
        for file_name, data in zip(paths, (capture, copy)):
            with open(file_name, "wb") as file:
                file.write(data)
        if shutil.which("tshark"):
            wanted = [tagged(row) for row in fields(paths[0])]
            found = fields(paths[1])
            check(f"{name}, read by tshark", len(wanted) == 4 and found == wanted, f"{found} and not {wanted}")
        if shutil.which("tcpdump"):
            check(f"{name}, read by tcpdump", is_read_by_tcpdump(paths[1]) or not is_read_by_tcpdump(paths[0]), "it is not read")


def main():
    os.makedirs(work)
    codes = [text for language, text in blocks() if language == "c" and ("copy_unit" in text or "print_interface" in text)]
    path = built("copy_unit", "".join(codes) + MAIN)
    if path:
        capture, wanted = sections()
        found = ran(path, capture, "names")
        check("the names of interfaces", found == (wanted.encode(), 0), found)
        written_copies(path)
        read_copies(path)
        program = next((it for it in PROGRAMS if os.access(it, os.X_OK)), None)
        if program:
            same_copies(path, program)
        else:
            print("left out: copies of captures, compared with those of ether_capture, since it was not built")
    for it in ("tshark", "tcpdump"):
        if not shutil.which(it):
            print(f"left out: copies of captures, read by {it}, since it was not found")
    print(f"{counts[True]} passed, {counts[False]} failed")


main()
