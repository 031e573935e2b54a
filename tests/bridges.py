"""Compares the example switch with Open vSwitch: the same drawn frames through both, and the frames that leave by each port.

    python3 tests/bridges.py SWITCH

SWITCH is the built program. Open vSwitch runs in user space, without a network (ovs-vswitchd, ovsdb-server, ovsdb-tool, ovs-vsctl).
Where it is not installed, nothing is compared. The last line is 'N passed, M failed'.
"""

import argparse
import collections
import json
import os
import random
import shutil
import socket
import struct
import subprocess
import sys
import tempfile
import time

from examples import captured
from programs import count

SCHEMA = "/usr/share/openvswitch/vswitch.ovsschema"
# Two access ports of VLAN 10, one of VLAN 20, and two trunks, whose untagged frames are in no VLAN.
WORDS = ["10", "10", "trunk", "20", "trunk"]
TRUNK = ["vlan_mode=trunk", "trunks=10,20,30,4095"]
PORTS = dict(enumerate([["tag=10"], ["tag=10"], TRUNK, ["tag=20"], TRUNK], 1))

STATIONS = [bytes([2, 0, 0, 0, 0, last]) for last in range(1, 7)]
GROUPS = [b"\xff" * 6, bytes.fromhex("01005e000001")]
# Frames of these come from it alone, and none goes to it, so that what is learned from them makes no difference to others.
STRANGER = bytes.fromhex("020000000077")
TRUNKS = 3, 5


class OpenVSwitch:
    """Open vSwitch with these ports, which keep what leaves by them."""

    def __init__(self, folder):
        self.folder = folder
        self.env = {**os.environ, **{name: folder for name in ("OVS_RUNDIR", "OVS_LOGDIR", "OVS_DBDIR", "OVS_SYSCONFDIR")}}
        self.run("ovsdb-tool", "create", f"{folder}/conf.db", SCHEMA)
        self.programs = [self.start("ovsdb-server", f"{folder}/conf.db", f"--remote=punix:{folder}/db.sock", f"--unixctl={folder}/db.ctl")]
        self.wait(f"{folder}/db.sock")
        self.configure("--no-wait", "init")
        self.programs.append(self.start("ovs-vswitchd", f"unix:{folder}/db.sock", "--enable-dummy", "--disable-system", f"--unixctl={folder}/ctl"))
        self.wait(f"{folder}/ctl")
        self.configure("add-br", "br0", "--", "set", "bridge", "br0", "datapath_type=dummy", "fail-mode=standalone")
        for number, options in PORTS.items():
            self.configure("add-port", "br0", f"p{number}", *options, "--", "set", "interface", f"p{number}", "type=dummy",
                           f"options:tx_pcap={folder}/{number}.pcap")

    def run(self, *words):
        subprocess.run(words, env=self.env, check=True, stdout=subprocess.DEVNULL, stderr=subprocess.DEVNULL)

    def start(self, *words):
        return subprocess.Popen([*words, "--log-file=/dev/null", "-vconsole:off"], env=self.env, stdout=subprocess.DEVNULL, stderr=subprocess.DEVNULL)

    def wait(self, path):
        """Waits for a socket."""
        for _ in range(100):
            if os.path.exists(path):
                return
            time.sleep(0.1)

    def configure(self, *words):
        self.run("ovs-vsctl", f"--db=unix:{self.folder}/db.sock", *words)

    def call(self, method, *words):
        """A call of ovs-appctl."""
        with socket.socket(socket.AF_UNIX) as stream:
            stream.connect(f"{self.folder}/ctl")
            stream.sendall(json.dumps({"method": method, "params": words, "id": 0}).encode())
            answer = b""
            while True:
                answer += stream.recv(65_536)
                try:
                    return json.loads(answer)
                except ValueError:
                    pass

    def sent(self, frames):
        """The frames that leave by each port."""
        for port, frame in frames:
            self.call("netdev-dummy/receive", f"p{port}", frame.hex())
            self.call("revalidator/purge")  # it decides anew on each frame, by what it has learned then
        return {number: read_capture(f"{self.folder}/{number}.pcap") for number in PORTS}

    def stop(self):
        for program in reversed(self.programs):
            program.terminate()
            program.wait()


def read_capture(path):
    """The packets of a capture, as hexadecimal digits."""
    with open(path, "rb") as file:
        data = file.read()
    at, found = 24, []
    while at < len(data):
        length = struct.unpack_from("<I", data, at + 8)[0]
        found.append(data[at + 16:at + 16 + length].hex())
        at += 16 + length
    return found


def by_number(sent):
    """What leaves of each frame, by the number at its end, and by port."""
    found = collections.defaultdict(dict)
    for port, frames in sent.items():
        for frame in frames:
            found[int(frame[-8:], 16)][port] = frame
    return found


def switched(switch, frames):
    """The frames that leave by each port of the example."""
    done = subprocess.run([switch, *WORDS], input=captured([1] * len(PORTS), [(port - 1, frame) for port, frame in frames]), capture_output=True, check=True)
    found = {number: [] for number in PORTS}
    for line in done.stdout.decode().splitlines():
        port, frame = line.split()
        found[int(port)].append(frame)
    return found


def frame_of(number, destination, source, tag=b""):
    return (destination + source + tag + b"\x08\x06").ljust(64, b"\0") + struct.pack(">I", number)


def plain_frames(numbers, total):
    """Drawn frames between stations: untagged, tagged, and with a priority alone."""
    frames = []
    for number in range(total):
        priority = numbers.randint(0, 7) << 13
        tags = [b"", b"", struct.pack(">HH", 0x8100, priority | numbers.choice([10, 20, 30])), struct.pack(">HH", 0x8100, priority)]
        tag = numbers.choice(tags)
        frames.append((numbers.randint(1, 5), frame_of(number, numbers.choice(STATIONS + GROUPS), numbers.choice(STATIONS), tag)))
    return frames


# What the two make of other frames, and the clause of IEEE 802.1Q: of a frame at a port, what the example sends, and whether Open vSwitch sends it.
def special_frames(first):
    tag = lambda tpid, tci: struct.pack(">HH", tpid, tci)
    rows = [
        ("drop eligible, which Open vSwitch clears (6.9, 9.6)", 3, GROUPS[0], STRANGER, tag(0x8100, 0x100A), {1: "", 2: "", 5: "8100100a"}, True),
        ("identifier 4095 (table 9-2)", 3, GROUPS[0], STRANGER, tag(0x8100, 0x0FFF), {}, True),
        ("a service tag at a trunk of a customer bridge (table 9-1)", 3, GROUPS[0], STRANGER, tag(0x88A8, 0x000A), {}, True),
        ("a service tag at an access port, as payload (table 9-1)", 1, GROUPS[0], STRANGER, tag(0x88A8, 0x000A),
         {2: "88a8000a", 3: "8100000a88a8000a", 5: "8100000a88a8000a"}, False),
        ("a second tag at a trunk, which the example refuses", 3, GROUPS[0], STRANGER, tag(0x8100, 0x000A) + tag(0x8100, 0x0014), {}, True),
        ("a second tag after a priority alone, too", 1, GROUPS[0], STRANGER, tag(0x8100, 0x0000) + tag(0x8100, 0x0014), {}, True),
        ("from a group (IEEE 802.3, 3.2.3)", 1, GROUPS[0], GROUPS[1], b"", {}, True),
        ("from no station", 1, GROUPS[0], bytes(6), b"", {}, True),
        ("to a reserved address (8.6.3)", 1, bytes.fromhex("0180c200000e"), STRANGER, b"", {}, False),
        ("a bridge protocol data unit (8.6.3)", 3, bytes.fromhex("0180c2000000"), STRANGER, tag(0x8100, 0x000A), {}, False),
    ]
    return [(name, (port, frame_of(first + at, destination, source, own)), wanted, is_sent)
            for at, (name, port, destination, source, own, wanted, is_sent) in enumerate(rows)]


def compared(switch, total):
    """What is compared: of the drawn frames what leaves by each port, and of each other frame what the example sends of it."""
    frames = plain_frames(random.Random(1), total)
    special = special_frames(total)
    frames += [frame for _, frame, _, _ in special]
    with tempfile.TemporaryDirectory() as folder:
        bridge = OpenVSwitch(folder)
        try:
            theirs = by_number(bridge.sent(frames))
        finally:
            bridge.stop()
    ours = by_number(switched(switch, frames))
    tried = [(f"frame {number} at port {port}: {frame.hex()}", ours[number], theirs[number])
             for number, (port, frame) in enumerate(frames[:total])]
    for at, (name, _, wanted, is_sent) in enumerate(special, total):
        tried.append((name, {port: it.partition("0806")[0][24:] for port, it in ours[at].items()}, wanted))
        tried.append((f"Open vSwitch: {name}", bool(theirs[at]), is_sent))
    return tried


def main():
    words = argparse.ArgumentParser(description=__doc__, formatter_class=argparse.RawDescriptionHelpFormatter)
    words.add_argument("switch", metavar="SWITCH")
    switch = os.path.realpath(words.parse_args().switch)
    missing = [name for name in ("ovs-vswitchd", "ovsdb-server", "ovsdb-tool", "ovs-vsctl") if not shutil.which(name)]
    if missing or not os.path.exists(SCHEMA):
        print(f"left out: the frames of another bridge, since Open vSwitch is not installed ({', '.join(missing)})")
        print("0 passed, 0 failed")
        return 0
    return count(compared(switch, 10_000))


if __name__ == "__main__":
    sys.exit(main())
