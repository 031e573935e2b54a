"""Runs the switch c/examples/switch.c on real interfaces: hosts in network namespaces, in two VLANs, and a trunk between two switches. Then
tries frames at ports of each kind (`forwarding.py`), attacks (`attacked.py`), and compares it with the example switch, which reads captures: the same drawn frames
leave by the same ports, with the same bytes.

    python3 tests/network.py LIBRARY EXAMPLE

LIBRARY is the static library, EXAMPLE the built program. Needs root, a C compiler with headers, ip (iproute2) and ping; where one is missing,
or no namespaces can be made, nothing is run. The last line is 'N passed, M failed'.

    h1 (VLAN 5) --- left (switch) === trunk === right (switch) --- h3 (VLAN 5)
    h2 (VLAN 6) ---                                            --- h4 (VLAN 5), to which the station of h1 moves
"""

import argparse
import ctypes
import os
import random
import re
import shutil
import signal
import socket
import struct
import subprocess
import sys
import tempfile
import threading
import time

from attacked import attacked
from bridges import by_number, plain_frames, switched
from forwarding import forwarded
from programs import count
from switch import built

SPACES = ["h1", "h2", "h3", "h4", "left", "right"]
# Each link: two namespaces, and the interface in each.
LINKS = [("h1", "eth", "left", "p1"), ("h2", "eth", "left", "p2"), ("h3", "eth", "right", "p3"), ("h4", "eth", "right", "p4"),
         ("left", "trunk", "right", "trunk")]
WORDS = {"left": ["p1:pvid=5", "p2:pvid=6", "trunk:tagged=5,6"], "right": ["p3:pvid=5", "p4:pvid=5", "trunk:tagged=5,6"]}
# The last digit of a host's addresses. h4 is the station of h1, at another port.
DIGITS = {"h1": 1, "h2": 2, "h3": 3, "h4": 1}
# The ports of the example switch, each with a link to one namespace.
COMPARED = {1: "pvid=10", 2: "pvid=10", 3: "tagged=10,20,30", 4: "pvid=20", 5: "tagged=10,20,30"}
FRAMES = 300
EVERYBODY, RESERVED = b"\xff" * 6, bytes.fromhex("0180c2000000")
TYPE = b"\x88\xb5"  # for experiments (IEEE 802)


def run(*words):
    return subprocess.run(words, stdout=subprocess.DEVNULL, stderr=subprocess.DEVNULL, check=False).returncode == 0


def mac(host):
    return bytes([2, 0, 0, 0, 0, DIGITS[host]])


class Network:
    """The namespaces, by names that no other run has."""

    def __init__(self):
        self.mark = f"switch{os.getpid()}"
        self.programs = {}

    def name(self, space):
        return f"{self.mark}{space}"

    def do(self, space, *words):
        """Runs a command in a namespace; whether it succeeds."""
        return run("ip", "netns", "exec", self.name(space), *words)

    def make(self):
        """Whether all namespaces and links are there then."""
        if not all(run("ip", "netns", "add", self.name(space)) for space in SPACES):
            return False
        done = True
        for one, first, other, second in LINKS:
            done &= run("ip", "link", "add", first, "netns", self.name(one), "type", "veth", "peer", "name", second, "netns", self.name(other))
            for space, link in ((one, first), (other, second)):
                done &= self.do(space, "ip", "link", "set", link, "addrgenmode", "none")
                done &= self.do(space, "ip", "link", "set", link, "up") or space == "h4"
        for host, digit in DIGITS.items():
            done &= self.do(host, "ip", "link", "set", "eth", "address", mac(host).hex(":"))
            done &= self.do(host, "ip", "address", "add", f"10.0.0.{digit}/24", "dev", "eth")
        return done and self.do("h4", "ip", "link", "set", "eth", "down")

    def remove(self):
        for program in self.programs.values():
            program.kill()
            program.wait()
        for space in SPACES:
            run("ip", "netns", "delete", self.name(space))

    def start(self, space, switch, ports):
        """Starts a switch, and waits until it has its sockets."""
        words = ["ip", "netns", "exec", self.name(space), switch, *ports]
        if space in self.programs:
            self.programs[space].kill()
            self.programs[space].wait()
        self.programs[space] = subprocess.Popen(words, stdout=subprocess.PIPE, text=True)
        return self.programs[space].stdout.readline()

    def said(self, space, switch, ports):
        """What a switch says on standard error until it has its sockets."""
        words = ["ip", "netns", "exec", self.name(space), switch, *ports]
        with subprocess.Popen(words, stdout=subprocess.PIPE, stderr=subprocess.PIPE, text=True) as program:
            program.stdout.readline()
            program.terminate()
            return program.communicate()[1]

    def link(self, one, first, other, second):
        """Links two namespaces by interfaces that send nothing of their own, with room for long frames."""
        run("ip", "link", "add", first, "netns", self.name(one), "type", "veth", "peer", "name", second, "netns", self.name(other))
        for space, name in ((one, first), (other, second)):
            self.do(space, "ip", "link", "set", name, "addrgenmode", "none", "mtu", "9500", "up")

    def promiscuity(self, space, link):
        """How many ask an interface for the frames of all stations."""
        words = ["ip", "netns", "exec", self.name(space), "ip", "-d", "link", "show", link]
        return int(re.search(r"promiscuity (\d+)", subprocess.run(words, stdout=subprocess.PIPE, text=True, check=True).stdout)[1])

    def ping(self, host, other):
        return self.do(host, "ping", "-c", "1", "-W", "1", f"10.0.0.{DIGITS[other]}")

    def socket(self, space, link):
        """A socket for the frames of an interface, opened by a thread that enters its namespace."""
        opened = []

        def enter():
            with open(f"/run/netns/{self.name(space)}", encoding="ascii") as file:
                if ctypes.CDLL(None, use_errno=True).setns(file.fileno(), 0) == 0:
                    one = socket.socket(socket.AF_PACKET, socket.SOCK_RAW, socket.htons(3))
                    one.bind((link, 3))
                    opened.append(one)

        thread = threading.Thread(target=enter)
        thread.start()
        thread.join()
        return opened[0]


def frames_at(one, last=None):
    """The frames that wait at a socket and did not leave by it; waits for one that ends in the bytes `last`."""
    one.settimeout(1 if last else 0)
    found, end = [], time.monotonic() + 1
    while time.monotonic() < end:
        try:
            frame, (_, _, kind, *_) = one.recvfrom(65_536)
        except OSError:
            break
        if kind != socket.PACKET_OUTGOING:
            found.append(frame)
        if last and frame.endswith(last):
            break
    return found


def frame(destination, source, text):
    return (destination + source + TYPE).ljust(60, b"\0") + text


def numbers(network, space, ports=3):
    """What a switch prints when it is asked, by port."""
    program = network.programs[space]
    found = {}
    while len(found) < ports:
        name, _, rest = program.stdout.readline().strip().partition(": ")
        found[name] = {words.rpartition(" ")[0]: int(words.rpartition(" ")[2]) for words in rest.split(", ")}
    return found


def tried_in(network, switch):
    """What is tried in a network whose switches run, and what is wanted of it."""
    apart, at_trunk = network.socket("h2", "eth"), network.socket("left", "trunk")
    yield "ping in VLAN 5, over the trunk", network.ping("h1", "h3"), True
    yield "ping back", network.ping("h3", "h1"), True
    yield "ping from VLAN 5 to VLAN 6", network.ping("h1", "h2"), False
    yield "ping from VLAN 6 to VLAN 5, over the trunk", network.ping("h2", "h3"), False

    sender, receiver = network.socket("h1", "eth"), network.socket("h3", "eth")
    sender.send(frame(RESERVED, mac("h1"), b"stays"))
    sender.send(frame(EVERYBODY, mac("h1"), b"marks"))
    yield "a reserved address, and then a group", [it[60:] for it in frames_at(receiver, b"marks") if it[12:14] == TYPE], [b"marks"]
    sender.send((EVERYBODY + mac("h1") + bytes.fromhex("81000006") + TYPE).ljust(60, b"\0") + b"hop")
    yield "a tag of VLAN 6 at a port of VLAN 5", [it for it in frames_at(apart) if it.endswith(b"hop")], []

    frames_at(at_trunk)
    moved = network.do("h1", "ip", "link", "set", "eth", "down") and network.do("h4", "ip", "link", "set", "eth", "up")
    yield "the station of h1 goes to h4", moved and network.ping("h4", "h3"), True
    frames_at(at_trunk)
    arrived = network.socket("h4", "eth")
    receiver.send(frame(mac("h4"), mac("h3"), b"follows"))
    yield "a frame to it leaves by the port to which it went", [it[60:] for it in frames_at(arrived, b"follows") if it[12:14] == TYPE], [b"follows"]
    yield "and not by the trunk", [it for it in frames_at(at_trunk) if it.startswith(mac("h1"))], []
    yield "frames of VLAN 5 in VLAN 6", [it for it in frames_at(apart) if it[6:12] in (mac("h1"), mac("h3"))], []

    network.programs["left"].send_signal(signal.SIGUSR1)
    asked = numbers(network, "left")
    reasons = {words: number for words, number in asked["p1"].items() if words.startswith("discarded")}
    yield "numbers when they are asked for", reasons, {"discarded (reserved address)": 1, "discarded (frame type)": 1}
    network.programs["right"].stdout.close()
    network.programs["right"].send_signal(signal.SIGUSR1)
    yield "frames go on when nobody reads the numbers", network.ping("h4", "h3"), True
    network.programs["left"].send_signal(signal.SIGTERM)
    yield "numbers at the end", numbers(network, "left")["p1"]["received"] >= asked["p1"]["received"], True
    yield "the status at the end", network.programs["left"].wait(5), 0
    yield "an interface with an address", network.said("h1", switch, ["eth:pvid=5"]), "switch: eth: has an address, so the host answers there\n"


def tagged_frames(one):
    """The frames that wait at a socket, with the tags that the kernel took off (packet(7), PACKET_AUXDATA)."""
    one.settimeout(0)
    found = []
    while True:
        try:
            frame, parts, _, (_, _, kind, *_) = one.recvmsg(65_536, 64)
        except OSError:
            return found
        status, _, _, _, _, tci, tpid = struct.unpack("=IIIHHHH", parts[0][2][:20])
        if kind != socket.PACKET_OUTGOING:
            found.append((frame[:12] + struct.pack(">HH", tpid, tci) * (status >> 4 & 1) + frame[12:]).hex())


def sent_by_ports(network, frames):
    """The frames that leave by each port of a switch, each sent when the one before has been passed on."""
    program, found = network.programs["left"], {port: [] for port in COMPARED}
    ends = {port: network.socket("right", f"h{port}") for port in COMPARED}
    for one in ends.values():
        one.setsockopt(263, 8, 1)  # SOL_PACKET, PACKET_AUXDATA
    for total, (port, it) in enumerate(frames, 1):
        ends[port].send(it)
        received = 0
        while received < total:
            program.send_signal(signal.SIGUSR1)
            received = sum(it["received"] for it in numbers(network, "left", len(COMPARED)).values())
        for port, one in ends.items():
            found[port] += tagged_frames(one)
    time.sleep(0.2)
    for port, one in ends.items():
        found[port] += tagged_frames(one)
    return found


def compared(network, switch, example):
    """For each of the drawn frames what leaves by each port of the switch, and of the example."""
    for port in COMPARED:
        network.link("left", f"q{port}", "right", f"h{port}")
    said = network.start("left", switch, [f"q{port}:{vlans}" for port, vlans in COMPARED.items()])
    yield "the switch with five ports starts", said, "switch: 5 ports\n"
    frames = plain_frames(random.Random(2), FRAMES)
    ours, theirs = by_number(sent_by_ports(network, frames)), by_number(switched(example, frames))
    for number, (port, it) in enumerate(frames):
        yield f"frame {number} at port {port}: {it.hex()}", ours[number], theirs[number]


def left_out(why):
    print(f"left out: the switch on real interfaces, since {why}")
    print("0 passed, 0 failed")
    return 0


def main():
    words = argparse.ArgumentParser(description=__doc__, formatter_class=argparse.RawDescriptionHelpFormatter)
    words.add_argument("library", metavar="LIBRARY")
    words.add_argument("example", metavar="EXAMPLE")
    given = words.parse_args()
    missing = [name for name in ("ip", "ping", os.environ.get("CC", "gcc")) if not shutil.which(name)]
    if missing:
        return left_out(f"{', '.join(missing)} was not found")
    network = Network()
    try:
        if not network.make():
            return left_out("no network namespaces can be made, which takes root")
        with tempfile.TemporaryDirectory() as folder:
            switch = built(os.path.realpath(given.library), folder)
            if not switch:
                return count([("the switch is built", False, True)])
            started = [(f"the switch {space} starts", network.start(space, switch, WORDS[space]), "switch: 3 ports\n") for space in WORDS]
            tried = [*started, *tried_in(network, switch)]
            tried += forwarded(network, switch, sys.modules[__name__])
            tried += attacked(network, switch, sys.modules[__name__])
            return count([*tried, *compared(network, switch, os.path.realpath(given.example))])
    finally:
        network.remove()


if __name__ == "__main__":
    sys.exit(main())
