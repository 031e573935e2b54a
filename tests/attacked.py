"""What c/examples/switch.c does under attack and over links, for `network.py`: frames that hop, flood, storm, age; TCP with offloads."""

import os
import shutil
import signal
import subprocess
import sys
import tempfile
import time

ALL, BODY = b"\xff" * 6, b"\x88\xb5" + bytes(46)
STATION, OTHER, STRANGER = (bytes([2, 0, 0, 0, 0, last]) for last in (1, 2, 9))
SOURCES = 20_000
BYTES = 100_000_000
SERVE = """import socket
server = socket.create_server(("10.0.9.2", 5001))
print("ready", flush=True)
peer, got = server.accept()[0], 0
while more := len(peer.recv(1 << 20)):
    got += more
print(got, flush=True)
"""
SEND = f"import socket; it = socket.create_connection(('10.0.9.2', 5001), 5); it.sendall(bytes({BYTES})); it.close()"


def tag(vid):
    return b"\x81\x00" + vid.to_bytes(2, "big")


def source(number):
    return b"\x02\x01" + number.to_bytes(4, "big")


class Switches:
    """Switches whose ports end at sockets or at one another."""

    def __init__(self, network, switch, tools):
        self.network, self.switch, self.tools, self.ends, self.open = network, switch, tools, {}, []

    def start(self, space, words, ends, options=()):
        """A switch with these ports, of which some have their other end here."""
        for name in ends:
            self.network.link(space, name, "h2", f"x{name}")
            self.ends[name] = one = self.network.socket("h2", f"x{name}")
            one.setsockopt(263, 8, 1)  # SOL_PACKET, PACKET_AUXDATA
            one.setsockopt(1, 33, 64 << 20)  # SO_RCVBUFFORCE
        said = self.network.start(space, self.switch, [*options, *words])
        self.open.append(self.network.programs[space])
        return said

    def counts(self, space, ports):
        self.network.programs[space].send_signal(signal.SIGUSR1)
        return self.tools.numbers(self.network, space, ports)

    def settled(self, space, ports, total):
        """Waits until a switch has received so many frames in all; what it counts then."""
        end = time.monotonic() + 20
        while True:
            counts = self.counts(space, ports)
            if sum(it["received"] for it in counts.values()) >= total or time.monotonic() > end:
                return counts

    def left(self):
        time.sleep(0.05)
        return {name: found for name, one in self.ends.items() if (found := self.tools.tagged_frames(one))}

    def stop(self):
        for program in self.open:
            program.send_signal(signal.SIGTERM)
            program.wait(5)
        for name, one in self.ends.items():
            one.close()
            self.network.do("h2", "ip", "link", "delete", f"x{name}")


def hopping(switches):
    """VLAN 5 is sent without a tag over a trunk. A frame with two tags comes in by an access port of VLAN 5."""
    network = switches.network
    network.link("left", "native", "right", "native")
    switches.start("left", ["a5:pvid=5", "native:pvid=5:tagged=6"], ["a5"])
    switches.start("right", ["b5:pvid=5", "b6:pvid=6", "native:pvid=5:tagged=6"], ["b5", "b6"])
    at_link = network.socket("left", "native")
    for first in (0, 5):
        switches.ends["a5"].send(ALL + STATION + tag(first) + tag(6) + BODY)
    switches.ends["a5"].send(ALL + STATION + BODY)
    counts = switches.settled("left", 2, 3)
    yield "hopping: what leaves behind the link", switches.left(), {"b5": [(ALL + STATION + BODY).hex()]}
    refused = {words: number for words, number in counts["a5"].items() if words.startswith("discarded")}
    yield "hopping: what is counted", refused, {"discarded (second tag)": 1, "discarded (frame type)": 1}
    at_link.close()


def flooding(switches):
    """Many sources in one VLAN, and from one port: the stations of other VLANs and of other ports are still known."""
    switches.start("left", ["c1:tagged=5,6", "c2:tagged=5,6", "c3:pvid=5"], ["c1", "c2", "c3"])
    ends, sent = switches.ends, 0

    def send(name, frame):
        nonlocal sent
        ends[name].send(frame)
        sent += 1
        if sent % 500 == 0:
            switches.settled("left", 3, sent)
            switches.left()

    send("c3", ALL + STATION + BODY)
    send("c2", ALL + OTHER + tag(5) + BODY)
    for vid in (6, 5):
        for number in range(SOURCES):
            send("c1", ALL + source(number) + tag(vid) + BODY)
    switches.settled("left", 3, sent)
    switches.left()
    send("c2", STATION + OTHER + tag(5) + BODY)
    send("c3", OTHER + STATION + BODY)
    counts = switches.settled("left", 3, sent)
    yield f"{SOURCES} sources in another VLAN and {SOURCES} at another port", switches.left(), {
        "c2": [(OTHER + STATION + tag(5) + BODY).hex()], "c3": [(STATION + OTHER + BODY).hex()]}
    yield "frames that were lost", {words for it in counts.values() for words in it}, {"received", "sent"}


def ageing(switches):
    """With an ageing time of a second, a storm limit and isolated ports."""
    words = ["d1:pvid=5:isolated", "d2:pvid=5:isolated", "d3:pvid=5"]
    switches.start("left", words, ["d1", "d2", "d3"], ["--ageing", "1", "--storm", "10"])
    ends = switches.ends
    ends["d3"].send(ALL + STATION + BODY)
    switches.settled("left", 3, 1)
    yield "a frame from a port that is not isolated", sorted(switches.left()), ["d1", "d2"]
    ends["d1"].send(STATION + OTHER + BODY)
    switches.settled("left", 3, 2)
    yield "to a station that was just seen", sorted(switches.left()), ["d3"]
    time.sleep(3)
    ends["d3"].send(OTHER + STRANGER + BODY)
    switches.settled("left", 3, 3)
    ends["d1"].send(STATION + OTHER + BODY)
    switches.settled("left", 3, 4)
    yield "to a station that has aged, from an isolated port", {name: len(it) for name, it in switches.left().items()}, {"d1": 1, "d2": 1, "d3": 1}
    time.sleep(1.2 - time.monotonic() % 1)  # a new second begins
    for _ in range(50):
        ends["d3"].send(ALL + STATION + BODY)
    counts = switches.settled("left", 3, 54)
    yield "a storm", (counts["d3"].get("discarded (storm)"), len(switches.left()["d1"])), (40, 10)
    for _ in range(50):
        ends["d2"].send(STATION + OTHER + BODY)
    counts = switches.settled("left", 3, 104)
    yield "frames to one station are no storm", (counts["d2"].get("discarded (storm)"), len(switches.left()["d3"])), (None, 50)


def keys(switches):
    """With as many VLANs as there may be, each has room for 64 stations, in buckets by a key that is drawn: of 64 some push others out, and
    in two runs not the same."""
    words = [f"{name}:tagged={','.join(map(str, range(1, 4095)))}" for name in ("f1", "f2", "f3")]
    forgotten = []
    for _ in range(2):
        switches.start("left", words, ["f1", "f2", "f3"])
        for number in range(64):
            switches.ends["f1"].send(ALL + source(number) + tag(5) + BODY)
        switches.settled("left", 3, 64)
        switches.left()
        for number in range(64):
            switches.ends["f2"].send(source(number) + STATION + tag(5) + BODY)
        switches.settled("left", 3, 128)
        forgotten.append(switches.left().get("f3", []))
        switches.stop()
        switches.open, switches.ends = [], {}
    yield "stations that were pushed out", [0 < len(it) < 64 for it in forgotten], [True, True]
    yield "the same ones in another run", forgotten[0] == forgotten[1], False


def tcp(switches, with_ovs):
    """100 MB by TCP between hosts whose offloads are as they were, over two switches, and a trunk or Open vSwitch between them."""
    network = switches.network
    network.link("h1", "host", "left", "g1")
    network.link("h3", "host", "right", "g2")
    for space, number in (("h1", 1), ("h3", 2)):
        network.do(space, "ip", "address", "add", f"10.0.9.{number}/24", "dev", "host")
        network.do(space, "ip", "link", "set", "host", "mtu", "1500")
    with tempfile.TemporaryDirectory() as folder:
        if with_ovs:
            network.link("left", "wire1", "h4", "o1")
            network.link("h4", "o2", "right", "wire2")
            for name in ("o1", "o2"):
                network.do("h4", "ip", "link", "set", name, "mtu", "1500")  # this tells Open vSwitch what is segmented
            ovs = OpenVSwitch(network, folder)
        else:
            network.link("left", "wire1", "right", "wire2")
        switches.start("left", ["g1:pvid=5", "wire1:tagged=5,6"], [])
        switches.start("right", ["g2:pvid=5", "wire2:tagged=5,6"], [])
        yield f"bytes of TCP over {'Open vSwitch' if with_ovs else 'a trunk'}", transferred(network), BYTES
        if with_ovs:
            ovs.stop()
    for space, name in (("h1", "host"), ("h3", "host"), ("left", "wire1"), ("right", "wire2")):
        network.do(space, "ip", "link", "delete", name)


def transferred(network):
    within = lambda space, code: ["ip", "netns", "exec", network.name(space), sys.executable, "-c", code]
    with subprocess.Popen(within("h3", SERVE), stdout=subprocess.PIPE, text=True) as server:
        server.stdout.readline()
        try:
            subprocess.run(within("h1", SEND), timeout=60, check=True, capture_output=True)
            return int(server.stdout.readline())
        except (subprocess.SubprocessError, ValueError):
            server.kill()
            return 0


class OpenVSwitch:
    """Open vSwitch in user space, in the namespace h4, which joins two trunks."""

    def __init__(self, network, folder):
        self.network, self.folder = network, folder
        self.env = {**os.environ, **{name: folder for name in ("OVS_RUNDIR", "OVS_LOGDIR", "OVS_DBDIR", "OVS_SYSCONFDIR")}}
        self.run("ovsdb-tool", "create", f"{folder}/conf.db", "/usr/share/openvswitch/vswitch.ovsschema")
        self.programs = [self.start("ovsdb-server", f"{folder}/conf.db", f"--remote=punix:{folder}/db.sock", f"--unixctl={folder}/db.ctl")]
        self.wait(f"{folder}/db.sock")
        self.configure("--no-wait", "init", "--", "set", "Open_vSwitch", ".", "other_config:userspace-tso-enable=true")
        self.programs.append(self.start("ovs-vswitchd", f"unix:{folder}/db.sock", f"--unixctl={folder}/ctl"))
        self.wait(f"{folder}/ctl")
        self.configure("add-br", "br0", "--", "set", "bridge", "br0", "datapath_type=netdev", "fail-mode=standalone")
        for name in ("o1", "o2"):
            self.configure("add-port", "br0", name, "vlan_mode=trunk", "trunks=5,6")

    def run(self, *words):
        subprocess.run(words, env=self.env, check=True, stdout=subprocess.DEVNULL, stderr=subprocess.DEVNULL)

    def start(self, *words):
        command = ["ip", "netns", "exec", self.network.name("h4"), *words, "--log-file=/dev/null", "-vconsole:off"]
        return subprocess.Popen(command, env=self.env, stdout=subprocess.DEVNULL, stderr=subprocess.DEVNULL)

    def wait(self, path):
        for _ in range(100):
            if os.path.exists(path):
                return
            time.sleep(0.1)

    def configure(self, *words):
        self.run("ovs-vsctl", "--timeout=20", f"--db=unix:{self.folder}/db.sock", *words)

    def stop(self):
        for program in reversed(self.programs):
            program.terminate()
            program.wait()


def attacked(network, switch, tools):
    """What is tried; `tools` is the module `network`."""
    parts = [hopping, flooding, ageing, keys, lambda it: tcp(it, False)]
    if shutil.which("ovs-vswitchd"):
        parts.append(lambda it: tcp(it, True))
    for part in parts:
        switches = Switches(network, switch, tools)
        try:
            yield from part(switches)
        finally:
            switches.stop()
