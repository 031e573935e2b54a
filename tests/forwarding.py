"""What c/examples/switch.c does with frames at ports of each kind, for `network.py`: what leaves, and what it counts."""

import signal
import socket
import time

# The ports: two trunks, one of them for one VLAN, an access port, and one with a VLAN of its own beside a tagged one.
PORTS = {1: "tagged=10", 2: "pvid=20:tagged=10", 3: "pvid=10", 4: "tagged=10,20"}
ALL, STATION, OTHER, STRANGER = "ffffffffffff", "020000000001", "020000000002", "020000000009"
BODY = "88b5" + "00" * 46
# The name of a frame, the port through which it comes in, the frame, what leaves through which port, and what is counted there (IEEE 802.1Q, 6.9, 8.6, 9.6).
ROWS = [
    ("a frame of a VLAN", 3, f"{ALL}{STATION}{BODY}", {1: "8100000a", 2: "8100000a", 4: "8100000a"}, ""),
    ("one with a priority and drop eligible", 1, f"{ALL}{STATION}8100d00a{BODY}", {2: "8100d00a", 3: "", 4: "8100d00a"}, ""),
    ("one with a priority alone", 2, f"{ALL}{STATION}81006000{BODY}", {4: "81006014"}, ""),
    ("of the VLAN without a tag", 2, f"{ALL}{STATION}{BODY}", {4: "81000014"}, ""),
    ("of a VLAN whose frames leave one port without a tag", 4, f"{ALL}{STATION}81000014{BODY}", {2: ""}, ""),
    ("of a VLAN that the port is not a member of", 1, f"{ALL}{STATION}81000014{BODY}", {}, "not a member"),
    ("a service tag, which is payload", 2, f"{ALL}{STATION}88a8000a{BODY}", {4: "8100001488a8000a"}, ""),
    ("a second tag, which is payload", 4, f"{ALL}{STATION}8100000a88a80014{BODY}", {1: "8100000a88a80014", 2: "8100000a88a80014", 3: "88a80014"}, ""),
    ("a second tag of the same kind", 4, f"{ALL}{STATION}8100000a81000014{BODY}", {}, "second tag"),
    ("a second tag at a port for untagged frames", 3, f"{ALL}{STATION}8100000081000014{BODY}", {}, "second tag"),
    ("without a tag at a port for tagged ones", 1, f"{ALL}{STATION}{BODY}", {}, "frame type"),
    ("with a tag at a port for untagged ones", 3, f"{ALL}{STATION}8100000a{BODY}", {}, "frame type"),
    ("the identifier 4095", 4, f"{ALL}{STATION}81000fff{BODY}", {}, "identifier 4095"),
    ("from a group", 3, f"{ALL}030000000001{BODY}", {}, "source"),
    ("to a reserved address", 3, f"0180c2000003{STATION}{BODY}", {}, "reserved address"),
]
BURST, FLOOD = 1_000, 5_000
LOST = "lost before they were read"


def total(counts, words="received"):
    return sum(it.get(words, 0) for it in counts.values())


class Bridge:
    """A switch with these ports, and the other end of each."""

    def __init__(self, network, switch, tools):
        self.network, self.tools, self.ends = network, tools, {}
        for port in PORTS:
            self.open(port)
        self.said = network.start("left", switch, [f"r{port}:{vlans}" for port, vlans in PORTS.items()])
        self.program = network.programs["left"]

    def open(self, port):
        """Links a port, and opens its other end."""
        self.network.link("left", f"r{port}", "right", f"e{port}")
        one = self.ends[port] = self.network.socket("right", f"e{port}")
        one.setsockopt(263, 8, 1)  # SOL_PACKET, PACKET_AUXDATA
        one.setsockopt(socket.SOL_SOCKET, 33, 8 << 20)  # SO_RCVBUFFORCE

    def numbers(self):
        """What the switch counts, by the number of a port."""
        self.program.send_signal(signal.SIGUSR1)
        found = self.tools.numbers(self.network, "left", len(PORTS))
        return {int(name[1:]): it for name, it in found.items()}

    def after(self, *frames):
        """What is counted once these frames, each with its port, are received, besides what was counted before."""
        before = self.numbers()
        for port, frame in frames:
            self.ends[port].send(frame)
        end = time.monotonic() + 5
        while total(self.numbers()) < total(before) + len(frames) and time.monotonic() < end:
            pass
        return self.since(before)

    def after_at_once(self, port, frames):
        """The same of frames of one port that come in while the switch stands still."""
        before = self.numbers()
        self.program.send_signal(signal.SIGSTOP)
        for frame in frames:
            self.ends[port].send(frame)
        self.program.send_signal(signal.SIGCONT)
        end = time.monotonic() + 5
        while time.monotonic() < end:
            counts = self.since(before)
            if sum(counts[port].get(words, 0) for words in ("received", LOST)) == len(frames):
                break
        return counts

    def since(self, before):
        """What is counted besides what was counted before."""
        return {port: {words: it[words] - before[port].get(words, 0) for words in it if it[words] != before[port].get(words, 0)}
                for port, it in self.numbers().items()}

    def left(self):
        """The frames that wait at the other ends, as hexadecimal digits."""
        return {port: found for port, one in self.ends.items() if (found := self.tools.tagged_frames(one))}


def rows(bridge):
    """Of each row what leaves by each port, and what is counted at the first."""
    for name, port, frame, sent, reason in ROWS:
        counts = bridge.after((port, bytes.fromhex(frame)))
        wanted = {"received": 1, **({f"discarded ({reason})": 1} if reason else {})}
        body = BODY if not reason else ""
        yield f"{name}: what is counted", counts, {**{it: {"sent": 1} if it in sent else {} for it in PORTS}, port: wanted}
        yield f"{name}: what leaves", bridge.left(), {it: [frame[:24] + tags + body] for it, tags in sent.items()}


def long_frames(bridge):
    """The longest frame that the interfaces take, and one that a port does not take, whose MTU is less."""
    frame = bytes.fromhex(ALL + STATION + "88b5").ljust(9514, b"\1")
    yield "the longest frame: what is counted", bridge.after((3, frame)), {3: {"received": 1}, **{port: {"sent": 1} for port in (1, 2, 4)}}
    yield "the longest frame: what leaves", {port: [len(it) // 2 for it in found] for port, found in bridge.left().items()}, {
        port: [9518] for port in (1, 2, 4)}
    bridge.network.do("left", "ip", "link", "set", "r1", "mtu", "1500")
    service = bytes.fromhex(ALL + STATION + "88a80014 88b5").ljust(1518, b"\1")
    counts = bridge.after((3, service))
    yield "a full frame with a service tag: what is counted", counts, {
        1: {"not sent (longer than the MTU)": 1}, 2: {"sent": 1}, 3: {"received": 1}, 4: {"sent": 1}}
    yield "a full frame with a service tag: what leaves", {port: [len(it) // 2 for it in found] for port, found in bridge.left().items()}, {
        port: [1522] for port in (2, 4)}
    counts = bridge.after_at_once(3, [service, bytes.fromhex(ALL + STATION + BODY)])
    yield "one frame is not sent, and the next one is", counts, {
        1: {"not sent (longer than the MTU)": 1, "sent": 1}, 2: {"sent": 2}, 3: {"received": 2}, 4: {"sent": 2}}
    bridge.left()
    bridge.network.do("left", "ip", "link", "set", "r1", "mtu", "9500")


def burst(bridge):
    """Frames that come in while the switch stands still, more than it takes at once: each leaves, in their order, in both forms."""
    before = bridge.numbers()
    bridge.program.send_signal(signal.SIGSTOP)
    frames = [bytes.fromhex(ALL + STATION + "8100000a 88b5").ljust(1500, b"\0") + number.to_bytes(4, "big") for number in range(BURST)]
    for frame in frames:
        bridge.ends[1].send(frame)
    bridge.program.send_signal(signal.SIGCONT)
    end = time.monotonic() + 5
    found = {2: [], 3: [], 4: []}
    while any(len(it) < BURST for it in found.values()) and time.monotonic() < end:
        for port, more in bridge.left().items():
            found[port] += more
    for port, they in found.items():
        yield f"frames of a burst that leave by port {port}", [int(it[-8:], 16) for it in they], list(range(BURST))
    yield "what is counted of a burst", bridge.since(before), {1: {"received": BURST}, **{port: {"sent": BURST} for port in found}}


def stations(bridge):
    """A frame to a station leaves by its port alone, also seconds after the station was seen."""
    frame = bytes.fromhex(f"{OTHER}{STATION}{BODY}")
    bridge.after((3, bytes.fromhex(f"{ALL}{OTHER}{BODY}")))
    bridge.left()
    for seconds in (0, 4):
        time.sleep(seconds)
        bridge.after((1, frame[:12] + bytes.fromhex("8100000a") + frame[12:]))
        yield f"to a station that was seen {seconds} seconds ago", bridge.left(), {3: [frame.hex()]}
    bridge.after((3, frame))
    yield "to a station at the same port", bridge.left(), {}


def sent_by_the_host(bridge):
    """A frame that another program sends by the interface of a port: it does not come in there."""
    own = bridge.network.socket("left", "r3")
    before = bridge.numbers()
    own.send(bytes.fromhex(f"{ALL}{STATION}{BODY}"))
    own.close()
    counts = bridge.after((1, bytes.fromhex(f"{ALL}{STATION}8100000a{BODY}")))
    yield "a frame of the host: what is received", total(bridge.numbers()) - total(before), 1
    yield "and then another frame", counts[1], {"received": 1}
    bridge.left()


def interface_down(bridge):
    """A port that goes down: frames do not leave by it, and its stations are forgotten. Then it is back, or made anew."""
    frame = bytes.fromhex(f"{OTHER}{STATION}{BODY}")
    bridge.after((1, bytes.fromhex(f"{ALL}{OTHER}8100000a{BODY}")), (4, bytes.fromhex(f"{ALL}{STRANGER}8100000a{BODY}")))
    bridge.left()
    bridge.after((3, frame))
    yield "to a station at a port that is up", sorted(bridge.left()), [1]
    bridge.network.do("left", "ip", "link", "set", "r1", "down")
    bridge.after((3, frame))
    yield "to a station at a port that went down", sorted(bridge.left()), [2, 4]
    bridge.after((3, bytes.fromhex(f"{STRANGER}{STATION}{BODY}")))
    yield "to a station at another port", sorted(bridge.left()), [4]
    counts = bridge.after((3, bytes.fromhex(f"{ALL}{STATION}{BODY}")))
    yield "a port that is down: what is counted", counts, {1: {}, 2: {"sent": 1}, 3: {"received": 1}, 4: {"sent": 1}}
    yield "a port that is down: what leaves", sorted(bridge.left()), [2, 4]
    bridge.network.do("left", "ip", "link", "set", "r1", "up")
    bridge.after((3, frame))
    yield "a port that is up again", sorted(bridge.left()), [1, 2, 4]
    bridge.network.do("left", "ip", "link", "delete", "r1")
    bridge.after((3, frame))
    yield "a port that was deleted", sorted(bridge.left()), [2, 4]
    bridge.open(1)
    bridge.after((3, frame))
    yield "a port that was made again", sorted(bridge.left()), [1, 2, 4]


def without_carrier(bridge):
    """A port whose link is down at the other end."""
    bridge.network.do("right", "ip", "link", "set", "e1", "down")
    counts = bridge.after((3, bytes.fromhex(f"{ALL}{STATION}{BODY}")))
    yield "a port without a carrier: what is counted", counts, {1: {}, 2: {"sent": 1}, 3: {"received": 1}, 4: {"sent": 1}}
    bridge.network.do("right", "ip", "link", "set", "e1", "up")
    bridge.left()


def flood(bridge):
    """More frames than the kernel keeps while the switch stands still: each is received, or counted as lost."""
    counts = bridge.after_at_once(3, [bytes.fromhex(ALL + STATION + "88b5").ljust(9514, b"\1")] * FLOOD)[3]
    yield "frames that the kernel dropped", (counts.get(LOST, 0) > 0, counts["received"] + counts.get(LOST, 0)), (True, FLOOD)
    bridge.left()


def forwarded(network, switch, tools):
    """What is tried; `tools` is the module `network`."""
    bridge = Bridge(network, switch, tools)
    yield "the switch with four ports starts", bridge.said, "switch: 4 ports\n"
    yield "each port hears all stations", [network.promiscuity("left", f"r{port}") for port in PORTS], [1] * len(PORTS)
    for part in (rows, long_frames, burst, flood, stations, sent_by_the_host, without_carrier, interface_down):
        yield from part(bridge)
    for port, one in bridge.ends.items():
        one.close()
    bridge.program.send_signal(signal.SIGINT)
    yield "the status after SIGINT", bridge.program.wait(5), 0
