"""The bridge of the package: where frames go by IEEE 802.1Q, what leaves, what is learned, and settings that are
refused."""
import copy
import pickle
import threading

import etherpeel
from checks import check, raised
from etherpeel import Bridge, BridgeKind, Discarded, FrameTypes, Port

ONE, TWO, ALL = "02:00:00:00:00:01", "02:00:00:00:00:02", "ff:ff:ff:ff:ff:ff"
REST = bytes.fromhex("0800 4500")


def frame(destination, source, *tags, rest=REST):
    """A frame with tags, each of its ether type, priority, drop eligible indicator and VLAN identifier (IEEE 802.1Q,
    9.5 and 9.6)."""
    told = b"".join(tpid.to_bytes(2, "big") + (pcp << 13 | dei << 12 | vid).to_bytes(2, "big") for tpid, pcp, dei, vid in tags)
    return bytes.fromhex((destination + source).replace(":", "")) + told + rest


def tag(vid, pcp=0, dei=0):
    return 0x8100, pcp, dei, vid


def small(**words):
    """Ports 0 and 1 in VLAN 5 without tags, 2 with tags in VLANs 5 and 6, 3 in VLAN 6 without."""
    bridge = Bridge(**words)
    for port, settings in enumerate(({"pvid": 5}, {"pvid": 5}, {"tagged": [5, 6]}, {"pvid": 6})):
        bridge.set_port(port, **settings)
    return bridge


def ports(bridge, now, port, content):
    received = bridge.receive(now, port, content)
    return sorted(received.tagged), sorted(received.untagged)


def learning():
    bridge, station = small(), frame(ONE, TWO)
    check("to all", ports(bridge, 0, 0, frame(ALL, ONE)), ([2], [1]))
    check("to one", ports(bridge, 0, 1, station), ([], [0]))
    check("in its own VLAN", ports(bridge, 0, 2, frame(ONE, TWO, tag(6))), ([], [3]))
    check("through a tag", ports(bridge, 0, 2, frame(ONE, TWO, tag(5))), ([], [0]))
    check("to its own port", ports(bridge, 0, 0, frame(ONE, ONE)), ([], []))
    check("found", [bridge.find(vid, it) for vid in (5, 6, 7) for it in (ONE, bytes.fromhex("020000000002"))],
          [(0, 0), (2, 0), None, (2, 0), None, None])
    check("until it has aged", [ports(bridge, now, 1, station) for now in (300, 301)], [([], [0]), ([2], [0])])
    check("aged, but there", bridge.find(5, ONE), (0, 0))
    for now in (0, 1, 2**32 - 1):
        late = small()
        late.receive(now, 0, frame(ALL, ONE))
        check(f"at {now}", late.find(5, ONE), (0, now))
    for age in (0, 1, 2**32 - 1):
        late = small(ageing_time=age)
        late.receive(0, 0, frame(ALL, ONE))
        check(f"an age of {age}", [ports(late, min(now, 2**32 - 1), 1, station) for now in (age, age + 1)],
              [([], [0]), ([2], [0]) if age < 2**32 - 1 else ([], [0])])
    check("a clock with decimals", (small().receive(0.9, 0, frame(ALL, ONE)).vid, bridge.receive(1e9 + 0.5, 0, frame(ALL, ONE)).vid), (5, 5))


def leaving():
    bridge, plain = small(), frame(ALL, ONE)
    received = bridge.receive(0, 0, plain)
    check("received", received, ({2}, {1}, 5, 0, False, False, None))
    for call in (bridge.leaving, bridge.tagged, bridge.untagged):
        check(f"{call.__name__} of no frame that was received", raised(call, [], plain), TypeError)
    check("leaving", bridge.leaving(received, plain), {1: plain, 2: frame(ALL, ONE, tag(5))})
    for pcp, dei, vid in ((0, 0, 5), (1, 0, 5), (7, 1, 5), (3, 0, 6)):
        came = frame(ALL, ONE, tag(vid, pcp, dei))
        received = bridge.receive(0, 2, bytearray(came))
        check(f"priority {pcp}", (received.vid, received.priority, received.drop_eligible), (vid, pcp, dei == 1))
        check(f"priority {pcp}, leaving", (bridge.tagged(received, memoryview(came)), bridge.untagged(received, came)), (came, plain))
    came = frame(ALL, ONE, tag(0, 6, 1))
    check("priority tag", bridge.leaving(bridge.receive(0, 0, came), came), {1: plain, 2: frame(ALL, ONE, tag(5, 6, 1))})
    bridge.change_port(0, default_priority=7)
    check("default priority", bridge.tagged(bridge.receive(0, 0, plain), plain), frame(ALL, ONE, tag(5, 7)))
    two = frame(ALL, ONE, tag(5), tag(9))
    bridge.change_port(2, refuses_second_tag=False)
    check("two tags", bridge.untagged(bridge.receive(0, 2, two), two), frame(ALL, ONE, tag(9)))
    provider = small(kind=BridgeKind.PROVIDER)
    check("service tag", provider.leaving(provider.receive(0, 0, came), came), {1: came, 2: frame(ALL, ONE, (0x88A8, 0, 0, 5), tag(0, 6, 1))})


def discarded():
    bridge = small()
    bridge.set_port(4, tagged=[5], forwarding=False)
    rows = [(0, frame(ALL, ONE)[:13], Discarded.NO_HEADER), (0, frame(ALL, ONE, rest=b"\x81\0\0"), Discarded.CUT_TAG),
            (2, frame(ALL, ONE, tag(4095)), Discarded.RESERVED_IDENTIFIER), (0, frame(ALL, "03:00:00:00:00:01"), Discarded.SOURCE),
            (2, frame(ALL, ONE), Discarded.FRAME_TYPE), (0, frame(ALL, ONE, tag(5)), Discarded.FRAME_TYPE),
            (2, frame(ALL, ONE, tag(5), tag(6)), Discarded.SECOND_TAG), (2, frame(ALL, ONE, tag(7)), Discarded.NOT_A_MEMBER),
            (4, frame(ALL, ONE, tag(5)), Discarded.PORT_STATE)]
    for port, content, reason in rows:
        received = bridge.receive(0, port, content)
        check(reason.name, (received, bridge.leaving(received, content)), ((set(), set(), 0, 0, False, False, reason), {}))
        for call in (bridge.tagged, bridge.untagged):
            try:
                call(received, content)
                check(reason.name, "no error", "one")
            except etherpeel.Error as error:
                check(reason.name, str(error), f"the frame was discarded: {reason.name}")
    check("all reasons", {reason for *_, reason in rows}, set(Discarded))
    received = bridge.receive(0, 0, frame(ALL, ONE))
    check("another frame", [raised(call, received, bytes(13)) for call in (bridge.tagged, bridge.untagged)], [etherpeel.Error] * 2)
    bridge.change_port(2, ingress_filtering=False)
    check("no ingress filter", bridge.receive(0, 2, frame(ALL, ONE, tag(7))).discarded, None)


def reserved():
    """The addresses of IEEE 802.1Q, 8.6.3, which no bridge for customers forwards, unless it is told to."""
    for number in range(16):
        content = frame(f"01:80:c2:00:00:{number:02x}", ONE)
        check(f"reserved {number}", [bridge.receive(0, 0, content)[:2] + (bridge.receive(0, 0, content).reserved,) for bridge in (
            small(), small(forwarded=[number]), small(forwarded=set(range(16)) - {number}))],
            [(set(), set(), True), ({2}, {1}, False), (set(), set(), True)])


def settings():
    bridge = small()
    bridge.change_port(0, isolated=True)
    bridge.change_port(1, isolated=True)
    check("isolated", ports(bridge, 0, 0, frame(ALL, ONE)), ([2], []))
    bridge.set_port(9, mirror=True)
    check("mirror", [ports(bridge, 0, 2, frame(ALL, TWO, tag(vid))) for vid in (5, 6)], [([9], [0, 1]), ([9], [3])])
    check("from a mirror", bridge.receive(0, 9, frame(ALL, ONE)).discarded, Discarded.FRAME_TYPE)
    bridge = small()
    for ports_of, expected in (([0], ([], [0])), ([1, 2, 3], ([2], [])), ((), ([], []))):
        bridge.set_static(5, TWO, ports_of)
        check(f"static {ports_of}", ports(bridge, 0, 1, frame(TWO, ONE)), expected)
    bridge.set_static(5, "01:00:5e:00:00:01", {0})
    check("static group", (ports(bridge, 0, 1, frame("01:00:5e:00:00:01", ONE)), ports(bridge, 0, 1, frame("01:00:5e:00:00:02", ONE))),
          (([], [0]), ([2], [0])))
    bridge.remove_static(5, TWO)
    check("no static", (ports(bridge, 0, 1, frame(TWO, ONE)), raised(bridge.remove_static, 5, TWO)), (([2], [0]), KeyError))
    bridge.change_port(0, learning=False)
    bridge.receive(0, 0, frame(ALL, "02:00:00:00:00:09"))
    check("not learned", bridge.find(5, "02:00:00:00:00:09"), None)
    bridge.change_port(0, forwarding=False)
    check("not forwarding", ports(bridge, 0, 1, frame(ALL, ONE)), ([2], []))
    high = Bridge()
    for port in (0, 1, 63, 64, 127, 128, 191, 192, 255):
        high.set_port(port, pvid=4094, tagged=[1] if port % 2 else [])
    check("all words", (ports(high, 0, 255, frame(ALL, ONE)), ports(high, 0, 1, frame(ALL, ONE, tag(1)))),
          (([], [0, 1, 63, 64, 127, 128, 191, 192]), ([63, 127, 191, 255], [])))
    check("the last port", (high.find(4094, ONE), high.find(1, ONE)), ((255, 0), (1, 0)))
    check("a tag in the port's own VLAN", Port(5, frozenset({5})).pvid, 5)
    high.set_port(7, pvid=4094, tagged=[4094])
    check("with a tag after all", ports(high, 0, 255, frame(ALL, TWO))[0], [7])


def defaults():
    """Which frames a port accepts if that is not said: those of its VLANs."""
    bridge = Bridge()
    for words, expected in (({"pvid": 5}, FrameTypes.UNTAGGED_AND_PRIORITY_TAGGED), ({"tagged": [5]}, FrameTypes.VLAN_TAGGED),
                            ({"pvid": 1, "tagged": [5]}, FrameTypes.ALL), ({"pvid": 1, "untagged": [5]}, FrameTypes.ALL),
                            ({"pvid": 1, "untagged": [1]}, FrameTypes.UNTAGGED_AND_PRIORITY_TAGGED), ({"pvid": 1, "tagged": [1]}, FrameTypes.ALL),
                            ({"pvid": 5, "frame_types": FrameTypes.UNTAGGED}, FrameTypes.UNTAGGED), ({}, FrameTypes.VLAN_TAGGED)):
        bridge.set_port(1, **words)
        check(f"{words}", bridge.ports[1].frame_types, expected)
    bridge.set_port(1, pvid=5)
    bridge.change_port(1, tagged=[6])
    check("changed", bridge.ports[1], Port(5, frozenset({6})))
    bridge.change_port(1, frame_types=3, isolated=True)
    bridge.change_port(1, tagged=[])
    check("kept", bridge.ports[1], Port(5, frame_types=FrameTypes.UNTAGGED, isolated=True))


def forgetting():
    def known(bridge):
        return [vid * 10 + number for vid in (5, 6) for number in (1, 2, 3) if bridge.find(vid, f"02:00:00:00:00:0{number}")]

    def learned():
        bridge = small()
        for port, vid, number in ((0, 5, 1), (1, 5, 2), (2, 5, 3), (3, 6, 1), (2, 6, 2)):
            bridge.receive(0, port, frame(ALL, f"02:00:00:00:00:0{number}", *[tag(vid)] * (port == 2)))
        return bridge

    for words, left in (({}, []), ({"port": 0}, [52, 53, 61, 62]), ({"port": 2}, [51, 52, 61]), ({"address": ONE}, [52, 53, 62]),
                        ({"vid": 5}, [61, 62]), ({"vid": 6}, [51, 52, 53]), ({"vid": 5, "port": 2}, [51, 52, 61, 62]),
                        ({"vid": 6, "address": bytes.fromhex("020000000001")}, [51, 52, 53, 62]), ({"vid": 7}, [51, 52, 53, 61, 62])):
        bridge = learned()
        bridge.forget(**words)
        check(f"forgotten by {words}", known(bridge), left)
    bridge = learned()
    bridge.change_port(2, tagged=[6, 7])
    check("a port that leaves a VLAN", known(bridge), [51, 52, 61, 62])
    bridge.remove_port(2)
    check("a port that goes", (known(bridge), sorted(bridge.ports), raised(bridge.remove_port, 2)), ([51, 52, 61], [0, 1, 3], KeyError))
    check("it receives nothing", (raised(bridge.receive, 0, 2, frame(ALL, ONE)), raised(bridge.change_port, 2)), (KeyError, KeyError))


def wrong_settings():
    bridge = small()
    before, rows = dict(bridge.ports), [
        (bridge.set_port, (256,), {}, "port is 0 to 255, not 256"),
        (bridge.set_port, (0,), {"pvid": 0}, "pvid is 1 to 4094, not 0"),
        (bridge.set_port, (0,), {"pvid": 4095}, "pvid is 1 to 4094, not 4095"),
        (bridge.set_port, (0,), {"tagged": [5, 4096]}, "tagged is 1 to 4094, not 4096"),
        (bridge.set_port, (0,), {"untagged": [0]}, "untagged is 1 to 4094, not 0"),
        (bridge.set_port, (0,), {"tagged": [5], "untagged": [5]}, "the VLAN 5 is both tagged and untagged"),
        (bridge.set_port, (0,), {"frame_types": 0}, "a port without a pvid accepts FrameTypes.VLAN_TAGGED alone"),
        (bridge.set_port, (0,), {"pvid": 5, "default_priority": 8}, "default_priority is 0 to 7, not 8"),
        (bridge.set_port, (0,), {"pvid": 5, "frame_types": 4}, "4 is not a valid FrameTypes"),
        (Bridge, (), {"ageing_time": 2**32}, "ageing_time is 0 to 4294967295, not 4294967296"),
        (Bridge, (), {"key": b"short"}, "key has 16 bytes, not 5"),
        (Bridge, (), {"forwarded": [16]}, "forwarded is 0 to 15, not 16"),
        (Bridge, (), {"kind": 3}, "3 is not a valid BridgeKind"),
        (bridge.find, (4095, ONE), {}, "vid is 1 to 4094, not 4095"),
        (bridge.find, (5, "02:00"), {}, "address has 6 bytes, not 2"),
        (bridge.set_static, (5, ONE, [256]), {}, "port is 0 to 255, not 256"),
        (bridge.receive, (-1, 0, b""), {}, "now is 0 to 4294967295, not -1"),
        (bridge.forget, (), {"port": 0, "address": ONE}, "stations are forgotten by a port or by an address, not by both"),
        (bridge.forget, (), {"port": 256}, "port is 0 to 255, not 256"),
        (bridge.forget, (), {"vid": 0}, "vid is 1 to 4094, not 0")]
    for call, words, named, text in rows:
        try:
            call(*words, **named)
            check(text, "no error", text)
        except ValueError as error:
            check(text, str(error), text)
    check("nothing changed", bridge.ports, before)
    check("wrong types", [raised(bridge.set_port, *words) for words in (("0",), (0, 5))] + [
        raised(bridge.set_port, 0, pvid="5"), raised(bridge.receive, 0, 0, "frame"), raised(bridge.set_port, 0, colour=1),
        raised(Bridge, key=16)], [TypeError] * 6)


def copies():
    bridge = small(ageing_time=9, forwarded=[3], key=bytes(range(16)))
    bridge.set_static(5, TWO, [1])
    bridge.receive(7, 0, frame(ALL, ONE))
    for way in (*(lambda it, protocol=protocol: pickle.loads(pickle.dumps(it, protocol)) for protocol in range(pickle.HIGHEST_PROTOCOL + 1)),
                copy.copy, copy.deepcopy):
        other = way(bridge)
        check("a copy", (dict(other.ports), other.find(5, ONE), ports(other, 16, 1, frame(ONE, TWO)), ports(other, 17, 1, frame(ONE, TWO)),
                         ports(other, 0, 0, frame(TWO, ONE)), other.receive(0, 0, frame("01:80:c2:00:00:03", ONE)).reserved),
              (dict(bridge.ports), (0, 7), ([], [0]), ([2], [0]), ([], [1]), False))
        other.forget()
        check("of its own", (other.find(5, ONE), bridge.find(5, ONE)), (None, (0, 7)))
    check("repr", repr(bridge), "<etherpeel.Bridge with 4 ports>")
    many = Bridge(buckets=1)
    many.set_port(0, tagged=range(1, 65))
    for number in range(200):
        many.receive(0, 0, frame(ALL, f"02:00:00:00:01:{number:02x}", tag(number % 64 + 1)))
    found = [sum(many.find(vid, f"02:00:00:00:01:{number:02x}") is not None for number in range(200)) for vid in range(1, 65)]
    check("each VLAN has its part", (min(found), max(found)), (3, 4))


def threads():
    """Four threads that pass frames through one bridge, each in a VLAN of its own, while a fifth changes a port. It adds no VLAN."""
    bridge, wrong = Bridge(buckets=4), []
    for port in range(12):
        bridge.set_port(port, pvid=port // 3 + 1)
    bridge.set_port(20, pvid=8, tagged=[9, 10])
    done = threading.Event()

    def passes(vid):
        first, second = 3 * vid - 3, 3 * vid - 2
        there, back = f"02:00:00:00:0{vid}:01", f"02:00:00:00:0{vid}:02"
        bridge.receive(0, second, frame(there, back))
        for number in range(600):
            found = ports(bridge, number, first, frame(back, there)), ports(bridge, number, second, frame(there, back))
            wrong.append(found != (([], [second]), ([], [first])))

    def changes():
        while not done.is_set():
            bridge.set_port(20, pvid=9, tagged=[1, 10])
            bridge.change_port(20, pvid=8, tagged=[])
            bridge.remove_port(20)

    started = [threading.Thread(target=passes, args=(vid,)) for vid in range(1, 5)]
    other = threading.Thread(target=changes)
    for one in (other, *started):
        one.start()
    for one in started:
        one.join()
    done.set()
    other.join()
    check("frames of threads", (len(wrong), sum(wrong)), (2400, 0))


def bridging():
    learning()
    leaving()
    discarded()
    reserved()
    settings()
    defaults()
    forgetting()
    wrong_settings()
    copies()
    threads()
