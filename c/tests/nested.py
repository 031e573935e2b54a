"""Calls of the Python package that a signal handler, a finalizer or another thread makes while another call is under way."""
import gc
import os
import signal
import sys
import threading
import time

import etherpeel
from checks import ADDRESSES, ARP, TAGGED, check

FOLDER = os.path.dirname(etherpeel.__file__)
TWO_TAGS = ADDRESSES + bytes.fromhex("88a8000a 81002014 0806") + ARP[14:]
SEC_TAG = ADDRESSES + bytes.fromhex("88e5 0c03 01020304 0800 45")
COOKED = bytes.fromhex("0004 0001 0006 020000000001abcd 8100 0007 0800")
COOKED_V2 = bytes.fromhex("0806 0000 00000003 0001 04 06 020000000001abcd") + ARP[14:]
CAPTURE = bytes.fromhex("a1b2c3d4 00020004 00000000 00000000 0000ffff 00000001") + b"".join(
    bytes.fromhex(f"0000000{at} 00000000") + len(it).to_bytes(4, "big") * 2 + it for at, it in enumerate((TAGGED, ARP, TWO_TAGS), 1))


def refused(frame):
    try:
        return etherpeel.walk(frame)
    except etherpeel.Refused as error:
        return str(error), error.units


def replaced(call, frame, *words):
    """A copy of the frame after a call that changes it, and what the call returns."""
    frame = bytearray(frame)
    return call(frame, *words), frame


# One call of each kind; what one of them leaves behind must not be seen by another.
CALLS = {
    "walk": lambda: etherpeel.walk(TAGGED),
    "walk of ARP": lambda: etherpeel.walk(ARP),
    "walk of two tags": lambda: etherpeel.walk(memoryview(TWO_TAGS)),
    "walk of a SecTag": lambda: etherpeel.walk(bytearray(SEC_TAG)),
    "walk of a cooked packet": lambda: etherpeel.walk(COOKED, etherpeel.Start.LINUX_SLL),
    "walk with a limit": lambda: etherpeel.walk(TWO_TAGS, limit=1),
    "walk of a cut frame": lambda: refused(TWO_TAGS[:20]),
    "packet": lambda: etherpeel.packet(TWO_TAGS),
    "summary": lambda: etherpeel.summary(SEC_TAG),
    "fields": lambda: etherpeel.fields(TAGGED),
    "completion": lambda: etherpeel.completion(ARP[:20]),
    "write back": lambda: etherpeel.write_back(ARP),
    "pop": lambda: replaced(etherpeel.pop_vlan, TAGGED),
    "replace": lambda: replaced(etherpeel.replace_link_ext, TAGGED, 0, etherpeel.Vlan(7, ether_type=0x0800)),
    "build": lambda: etherpeel.build([etherpeel.walk(TAGGED)[0].header, etherpeel.walk(ARP)[1].header]),
    "cooked v2": lambda: (etherpeel.linux_sll2(COOKED_V2), etherpeel.linux_sll2_fields(COOKED_V2)),
    "capture": lambda: [(bytes(it.packet), *it[1:], etherpeel.captured_frame(it).offset) for it in etherpeel.capture(CAPTURE)],
    "select": lambda: [it.time_ns for it in etherpeel.select("vlan", etherpeel.capture(CAPTURE))],
    "open": lambda: [bytes(it.packet) for it in etherpeel.open(CAPTURE)[1:]],
    "filter": lambda: [etherpeel.Filter("vlan").matches(it) for it in (TAGGED, ARP)] + etherpeel.Filter("arp").select(etherpeel.open(CAPTURE)),
    "decision": lambda: etherpeel.Filter("vlan 291").decide(etherpeel.Captured(memoryview(TAGGED[:16]), None, 1, 19, None)),
    "line": lambda: etherpeel.open(CAPTURE)[0].columns("frame.time,vlan.vid"),
    "select of a list": lambda: [it.time_ns for it in etherpeel.select("vlan", list(etherpeel.capture(CAPTURE)))],
}


def interrupted(call, other):
    """What a call returns if another is made before each instruction of the package, as a signal handler may make it."""
    def before(frame, event, _):
        if not frame.f_code.co_filename.startswith(FOLDER):
            return None
        frame.f_trace_opcodes = True
        if event == "opcode":
            other()
        return before

    earlier = sys.gettrace()
    sys.settrace(before)
    try:
        return call()
    finally:
        sys.settrace(earlier)


def at_each_instruction():
    alone = {name: call() for name, call in CALLS.items()}
    others = CALLS["walk of ARP"], CALLS["walk of two tags"], CALLS["packet"], CALLS["select of a list"]
    for name, call in CALLS.items():
        found = [interrupted(call, other) for other in (*others, call)]
        check(f"{name}, interrupted", found, [alone[name]] * len(found))


def handlers():
    """The walks of a timer's signal, and those of a finalizer that the collector runs, between walks of another frame."""
    wanted, wrong, times = etherpeel.walk(TAGGED), 0, [0]

    class Cycle:
        def __init__(self):
            self.me = self

        def __del__(self):
            on_signal()

    def on_signal(*_):
        times[0] += 1
        etherpeel.walk(ARP)

    before, threshold = signal.signal(signal.SIGALRM, on_signal), gc.get_threshold()
    signal.setitimer(signal.ITIMER_REAL, 0.0002, 0.0002)
    gc.set_threshold(5)
    end = time.monotonic() + 1
    try:
        while time.monotonic() < end:
            Cycle()
            wrong += etherpeel.walk(TAGGED) != wanted
    finally:
        signal.setitimer(signal.ITIMER_REAL, 0)
        signal.signal(signal.SIGALRM, before)
        gc.set_threshold(*threshold)
    check("handlers have walked", times[0] > 100, True)
    check("walks between which a handler walked", wrong, 0)


def threads():
    """Walks of four threads at once."""
    wrong, frames = [], (TAGGED, ARP, TWO_TAGS, SEC_TAG)

    def walks(frame):
        wanted = etherpeel.walk(frame)
        wrong.extend(1 for _ in range(3000) if etherpeel.walk(frame) != wanted)

    interval = sys.getswitchinterval()
    sys.setswitchinterval(1e-6)
    try:
        started = [threading.Thread(target=walks, args=(frame,)) for frame in frames]
        for one in started:
            one.start()
        for one in started:
            one.join()
    finally:
        sys.setswitchinterval(interval)
    check("walks of threads", wrong, [])


def nested():
    at_each_instruction()
    handlers()
    threads()
