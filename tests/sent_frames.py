"""Tests of frames that `ether_make` makes on their way over a network: tcpreplay sends them in one namespace, tcpdump captures them in another."""

import json
import os
import shutil
import signal
import struct
import subprocess
import tempfile
import time

NEEDED = ["ip", "tcpreplay", "tcpdump"]
COUNT = 10_000
SECONDS = 60  # the longest that a program may take


def drawn_frame(number):
    """An object, and the bytes that it means, field by field: a plain frame, one with a tag (IEEE 802.1Q, 9.6), or ARP (RFC 826)."""
    station = bytes([2, 0, 0, 0, number >> 8, number & 255])
    eth = {"header": "eth", "dst": "02:00:00:00:ff:fe", "src": station.hex(":")}
    front = bytes.fromhex("02000000fffe") + station
    if number % 3 == 0:
        bytes_after = struct.pack(">Q", number)
        return {"headers": [{**eth, "type": 0x88B5}], "rest": {"bytes": bytes_after.hex()}}, front + b"\x88\xb5" + bytes_after
    if number % 3 == 1:
        identifier = 1 + number % 4094
        return {"headers": [eth, {"header": "vlan", "pcp": 5, "vid": identifier, "type": 0x88B5}]}, front + struct.pack(">HHH", 0x8100, 5 << 13 | identifier, 0x88B5)
    sender = bytes([10, 0, number >> 8, number & 255])
    arp = {"header": "arp", "sha": station.hex(":"), "spa": ".".join(map(str, sender)), "tpa": "10.0.0.254"}
    words = struct.pack(">HHHBBH", 0x0806, 1, 0x0800, 6, 4, 1)
    return {"headers": [eth, arp]}, front + words + station + sender + bytes(6) + bytes([10, 0, 0, 254])


def run(*words):
    return subprocess.run(words, stdout=subprocess.DEVNULL, stderr=subprocess.DEVNULL, check=False, timeout=SECONDS).returncode == 0


def packets_of(path):
    """The packets of a classic capture, in this machine's order of bytes."""
    with open(path, "rb") as file:
        data = file.read()
    at, found = 24, []
    while at + 16 <= len(data):
        length = struct.unpack_from("=I", data, at + 8)[0]
        found.append(data[at + 16:at + 16 + length])
        at += 16 + length
    return found


def received(folder, sender, receiver):
    """What tcpdump captures while tcpreplay sends `made.pcap`."""
    path = os.path.join(folder, "received.pcap")
    words = ["ip", "netns", "exec", receiver, "tcpdump", "-i", "eth", "-Q", "in", "-n", "-Z", "root", "-B", "65536", "-U", "-w", path]
    with subprocess.Popen(words, stdout=subprocess.DEVNULL, stderr=subprocess.PIPE, text=True) as listener:
        while "listening" not in (line := listener.stderr.readline()) and line:
            pass
        is_sent = run("ip", "netns", "exec", sender, "tcpreplay", "-i", "eth", "--pps", "5000", os.path.join(folder, "made.pcap"))
        time.sleep(1)
        listener.send_signal(signal.SIGINT)
        listener.communicate(timeout=SECONDS)
    return packets_of(path) if is_sent else None


def sent_cases(program):
    """Ten thousand frames that are made, sent, captured and compared with their bytes by hand."""
    missing = [it for it in NEEDED if shutil.which(it) is None]
    if missing or os.geteuid() != 0:
        print(f"left out: frames that are sent, since {f'there is no {missing[0]}' if missing else 'this needs root'}")
        return
    drawn = [drawn_frame(it) for it in range(COUNT)]
    spaces = [f"make{os.getpid()}{it}" for it in ("a", "b")]
    with tempfile.TemporaryDirectory() as folder:
        with open(os.path.join(folder, "made.pcap"), "wb") as file:
            lines = "".join(json.dumps(it) + "\n" for it, _ in drawn)
            done = subprocess.run([program, "--pad"], input=lines.encode(), stdout=file, stderr=subprocess.PIPE, check=False)
        yield "frames to be sent", (done.stderr, done.returncode), (b"", 0)
        try:
            is_ready = all([run("ip", "netns", "add", it) for it in spaces])
            is_ready = is_ready and run("ip", "link", "add", "eth", "netns", spaces[0], "type", "veth", "peer", "name", "eth", "netns", spaces[1])
            for space in spaces if is_ready else []:
                is_ready &= run("ip", "-n", space, "link", "set", "eth", "addrgenmode", "none") and run("ip", "-n", space, "link", "set", "eth", "up")
            if not is_ready:
                print("left out: frames that are sent, since no namespaces can be made")
                return
            found = received(folder, *spaces)
            yield "frames that are sent and captured", found, [it.ljust(60, b"\0") for _, it in drawn]
        finally:
            for space in spaces:
                run("ip", "netns", "del", space)
