"""`ether_make`: frames of two ranges, compared with a program in C that writes the same bytes, and lines of JSON, compared with their making."""
import json
import re
import subprocess
import sys

from . import builds, callgrind
from .captures import CAPTURES

COUNT = 100_000
RANGES = {"headers": [{"header": "eth", "dst": "00:00:5e:00:01:01", "src": "02:00:00:00:00:01"}, {"header": "vlan", "vid": {"from": 1, "to": 4094}},
                      {"header": "arp", "spa": {"from": "10.0.0.1", "to": "10.0.0.254"}}]}


def rows(build, room):
    """Of each input the name, the instructions of a frame, and those that it is compared with."""
    builds.write(room, {"ranges": json.dumps(RANGES) + "\n"})
    program = builds.compiled(room, "by_hand", [f"{builds.TOP}/bench/frames/ranges.c"])
    own, other = [build.make, "--count", str(COUNT), f"{room}/ranges"], [program, str(COUNT)]
    if printed(own) != printed(other):
        sys.exit("bench/frames/ranges.c does not write the same bytes")
    yield "frames of two ranges", callgrind.total(own, "/dev/null") / COUNT, callgrind.total(other, "/dev/null") / COUNT
    yield "a byte of a check sequence", sequence_byte(build, room), None
    made = builds.run(sys.executable, f"{builds.TOP}/bench/captures/make.py", f"{room}/captures", "1")
    for name, packets in CAPTURES.items():
        path, count = f"{room}/captures/{name}.pcap", int(re.search(rf"{name}\.pcap: (\d+) packets", made)[1])
        lines = [line for line in printed([build.capture, "--format", "json", path]).splitlines(True) if b'"fault"' not in line]
        with open(f"{room}/{name}.json", "wb") as file:
            file.writelines(lines)
        printing = callgrind.total([build.capture, "--format", "json"], path) / count
        yield f"lines of JSON: {packets}", callgrind.total([build.make], f"{room}/{name}.json") / len(lines), printing


def sequence_byte(build, room):
    """What `--fcs` adds to the instructions of frames of 1,500 bytes, for a byte of them: 200 frames less 100."""
    builds.write(room, {"long": json.dumps({"headers": [{"header": "eth"}], "rest": {"bytes": "a5" * 1486}}) + "\n"})

    def more(*words):
        few, many = (callgrind.total([build.make, *words, "--count", str(count), f"{room}/long"], "/dev/null") for count in (100, 200))
        return many - few

    return (more("--fcs") - more()) / (100 * 1500)


def printed(command):
    return subprocess.run(command, stdin=subprocess.DEVNULL, stdout=subprocess.PIPE, check=True).stdout
