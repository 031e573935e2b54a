"""Rows and objects of `ether_capture`, compared with a program in C over libpcap that is written for these captures and prints the same bytes."""
import re
import subprocess
import sys

from . import builds, callgrind
from .captures import CAPTURES, MEGABYTES, OUTPUTS

WORDS = {"four columns": "four", "eight columns": "eight", "json": "json"}


def rows(build, room):
    """Of each output and capture the name, the instructions of a packet, and those of the program in C."""
    made = builds.run(sys.executable, f"{builds.TOP}/bench/captures/make.py", f"{room}/captures", str(MEGABYTES))
    program = builds.compiled(room, "columns", [f"{builds.TOP}/bench/captures/columns.c"], "-lpcap")
    for name, packets in CAPTURES.items():
        path, count = f"{room}/captures/{name}.pcap", int(re.search(rf"{name}\.pcap: (\d+) packets", made)[1])
        for output, word in WORDS.items():
            own, other = [build.capture, *OUTPUTS[output]], [program, word]
            if printed(own, path) != printed(other, path):
                sys.exit(f"{output} of {name}.pcap: bench/captures/columns.c does not print the same bytes")
            yield f"{output}: {packets}", callgrind.total(own, path) / count, callgrind.total(other, path) / count


def printed(command, path):
    with open(path, "rb") as file:
        return subprocess.run(command, stdin=file, stdout=subprocess.PIPE, check=True).stdout
