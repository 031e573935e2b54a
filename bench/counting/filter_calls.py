"""`etherpeel_filter_matches`, a packet a call, compared with the compiled filter of libpcap."""
from . import builds, callgrind

PACKETS = 4096
# What bench/filters/calls.c calls the packets or what is asked, what the rows call them, and the numbers of terms.
CASES = [
    ("tagged", "tagged", [1, 4, 16, 64]), ("untagged", "untagged", [1, 4, 16, 64]), ("three", "three tags", [1, 16, 64]),
    ("stacked", "500 tags", [1, 48]), ("lengths", "lengths", [1, 16, 64]),
]


def rows(build, room):
    """Of each number of terms the name, the instructions of a packet, and those of libpcap."""
    program = builds.compiled(room, "filter_calls", [f"{builds.TOP}/bench/filters/calls.c", build.calls], "-lpcap")
    for case, name, numbers in CASES:
        for terms in numbers:
            found = callgrind.of_functions([program, str(terms), case], ["ask_own", "ask_libpcap"])
            yield f"{name}, {terms} terms", found["ask_own"] / PACKETS, found["ask_libpcap"] / PACKETS
