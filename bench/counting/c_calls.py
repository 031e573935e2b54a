"""The calls from C, compared with functions by hand that fill the same structs (bench/c/by_hand.h)."""
from . import builds, callgrind

CALLS = {"etherpeel_summary": "by_hand", "etherpeel_walk": "walk_by_hand", "etherpeel_packet": "packet_by_hand",
         "etherpeel_write_back": None, "etherpeel_feed": None}
SETS = ["mixed", "Ethernet II alone", "one to three VLAN tags", "one or two SecTags", "ARP", "cut short"]
FRAMES = 4096


def rows(build, room):
    """Of each call and set the name, the instructions of a call, and those by hand."""
    program = builds.compiled(room, "c_calls", [f"{builds.TOP}/bench/c/calls.c", build.calls], "-Wno-unused-function")
    builds.run(program, "compare")
    for at, frames in enumerate(SETS):
        found = callgrind.of_functions([program, str(at)], [*CALLS, *filter(None, CALLS.values())])
        for call, hand in CALLS.items():
            yield f"{call}: {frames}", found[call] / FRAMES, found[hand] / FRAMES if hand else None
