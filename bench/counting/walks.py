"""The walk by `Peel`, `Peel::with_limit`, `summary` and `feed`, compared with walks by hand in C with the same
tests and sums."""
from . import builds, callgrind

NAMES = ["walk", "limited", "summary", "feed"]
CALLS = {"walk": "port_walks", "limited": "port_limited_walks", "summary": "port_summaries", "feed": "port_feeds"}
BY_HAND = {"walk": "hand_walks", "limited": "hand_walks", "summary": "hand_summaries"}
SETS = ["mixed", "Ethernet II alone", "one to three VLAN tags", "one or two SecTags", "ARP", "cut short", "500 tags"]
FRAMES, LONG_FRAMES = 4096, 64  # of each set, and of the last


def rows(build, room):
    """Of each call and set the name, the instructions of a frame, and those of C by hand."""
    text = builds.source("bench/walk/walk.rt.txt")
    if build.name == "cargo":  # rustc finds the function that sums up the fields too long to inline
        text = text.replace("\nfn value_of", "\n#[inline(always)]\nfn value_of")
    made = build.library(room, "walks", ["etherparse", "ether_peel"], {"lib": text})
    program = builds.compiled(room, "walk", [f"{builds.TOP}/bench/walk/walk.c", made])
    for at, frames in enumerate(SETS):
        found = callgrind.of_functions([program, str(at)], [*CALLS.values(), *BY_HAND.values()])
        each = LONG_FRAMES if frames == "500 tags" else FRAMES
        for name, call in CALLS.items():
            yield f"{name}: {frames}", found[call] / each, found[BY_HAND[name]] / each if name in BY_HAND else None
