"""`pop_vlan` and `push_vlan`, compared with functions in C that make the same tests and move the same bytes."""
from . import builds, callgrind

LINKS = ["Ethernet II", "with a check sequence", "cooked capture"]
TIMES = 1000


def rows(build, room):
    """Of each call and link the name, the instructions of a call, and those in C."""
    made = build.library(room, "tags_bench", ["etherparse", "ether_peel", "ether_packet", "arrayvec"], {"lib": builds.source("bench/tags/tags.rt.txt")})
    program = builds.compiled(room, "tags", [f"{builds.TOP}/bench/tags/tags.c", made], "-O2")
    for at, link in enumerate(LINKS):
        found = callgrind.of_functions([program, str(at)], ["tags_bench::pop", "tags_bench::push", "c_pop", "c_push"])
        for name in ("pop", "push"):
            yield f"{name}: {link}", found[f"tags_bench::{name}"] / TIMES, found[f"c_{name}"] / TIMES
