"""`PacketBuilder::write`, compared with a function that writes the same headers one by one."""
from . import builds, callgrind

KINDS = ["VLAN tags", "SecTags with an SCI"]
TIMES = 1000


def rows(build, room):
    """Of each packet the name, the instructions of a call, and those of writing its headers one by one."""
    made = build.library(room, "building_bench", ["etherparse", "ether_peel", "ether_packet", "arrayvec"],
                         {"lib": builds.source("bench/building/building.rt.txt")})
    program = builds.compiled(room, "write", [f"{builds.TOP}/bench/building/write.c", made], "-O2")
    for secured, kind in enumerate(KINDS):
        for tags in range(4):
            if tags or not secured:
                names = ["building_bench::packet", "building_bench::one_by_one"]
                found = callgrind.of_functions([program, str(tags), str(secured)], names)
                # The builder also writes the packet from which the headers are taken.
                yield f"{tags} {kind}", found[names[0]] / (TIMES + 1), found[names[1]] / TIMES
