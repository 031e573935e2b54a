"""79 loops over public calls, compared with counts of the original crate that bench/calls/rows.txt keeps."""
import re

from . import builds, callgrind

SOURCES = ["calls", "walks"]


def table():
    """The name, the frames, whether it writes, and the instructions of the original, of each loop."""
    return [line.split() for line in builds.source("bench/calls/rows.txt").splitlines() if not line.startswith("#")]


def declared(room):
    """Writes the table of loops for calls.c."""
    lines = [f"{'Writes' if writes == 'room' else 'Loop'} port_{name};" for name, _, writes, _ in table()]
    lines.append("static const struct { const char *name, *over; Loop *loop; Writes *writes; } rows[] = {")
    for name, over, writes, _ in table():
        lines.append(f'    {{"{name}", "{over}", {f"0, port_{name}" if writes == "room" else f"port_{name}, 0"}}},')
    builds.write(room, {"rows.h": "\n".join([*lines, "};", ""])})


def rows(build, room):
    """Of each loop the name, the instructions of a frame, and those of the original."""
    sources = {name: builds.source(f"bench/calls/{name}.rt.txt") for name in SOURCES}
    root = "//! For counting alone.\n#![tactic(auto)]\n\n" + "".join(f"mod {name};\n" for name in SOURCES)
    made = build.library(room, "calls", ["etherparse", "ether_peel", "ether_base", "ether_sll", "arrayvec"], {**sources, "lib": root})
    declared(room)
    program = builds.compiled(room, "calls", [f"{builds.TOP}/bench/calls/calls.c", made], "-I", room)
    sets = f"{builds.TOP}/bench/calls/sets"
    frames = {line.split()[0]: int(line.split()[1]) for line in builds.run(program, sets).splitlines()}
    found = callgrind.of_functions([program, sets], [f"port_{name}" for name in frames], may_miss=True)
    placed = {name: place for place, name in re.findall(r"^(\w+) T port_(\w+)", builds.run("nm", program), re.M)}
    most = {}
    for name in frames:
        most[placed[name]] = max(most.get(placed[name], 0), found[f"port_{name}"])
    # Loops that are compiled to the same code have one place, and are counted together; they go over the same frames.
    same = {name: sum(placed[other] == placed[name] for other in frames) for name in frames}
    for name, _, _, original in table():
        yield name, most[placed[name]] / same[name] / frames[name], float(original)
