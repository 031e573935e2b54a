"""A frame through a switch by the calls from C, as c/examples/switch.c uses them, compared with a switch by
hand (bench/switch/calls.c)."""
from . import builds, callgrind

PORTS, STATIONS, FRAMES = [1, 8, 64], 64, 4096


def rows(build, room):
    """Of each number of ports the name, the instructions of a frame, and those by hand."""
    program = builds.compiled(room, "switch_calls", [f"{builds.TOP}/bench/switch/calls.c", build.calls])
    for ports in PORTS:
        for kind in ("unicast", "flood"):
            found = callgrind.of_functions([program, str(ports), str(STATIONS), kind], ["switched", "by_hand"])
            here, hand = (found[name] / (FRAMES + STATIONS) for name in ("switched", "by_hand"))
            yield f"{'a known station' if kind == 'unicast' else 'an unknown station'}, {ports} port{'s' * (ports > 1)}", here, hand
