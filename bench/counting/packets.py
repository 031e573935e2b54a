"""`PacketSlice` and its getters, compared with the walk that sums up the same fields. Each form is compiled on
its own, since a function with several callers is inlined less."""
import re

from . import builds, callgrind

FORMS = {"all fields": "until_none", "filter": "by_filter", "returned": "by_return"}
SETS = ["mixed", "Ethernet II alone", "one to three VLAN tags", "one or two SecTags", "ARP", "cut short", "cooked captures"]
FRAMES, COOKED = 4096, 6  # of each set; the place of the last


def source(form, is_cooked):
    """What a form uses of packets.rt.txt, where a line names the form of what follows it."""
    parts = re.split(r"^// form (\w+)\n", builds.source("bench/packets/packets.rt.txt"), flags=re.M)
    text = parts[0] + "".join(part for name, part in zip(parts[1::2], parts[2::2]) if name in ("nothing", "by_walk", form))
    return text.replace("(Start::Ethernet2,", "(Start::LinuxSll,") if is_cooked else text


def rows(build, room):
    """Of each form and set the name, the instructions of a frame, and those of the walk."""
    for name, form in FORMS.items():
        for is_cooked in (False, True) if name == "all fields" else (False,):
            crate = f"packets_{form}_{int(is_cooked)}"
            made = build.library(room, crate, ["etherparse", "ether_peel", "ether_packet", "arrayvec"], {"lib": source(form, is_cooked)})
            program = builds.compiled(room, "frames", [f"{builds.TOP}/bench/packets/frames.c", made], "-O2", f"-DFORM={form}",
                                      f"-DIS_COOKED={int(is_cooked)}")
            if name == "all fields":  # the only form that sums up what the walk does
                builds.run(program)
            for at in [COOKED] if is_cooked else range(COOKED):
                found = callgrind.of_functions([program, str(at)], ["nothing", "by_walk", form])
                here, walk = ((found[it] - found["nothing"]) / FRAMES for it in (form, "by_walk"))
                yield f"{name}: {SETS[at]}", here, walk
