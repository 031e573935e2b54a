"""`etherpeel.walk` of the Python package, over the library by cargo. What Python takes to start is subtracted."""
import os
import shutil
import sys

from . import builds, callgrind

MACS = "ffffffffffff020000000001"
FRAMES = {
    "Ethernet II alone": f"{MACS}88b5", "one VLAN tag": f"{MACS}8100000588b5", "two VLAN tags": f"{MACS}88a800058100000688b5",
    "ARP": f"{MACS}08060001080006040001020000000001" + "0a000001" + "000000000000" + "0a000002",
}
FEW, MANY = 500, 2500


def rows(build, room):
    """Of each frame the name, and the instructions of a walk."""
    if build.name != "cargo":
        return
    package = f"{room}/python/etherpeel"
    shutil.copytree(f"{builds.TOP}/c/python/etherpeel", package)
    shutil.copyfile(os.path.join(os.path.dirname(build.calls), "libetherpeel_c.so"), f"{package}/libetherpeel.so.3")
    command = [sys.executable, "-B", "-S", f"{builds.TOP}/bench/python/walks.py", f"{room}/python"]
    for name, frame in FRAMES.items():
        few, many = (callgrind.total([*command, frame, str(number)]) for number in (FEW, MANY))
        yield f"walk: {name}", (many - few) / (MANY - FEW), None
