"""Runs the switch c/examples/switch.c with wrong words, for which it needs no network and no rights.

    python3 tests/switch.py LIBRARY

LIBRARY is the static library. Without a C compiler nothing is run. The last line is 'N passed, M failed'.
"""

import argparse
import os
import shutil
import subprocess
import sys
import tempfile

from programs import count

TOP = os.path.dirname(os.path.dirname(os.path.abspath(__file__)))
# Words that are refused, and what is said of them. `lo` is always there.
USAGE = "usage: switch [--ageing SECONDS] [--storm N] NAME:pvid=N .. NAME:tagged=N,N .., at most 64"
NUMBER = "'{}' is not the identifier of a VLAN, 1 to 4094"
PART = "'{}' is none of pvid=N, tagged=N,N and isolated"
OPTION = "'{}' is not --ageing SECONDS or --storm N, with a number from 1"
NUMBERS = ["", "0", "4095", "4096", "65541", "18446744073709551621", "5x", "x", " 5", "+5", "-5", "5 ", "0x5"]
REFUSED = [
    *((f"lo:pvid={it}", f"lo: {NUMBER.format(it)}") for it in [*NUMBERS, "5,6"]),
    *((f"lo:tagged={it}", f"lo: {NUMBER.format(it)}") for it in NUMBERS),
    *((f"lo:tagged={it}", f"lo: {NUMBER.format('')}") for it in ["5,,6", ",5", "5,"]),
    ("lo:tagged=4094,4095", f"lo: {NUMBER.format('4095')}"),
    ("lo:tagged=5,6,5", "lo: VLAN 5 is given twice"),
    ("lo:pvid=5:tagged=4,5", "lo: VLAN 5 is given twice"),
    ("lo:tagged=4,5:pvid=5", "lo: VLAN 5 is given twice"),
    ("lo:pvid=5:pvid=6", f"lo: {PART.format('pvid=6')}"),
    ("lo:pvid=5:isolated:isolated", f"lo: {PART.format('isolated')}"),
    ("lo:isolated", "lo: needs VLANs: NAME:pvid=N, NAME:tagged=N,N or both"),
    ("lo:tagged=5:tagged=6", f"lo: {PART.format('tagged=6')}"),
    *((f"lo:{it}", f"lo: {PART.format(it)}") for it in ["", "pvid", "tagged", "5", "PVID=5", " pvid=5"]),
    ("lo::pvid=5", f"lo: {PART.format('')}"),
    ("lo:pvid=5:", f"lo: {PART.format('')}"),
    ("lo", "lo: needs VLANs: NAME:pvid=N, NAME:tagged=N,N or both"),
    ("", "the name of an interface is empty"),
    (":pvid=5", "the name of an interface is empty"),
]
REFUSED_TOGETHER = [
    ([], USAGE),
    (["lo:pvid=5"] * 65, USAGE),
    (["lo:pvid=5", "lo:pvid=6"], "lo: the interface is given twice"),
    (["lo:pvid=5", "lo:tagged="], "lo: the interface is given twice"),
    *(([*given, "lo:pvid=5"], OPTION.format(given[0])) for given in (["--ageing", "0"], ["--storm", "x"], ["--storm", "4294967296"], ["--limit", "5"])),
    (["--storm"], OPTION.format("--storm")),
    (["--storm", "5"], USAGE),
]
# Words that are right, for an interface that is not there.
RIGHT = ["none:pvid=1", "none:pvid=4094", "none:tagged=1,4094", "none:pvid=5:tagged=4,6", "none:tagged=63,64:pvid=65", "none:pvid=5:isolated"]


def built(library, folder):
    """The switch, built with a library; None if there is no compiler that does."""
    path = os.path.join(folder, "switch")
    words = [os.environ.get("CC", "gcc"), "-std=c11", "-O2", "-Wall", "-Wextra", "-Werror", f"-I{TOP}/c", "-o", path]
    done = subprocess.run([*words, f"{TOP}/c/examples/switch.c", library], stdout=subprocess.DEVNULL, stderr=subprocess.DEVNULL, check=False)
    return path if done.returncode == 0 else None


def said(switch, words):
    """What the switch says of its words on standard error, and its status; a switch that starts is ended."""
    with subprocess.Popen([switch, *words], stdout=subprocess.PIPE, stderr=subprocess.PIPE, text=True) as program:
        if program.stdout.readline():
            program.kill()
        return program.stderr.read(), program.wait()


def main():
    words = argparse.ArgumentParser(description=__doc__, formatter_class=argparse.RawDescriptionHelpFormatter)
    words.add_argument("library", metavar="LIBRARY")
    library = os.path.realpath(words.parse_args().library)
    if not shutil.which(os.environ.get("CC", "gcc")):
        print("left out: the words of the switch, since no C compiler was found")
        print("0 passed, 0 failed")
        return 0
    with tempfile.TemporaryDirectory() as folder:
        switch = built(library, folder)
        if not switch:
            return count([("the switch is built", False, True)])
        tried = [*(([word], why, 2) for word, why in REFUSED), *((given, why, 2) for given, why in REFUSED_TOGETHER),
                 *(([word], "none: No such device", 1) for word in RIGHT)]
        return count([(f"switch {given}", said(switch, given), (f"switch: {why}\n", status)) for given, why, status in tried])


if __name__ == "__main__":
    sys.exit(main())
