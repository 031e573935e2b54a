"""Proves crates from nothing, one function after another, and prints the functions that took longest.

    python3 bench/gate/functions.py [--test] CRATE..

With --test their tests are proved, too. The crates below have to be proved (`rt ci` or `rt all check` leaves them in crates/*/out). The first
function of a crate is left out, since it comes with what is checked before all functions; one that is the first to use a module of another crate
takes its loading, too.
"""
import argparse
import os
import re
import subprocess
import sys
import tempfile
import time

TOP = os.path.dirname(os.path.dirname(os.path.dirname(os.path.abspath(__file__))))
sys.path.insert(0, f"{TOP}/c")
from library import crates  # noqa: E402


def words(kit, name, kept, tests=False):
    """The words of the prover for a crate, with its tests if they are wanted."""
    listed = crates()
    below = list(listed[name])
    for it in below:
        below += [lower for lower in listed.get(it, []) if lower not in below]
    root = "src/main.rt" if os.path.isfile(f"{TOP}/crates/{name}/src/main.rt") else "src/lib.rt"
    said = ["check", *["--test"] * tests, "--crate-name", name, root, "-L", f"dependency={kit}/rlibs"]
    for it in ["std", *listed[name]]:
        own = f"{TOP}/crates/{it}/out/rlib/{it}.rlib"
        said += ["--extern", f"{it}={own if it in listed else f'{kit}/rlibs/{it}.rlib'}"]
    for it in below:
        if it in listed:
            said += ["-L", f"dependency={TOP}/crates/{it}/out/rlib"]
    said += ["--antt-project", f"{kit}/rattle/logic/antt-project.json", "--logic-built", f"{kit}/logic_built"]
    return [*said, "--links", f"{name}=", "--jobs", "1", "--incremental", kept, "--progress"]


def seconds(kit, name, tests):
    """The seconds that each function took, in pairs with its name."""
    took = []
    with tempfile.TemporaryDirectory() as kept:
        said = [f"{kit}/bin/rattle", *words(kit, name, kept, tests)]
        with subprocess.Popen(said, cwd=f"{TOP}/crates/{name}", stdout=subprocess.PIPE, stderr=subprocess.STDOUT, text=True, errors="replace") as run:
            before = None
            for line in run.stdout:
                told = re.match(r"checked (\S+), \d+ of \d+", line)
                if told and before is not None:
                    took.append((time.monotonic() - before, told[1]))
                if told:
                    before = time.monotonic()
    if run.returncode:
        sys.exit(f"{name} is not proved")
    return took


def main():
    given = argparse.ArgumentParser(description=__doc__, formatter_class=argparse.RawDescriptionHelpFormatter)
    given.add_argument("--test", action="store_true", help="their tests, too")
    given.add_argument("crates", metavar="CRATE", nargs="+")
    asked = given.parse_args()
    doc = subprocess.run(["rt", "doc"], stdout=subprocess.PIPE, text=True, check=True).stdout.strip()
    took = [it for name in asked.crates for it in seconds(os.path.dirname(doc), name, asked.test)]
    for passed, name in sorted(took, reverse=True)[:10]:
        print(f"{passed:5.1f} s  {name}")
    print(f"{len(took)} functions, {sum(passed for passed, _ in took):.0f} s")


if __name__ == "__main__":
    main()
