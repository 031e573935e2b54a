"""Builds the programs by cargo, and runs over them the tests that run over the proved ones, and those of what only they do: they end well on signals
(endings.py), unpack captures (packed.py), and make lines in threads (threads.py).

    python3 rust/programs.py

What is left out is said, and why. The last line is 'N passed, M failed'.
"""
import argparse
import filecmp
import os
import re
import subprocess
import sys
import tempfile

sys.dont_write_bytecode = True
import building  # noqa: E402

TOP = os.path.dirname(building.HERE)
TESTS = [("ether_tool", "tests/ether_tool.py"), ("ether_capture", "tests/ether_capture.py", "--gzip"), ("ether_capture", "tests/other_programs.py"),
         ("ether_make", "tests/ether_make.py"),
         ("ether_capture", "rust/endings.py"), ("ether_capture", "rust/packed.py"), ("ether_capture", "rust/threads.py")]
EXAMPLES = ["example_switch", "example_vlan_rewriter"]
RELEASE = os.path.join(building.PROGRAMS, "target", "release")


def counts(names, test, *words):
    """How many tests of programs passed and failed; what they print besides is passed on."""
    paths = [os.path.join(RELEASE, name) for name in names]
    ran = subprocess.run([sys.executable, f"{TOP}/{test}", *words, *paths], stdout=subprocess.PIPE, text=True)
    *others, last = ran.stdout.splitlines() or [""]
    told = re.fullmatch(r"(\d+) passed, (\d+) failed", last)
    passed, failed = (int(told[1]), int(told[2])) if told else (0, 1)
    told = ", ".join(os.path.basename(name) for name in names)
    print(*others, f"{told}, {test}: {passed} passed, {failed} failed", sep="\n", flush=True)
    return passed, failed + (bool(ran.returncode) and not failed)


def completions():
    """How many of the files of completions are as the program's options are, and how many are not."""
    passed = failed = 0
    with tempfile.TemporaryDirectory() as folder:
        text, status = building.cargo("run", "--release", "--example", "completions", "--", folder, folder=building.PROGRAMS)
        for name in sorted(os.listdir(f"{TOP}/completions")):
            same = not status and filecmp.cmp(f"{TOP}/completions/{name}", f"{folder}/{name}", shallow=False)
            passed, failed = passed + same, failed + (not same)
            if not same:
                print(f"completions/{name} is not what the example completions of rust/ether_tools writes", text[-1000:])
    return passed, failed


def main():
    argparse.ArgumentParser(description=__doc__, formatter_class=argparse.RawDescriptionHelpFormatter).parse_args()
    if why := building.missing(building.PROGRAMS):
        print(f"left out: the programs that cargo builds, since {why}")
        print("0 passed, 0 failed")
        return 0
    text, status = building.cargo("build", "--release", "--bins", "--examples", folder=building.PROGRAMS)
    if status or re.search(r"^warning", text, re.M):
        print(text[-4000:], "0 passed, 1 failed", sep="\n")
        return 1
    found = [counts([name], *words) for name, *words in TESTS]
    found += [counts([f"examples/{name}" for name in EXAMPLES], "tests/examples.py"), completions()]
    passed, failed = (sum(it) for it in zip(*found))
    print(f"{passed} passed, {failed} failed")
    return 1 if failed else 0


if __name__ == "__main__":
    sys.exit(main())
