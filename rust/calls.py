"""Compares what the public functions return in both builds, on drawn inputs.

    python3 rust/calls.py [COUNT]

The program tests/drawn_calls calls public functions with what it draws for an input, and prints digests of all that they
return. It runs for COUNT inputs, 200,000 if that is left out: as Rattle runs it before any proof (`python3 try.py
drawn_calls`), as cargo's optimised build, and as its unoptimised one, which checks for overflow. All three have to print
the same. If cargo's builds differ, the first line that does is printed. valgrind says which lines of the crate are run,
and each public function must be among them. The last line is 'N passed, M failed'.
"""
import argparse
import collections
import importlib
import itertools
import os
import re
import shutil
import subprocess
import sys
import tempfile

sys.dont_write_bytecode = True
sys.path.append(os.path.dirname(os.path.dirname(os.path.abspath(__file__))))
import building  # noqa: E402
import erase  # noqa: E402

NAME = "drawn_calls"
FOLDER = os.path.join(building.HERE, "drawn")
SOURCES = os.path.join(building.CRATE, "src")
COUNT, PER_LINE, SLOW = 200_000, 1000, 1600
SECONDS = 600  # a program with a fault may loop for ever


def printed(program, *words):
    """The lines that the program prints."""
    try:
        ran = subprocess.run([program, *map(str, words)], stdout=subprocess.PIPE, text=True, errors="replace", timeout=SECONDS)
    except subprocess.TimeoutExpired:
        return [f"no end after {SECONDS} seconds"]
    return ran.stdout.split("\n") + ([f"status {ran.returncode}"] if ran.returncode else [])


def differences(programs, count):
    """For each line of digests None, or what differs in the first input whose results do."""
    for first in range(0, count, PER_LINE):
        least = min(PER_LINE, count - first)
        one, other = (printed(program, first, least, least) for program in programs)
        yield None if one == other else first_difference(programs, first, least)


def first_difference(programs, first, count):
    """The number of the first of some inputs whose results differ, and the first line of these that does."""
    each = zip(*(printed(program, first, count, 1) for program in programs))
    number = next((first + i for i, (one, other) in enumerate(each) if one != other), first)
    for one, other in zip(*(printed(program, number, 1, 1, "texts")[1:] for program in programs)):
        if one != other:
            return f"input {number}:\n{programs[0]}: {one[:2000]}\n{programs[1]}: {other[:2000]}"
    return f"input {number}: the digests of {programs[0]} and {programs[1]} differ, or one prints less"


def lines_run(program):
    """The lines of each source that the program runs for some inputs, by valgrind."""
    run, path = collections.defaultdict(set), None
    with tempfile.NamedTemporaryFile() as file:
        words = ["--tool=callgrind", "--compress-pos=no", "--compress-strings=no", f"--callgrind-out-file={file.name}"]
        subprocess.run(["valgrind", "-q", *words, program, "0", str(SLOW), str(SLOW)], stdout=subprocess.DEVNULL, check=True)
        with open(file.name, encoding="utf-8") as costs:
            for line in costs:
                if line[:3] in ("fl=", "fi=", "fe="):
                    path = line[3:].strip()
                elif line[0].isdigit():
                    run[path].add(int(line.split()[0]))
    return run


def public_functions():
    """The path of each source, and each of its public functions: the name, its first line and its last."""
    for folder, _, names in sorted(os.walk(SOURCES)):
        for path in sorted(os.path.join(folder, name) for name in names):
            if os.path.relpath(path, building.HERE) in erase.BY_HAND:
                continue
            with open(path, encoding="utf-8") as file:
                lines = file.read().split("\n")
            for i, line in enumerate(lines):
                if told := re.match(r"( *)pub (?:const )?fn (\w+)", line):
                    end = next(k for k in range(i, len(lines)) if lines[k].startswith(told[1] + "}"))
                    yield path, told[2], i + 1, end + 1


def uncalled(program):
    """For each public function None, or its place if it is not called."""
    run, called = lines_run(program), set()
    for folder, _, names in os.walk(os.path.join(FOLDER, "src", "bin", NAME)):
        for name in names:
            with open(os.path.join(folder, name), encoding="utf-8") as file:
                called |= set(re.findall(r"\b\w+(?=\()", file.read()))
    for path, name, first, last in public_functions():
        # All instructions of a function may belong to one that is inlined in it; then its name must be called.
        was_run = any(line in run[path] for line in range(first, last + 1))
        place = f"{os.path.relpath(path, building.HERE)}:{first}"
        yield None if was_run or name in called else f"{place}: {name} is not called"


def built(*words):
    """Builds the program by cargo, and returns its path."""
    text, status = building.cargo("build", "--bin", NAME, *words, folder=FOLDER)
    if status or re.search(r"^warning", text, re.M):
        sys.exit(f"{text[-4000:]}\n0 passed, 1 failed")
    return os.path.join(FOLDER, "target", "release" if words else "debug", NAME)


def count(failures):
    """How many passed and failed; what is wrong is printed."""
    passed = failed = 0
    for wrong in failures:
        passed, failed = passed + (wrong is None), failed + (wrong is not None)
        if wrong:
            print(wrong, flush=True)
    return passed, failed


def rattle_failures(program, count):
    """For each line that the program prints None, or that Rattle prints another one."""
    lines, ill = importlib.import_module("try").try_calls("0", str(count), str(PER_LINE))
    yield from ill
    for own, line in itertools.zip_longest(printed(program, 0, count, PER_LINE)[:-1], lines):
        yield None if line == own else f"{own}, and in Rattle {line}"


def main():
    words = argparse.ArgumentParser(description=__doc__, formatter_class=argparse.RawDescriptionHelpFormatter)
    words.add_argument("count", metavar="COUNT", nargs="?", type=int, default=COUNT)
    said = words.parse_args()
    if why := building.missing(FOLDER):
        print(f"left out: what the crate for cargo returns for drawn inputs, since {why}\n0 passed, 0 failed")
        return 0
    fast, slow = built("--release"), built()
    counts = [count(differences([fast, slow], said.count))]
    if shutil.which("rt"):
        counts += [count(rattle_failures(fast, said.count))]
    else:
        print("left out: what they return in Rattle, since rt was not found")
    if shutil.which("valgrind"):
        counts += [count(uncalled(slow))]
    else:
        print("left out: whether each public function is called, since valgrind was not found")
    passed, failed = (sum(it) for it in zip(*counts))
    print(f"{passed} passed, {failed} failed")
    return 1 if failed else 0


if __name__ == "__main__":
    sys.exit(main())
