"""Tests the crate that is made of the proved sources, and the script that makes it.

    python3 rust/test.py

The script refuses each source of cases/refused.txt, and makes of each source of cases/taken.txt what is below it.
What is committed is what it makes. With cargo each source of cases/meant.txt returns what it was seen to return in
Rattle, the crate is built, also with no feature and with each alone, its tests and examples are run, also as they are
copied (copied.py), lints and documentation have no warning, each word of a contract leads to its definition
(defined.py), each public type has its traits (surface.py), and drawn frames are compared with a second walk (drawn.py). With a compiler of the oldest version that the
crates are for, all targets are checked by it. What is left out is said, and why. The last line is 'N passed, M failed'.
"""
import argparse
import os
import re
import subprocess
import sys
import tempfile

sys.dont_write_bytecode = True
import building  # noqa: E402
import copied  # noqa: E402
import defined  # noqa: E402
import drawn  # noqa: E402
import erase  # noqa: E402
import examples  # noqa: E402
import surface  # noqa: E402
from erasing import docs, hiding  # noqa: E402
from erasing.tokens import Refused  # noqa: E402

HERE = os.path.dirname(os.path.abspath(__file__))


def cases(name):
    """Each case of a file: its name, its sources, each with its crate, of which the first is tried, and what is wanted of it.
    A line `+++ CRATE` begins a further source, and a ␍ is a carriage return."""
    with open(os.path.join(HERE, "cases", name), encoding="utf-8") as file:
        text = file.read().replace("␍", "\r")
    for block in text.split("=== ")[1:]:
        title, rest = block.split("\n", 1)
        sources, wanted = re.split("^--- ", rest, maxsplit=1, flags=re.M)
        first, *others = re.split("^\\+\\+\\+ ", sources, flags=re.M)
        crate = re.search(r" \(([\w/]+)\)$", title)
        tried = crate[1] if crate else "ether_tags", first
        yield title, [tried, *(tuple(other.split("\n", 1)) for other in others)], wanted.removeprefix("becomes\n")


def outcomes(sources):
    """What the script makes of each source, or the line and the text of its refusal. A crate may be given with a module."""
    known = hiding.Sources((text for _, text in sources), erase.CRATE_NAMES)
    for crate, text in sources:
        crate, _, stem = crate.partition("/")
        try:
            yield erase.erase(text, crate, known, docs.Scope({erase.NAME: known.names}, known.traits), stem=stem)
        except Refused as refused:
            yield f"{refused.line}: {refused.what}\n"


def case_failures():
    """For each case None, or what is wrong."""
    for name in ("refused.txt", "taken.txt"):
        for title, sources, wanted in cases(name):
            found = next(outcomes(sources))
            yield None if found == wanted else f"{name}: {title}:\n{found}wanted:\n{wanted}"


def meaning_failures():
    """For each case of cases/meant.txt None, or what is wrong. Its function `shown` returns in Rattle what is below it."""
    for title, sources, wanted in cases("meant.txt"):
        modules = "".join(f"mod {crate} {{\n{text}}}\n" for (crate, _), text in zip(sources, outcomes(sources)))
        program = f'{modules}fn main() {{ println!("means {{}}", {sources[0][0]}::shown()); }}\n'
        with tempfile.TemporaryDirectory() as folder:
            path = os.path.join(folder, "meant")
            words = ["rustc", "--edition", "2024", "--crate-name", "meant", "-A", "warnings", "-o", path, "-"]
            built = subprocess.run(words, input=program, capture_output=True, text=True)
            found = built.stderr if built.returncode else subprocess.run([path], stdout=subprocess.PIPE, text=True, check=True).stdout
        yield None if found == wanted else f"meant.txt: {title}:\n{found}wanted:\n{wanted}"


def committed_failures():
    """For each file of the result None, or what is wrong with the committed one."""
    files = erase.result()
    for path, text in files.items():
        try:
            with open(os.path.join(HERE, path), encoding="utf-8") as file:
                same = file.read() == text
        except FileNotFoundError:
            same = False
        yield None if same else f"{path} is not what rust/erase.py makes of the sources: run it, and commit the result"
    for path in erase.stale(HERE, files):
        yield f"{path} is not made of a source"


def steps():
    """The calls of cargo: the folder, the words and the environment of each. `c/test.sh` tests the calls for C."""
    yield building.CRATE, ["build"], {}
    for feature in building.features():
        yield building.CRATE, ["check", "--all-targets", "--no-default-features", "--features", feature], {}
    yield building.CRATE, ["test", "--no-default-features"], {}
    yield building.CRATE, ["test", "--all-features"], {}
    folders = {building.CRATE: ["--all-targets", "--all-features"], building.CALLS: []}
    for folder in (building.PROGRAMS, os.path.join(HERE, "properties")):
        if why := building.missing(folder):
            print(f"left out: the lints and the documentation of {os.path.basename(folder)}, since {why}")
        else:
            folders[folder] = ["--all-targets"]
            if folder == building.PROGRAMS:
                yield folder, ["test"], {}
    oldest, version = building.oldest_rustc(), "{}.{}".format(*building.OLDEST)
    if not oldest:
        print(f"left out: what the oldest compiler makes of the crates, since no rustc {version} was found")
    for folder, targets in folders.items():
        if oldest:
            yield folder, ["check", *targets, "--target-dir", f"target/{version}"], {"RUSTC": oldest}
        for command, words in (("clippy", [*targets, "--", "-D", "warnings"]), ("fmt", ["--check"])):
            if building.has(command):
                yield folder, [command, *words], {}
            else:
                print(f"left out: cargo {command}, since it was not found")
        yield folder, ["doc", "--no-deps", *targets[1:]], {"RUSTDOCFLAGS": "-D warnings"}
    yield building.CRATE, ["package", "--allow-dirty", "--no-metadata"], {}


def cargo_counts():
    """How many passed and failed with cargo: each test, and each other call."""
    passed = failed = 0
    for folder, words, environment in steps():
        text, status = building.cargo(*words, folder=folder, **environment)
        counts = re.findall(r"^test result: \w+\. (\d+) passed; (\d+) failed", text, re.M)
        well, ill = sum(int(it[0]) for it in counts), sum(int(it[1]) for it in counts)
        wrong = bool(status or re.search(r"^warning", text, re.M))
        if wrong:
            print(text[-4000:])
        said = f", {well} tests passed, {ill} failed" if counts else ""
        by = f" with {environment['RUSTC']}" if "RUSTC" in environment else ""
        alone = f" with only the feature {words[-1]}" if "--features" in words else ""
        print(f"{os.path.basename(folder)}: cargo {words[0]}{alone}{by}: {'failed' if wrong else 'passed'}{said}", flush=True)
        passed, failed = passed + well + (not wrong), failed + ill + wrong
    return passed, failed


def count(failures):
    """How many passed and failed; what is wrong is printed."""
    passed = failed = 0
    for wrong in failures:
        passed, failed = passed + (wrong is None), failed + (wrong is not None)
        if wrong:
            print(wrong)
    return passed, failed


def main():
    argparse.ArgumentParser(description=__doc__, formatter_class=argparse.RawDescriptionHelpFormatter).parse_args()
    counts = [count(case_failures()), count(committed_failures())]
    if why := building.missing():
        print(f"left out: what cargo does with the crate, since {why}")
    else:
        counts += [count(meaning_failures()), cargo_counts(), count(defined.failures()), count(surface.failures()), count(copied.failures())]
        counts += [count(examples.failures()), count(drawn.failures(drawn.COUNT, drawn.built()))]
    passed, failed = (sum(it) for it in zip(*counts))
    print(f"{passed} passed, {failed} failed")
    return 1 if failed else 0


if __name__ == "__main__":
    sys.exit(main())
