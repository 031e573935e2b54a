"""Runs the properties of rust/properties, and checks that each contract has one.

    python3 rust/properties.py

A property is a test that draws inputs and compares what the crate returns with a model of the public standards. Its
comment has a line `Holds:` with the functions whose contracts it checks. Each public function of the walk, the views,
the headers, the filters and the switch that has a contract must be in such a line, or in `EXCEPTIONS`. The draws come
from a fixed seed. The environment variable PROPTEST_CASES sets how many cases a property has, 256 if it is not set. The
last line is 'N passed, M failed'.

    python3 rust/properties.py --faults 40

plants 40 faults into copies of the crate, one at a time, from a fixed seed (faults.py), and says which of them the
properties catch. A fault that is not caught is printed; those of `SAME` change nothing. A fault takes half a
minute of processor time, so this is not a part of the gate.
"""
import argparse
import concurrent.futures
import os
import random
import re
import shutil
import sys
import tempfile

sys.dont_write_bytecode = True
import building  # noqa: E402
import calls  # noqa: E402
import faults  # noqa: E402

FOLDER = os.path.join(building.HERE, "properties")
MODULES = ["ether_arp", "ether_base", "ether_filter", "ether_peel", "ether_sll", "ether_switch", "ether_tags"]
PUBLIC = ["ether_base.rs", "ether_base/err.rs", "ether_base/err/macsec.rs", "ether_filter.rs", "ether_peel.rs", "ether_switch.rs"]
CASES, SECONDS, WORKERS = "256", 600, 2
TEXT = re.compile(r'Some\("|number_text')  # no property is about a text
TEXTS = "its contract is a table of English texts, which no standard gives"
EXCEPTIONS = {"ArpHardwareId::name": TEXTS, "EtherType::name": TEXTS, "Layer::error_title": TEXTS}
# Faults that change nothing that can be seen, and why. faults.py has others.
SAME = [
    *faults.SAME,
    (r".*/instruction\.rs: None => false,  =>  None => true,", "each jump leads to a primitive"),
    (r".*/matching\.rs: _ => false,  =>  _ => true,", "only primitives about lengths get there"),
    (r".*/seen\.rs: has_more: false,  =>  has_more: true,", "a second walk answers the same"),
]
HOLDS = re.compile(r"^/// Holds: ((?:.*\n)(?:/// `.*\n)*)#\[test\]\nfn \w+", re.M)


def text_of(*path):
    with open(os.path.join(*path), encoding="utf-8") as file:
        return file.read()


def sources():
    """The path of each source of the modules."""
    for folder, _, names in sorted(os.walk(calls.SOURCES)):
        for path in sorted(os.path.relpath(os.path.join(folder, name), calls.SOURCES) for name in names):
            if path.split("/")[0].removesuffix(".rs") in MODULES:
                yield path


def exported():
    """For each module the names in it that a caller can reach: those that are passed on, and modules of a public module."""
    names = {module: set() for module in MODULES}
    for module, words in re.findall(r"^pub use crate::(\w+)::(\{[^;]*\});", text_of(calls.SOURCES, "lib.rs"), re.M):
        names[module] |= set(re.findall(r"\w+", words))
    for path in PUBLIC:
        for words in re.findall(r"^pub (?:use|mod) ([^;]*);", text_of(calls.SOURCES, path), re.M):
            names[path.split("/")[0].removesuffix(".rs")] |= set(re.findall(r"\w+", words))
    return names


def contracts():
    """Each public function that has a contract, after its type or, in a module that is public, after the module."""
    exports = exported()
    for path in sources():
        reachable = exports[path.split("/")[0].removesuffix(".rs")]
        module, owner, has_contract = os.path.basename(path).removesuffix(".rs"), None, False
        for line in text_of(calls.SOURCES, path).split("\n"):
            if told := re.match(r"impl(?:<.*?>)? (?:\S+ for )?(\w+)", line):
                owner = told[1]
            elif line == "}":
                owner = None
            has_contract |= "<summary>Contract</summary>" in line
            if told := re.match(r" *(pub )?(?:const )?fn (\w+)", line):
                if told[1] and has_contract and reachable & {owner or told[2], module}:
                    yield f"{owner}::{told[2]}" if owner else told[2] if told[2] in reachable else f"{module}::{told[2]}"
                has_contract = False


def held():
    """Each function whose contract a property checks."""
    for name in sorted(os.listdir(os.path.join(FOLDER, "tests"))):
        for words in HOLDS.findall(text_of(FOLDER, "tests", name)):
            yield from re.findall(r"`([\w:]+)`", words)


def list_failures():
    """For each function with a contract None, or that no property checks it; and what is listed without one."""
    wanted, found = set(contracts()), set(held())
    for name in sorted(wanted):
        known = name in found or name in EXCEPTIONS
        yield None if known else f"no property checks the contract of {name}"
    for name in sorted(found - wanted):
        yield f"a property says that it checks {name}, which has no contract"
    for name in sorted(EXCEPTIONS):
        if name in found or name not in wanted:
            yield f"{name} is no exception"
    marks = sum(text_of(FOLDER, "tests", name).count("/// Holds:") for name in os.listdir(os.path.join(FOLDER, "tests")))
    lists = sum(len(HOLDS.findall(text_of(FOLDER, "tests", name))) for name in os.listdir(os.path.join(FOLDER, "tests")))
    yield None if marks == lists else f"{marks - lists} lines `Holds:` are not directly before a test"


def counts_of(text, status):
    """How many properties passed and failed, by what cargo printed."""
    counts = [(int(well), int(ill)) for well, ill in re.findall(r"^test result: \w+\. (\d+) passed; (\d+) failed", text, re.M)]
    well, ill = (sum(it) for it in zip(*counts)) if counts else (0, 0)
    return well, ill + bool((status and not ill) or re.search(r"^warning", text, re.M))


def tested(folder, **environment):
    """What cargo prints of the properties, and its status."""
    return building.cargo("test", "--no-fail-fast", folder=folder, seconds=SECONDS, **environment)


def planted(fault, folder):
    """Writes copies of the crate, with the fault, and of the properties; returns the line before and after."""
    for part in ("Cargo.toml", "src", "tests"):
        source, target = os.path.join(FOLDER, part), os.path.join(folder, "properties", part)
        (shutil.copytree(source, target, dirs_exist_ok=True) if os.path.isdir(source) else shutil.copy(source, target))
    return faults.planted(fault, folder)


def outcomes(some, folder, wanted):
    """Plants one fault after the other, until enough of them compile. Returns the line of each, and whether it is caught."""
    found = []
    for fault in some:
        before, after = planted(fault, folder)
        if not TEXT.search(f"{fault[0]}: {before}") and not building.cargo("build", folder=os.path.join(folder, "properties"))[1]:
            caught = bool(tested(os.path.join(folder, "properties"))[1])
            found.append((f"{fault[0]}: {before}  =>  {after}", caught))
            print(f"{found[-1][0]}: {'caught' if caught else 'not caught'}", flush=True)
        shutil.copy(os.path.join(building.CRATE, fault[0]), os.path.join(folder, "etherpeel", fault[0]))
        if len(found) == wanted:
            break
    return found


def fault_counts(count):
    """How many faults are caught or change nothing, and how many are not caught."""
    some = [it for it in faults.all_places() if it[0].split("/")[1].removesuffix(".rs") in MODULES]
    random.Random(2).shuffle(some)
    with tempfile.TemporaryDirectory() as folder, concurrent.futures.ThreadPoolExecutor(WORKERS) as pool:
        folders = [os.path.join(folder, str(i)) for i in range(WORKERS)]
        for it in folders:
            for name in ("etherpeel", "drawn", "properties"):
                os.makedirs(os.path.join(it, name))
        parts = [pool.submit(outcomes, some[i::WORKERS], folders[i], count // WORKERS) for i in range(WORKERS)]
        found = [it for part in parts for it in part.result()]
    missed = [it for it, caught in found if not caught and not any(re.fullmatch(same, it) for same, _ in SAME)]
    for it in missed:
        print(f"not caught: {it}")
    return len(found) - len(missed), len(missed)


def main():
    words = argparse.ArgumentParser(description=__doc__, formatter_class=argparse.RawDescriptionHelpFormatter)
    words.add_argument("--faults", metavar="COUNT", type=int)
    said = words.parse_args()
    passed, failed = calls.count(list_failures())
    if why := building.missing(FOLDER):
        print(f"left out: the properties of the crate for cargo, since {why}")
    elif said.faults:
        counts = fault_counts(said.faults)
        passed, failed = passed + counts[0], failed + counts[1]
    else:
        text, status = tested(FOLDER, PROPTEST_CASES=os.environ.get("PROPTEST_CASES", CASES))
        well, ill = counts_of(text, status)
        passed, failed = passed + well, failed + ill
        if ill:
            print(text[-8000:])
    print(f"{passed} passed, {failed} failed")
    return 1 if failed else 0


if __name__ == "__main__":
    sys.exit(main())
