"""Plants faults into the crate, one at a time, and says which of them its tests catch.

    python3 rust/faults.py [COUNT]

draws COUNT faults that compile, 60 if it is left out, from a fixed seed: a number, an operator, a Boolean, an order of
bytes or a statement is another one, or is gone. Of each copy it runs the tests and examples, and compares 20,000 drawn
frames (drawn.py) and what the public functions return for 50,000 drawn inputs (calls.py) with the crate's own. A fault that is not caught is printed; those of `SAME` change nothing, for the reason that is given
there. The last line is 'N passed, M failed'. It takes some eleven minutes of processor time: it is no part of the gate.
"""
import argparse
import concurrent.futures
import os
import random
import re
import shutil
import sys
import tempfile

sys.dont_write_bytecode = True
import building  # noqa: E402
import calls  # noqa: E402
import drawn  # noqa: E402

COUNT, FRAMES, INPUTS, WORKERS = 60, 20_000, 50_000, 2
SECONDS = 600  # a fault may make a test loop for ever
SKIPPED = re.compile(r'//[^\n]*|"(?:\\.|[^"\\])*"|#!?\[[^\]]*\]|^ *(?:pub )?(?:use|mod) [^;]*;', re.M | re.S)
CHANGES = [
    (r" \+ ", " - "), (r" - ", " + "), (r" \* ", " + "), (r" < ", " <= "), (r" <= ", " < "), (r" > ", " >= "),
    (r" >= ", " > "), (r" == ", " != "), (r" != ", " == "), (r" && ", " || "), (r" \|\| ", " && "),
    (r"\btrue\b", "false"), (r"\bfalse\b", "true"), (r"_be_bytes\b", "_le_bytes"), (r"\bis_some\b", "is_none"),
    (r"\bmin\(", "max("), (r"!(?=[a-z])", ""),
    (r"\b[0-9]+\b", lambda m: str(int(m[0]) + 1)), (r"\b0x[0-9A-F]{2,4}\b", lambda m: f"{int(m[0], 16) ^ 1:#x}"),
    (r"\n +(?:self\.)?\w+ [+|]?= [^;{}]*;", ""),
]
ENDS = "a number is read by where its place begins"
FRONT = "the first two bytes of a SecTag have its lengths"
LENGTHS = "other lengths are written in another way"
LAST = "each number but 0, 1 and 2 is that of the fourth place"
RESERVED = "01-80-C2-00-00-00 is a multiple of 17, too"
HALF = "what is left of 64 bits is below 2^32"
# Faults that change nothing that can be seen, as they are printed, and why.
SAME = [
    (r".*_fields\.rs: (const \w+: Range<usize> = \d+\.\.)\d+;  =>  \1\d+;", ENDS),
    (r".*\.rs: (.*u\d+_at\(bytes, at\.\.)at \+ \d\).*  =>  \1at . \d\).*", ENDS),
    (r".*/completing\.rs: let front = (\[first, second,) .*  =>  let front = \1 .*", FRONT),
    (r".*/peel\.rs: self\.first = First::Read;  =>  self\.limit = .*", "a tag is read after the first header"),
    (r".*/packet_builder\.rs: write_sized_sec_tag::<14, 6>.*  =>  .*<14, 7>.*", LENGTHS),
    (r".*/copying\.rs: if block\.len\(\) < 16 \{  =>  .* <= 16 \{", "an interface description has 20 bytes"),
    (r".*/packet_builder\.rs: .* == SHORT \{  =>  .* != SHORT \{", LENGTHS),
    (r".*/stations\.rs: return Some\(3\);  =>  return Some\(4\);", LAST),
    (r".*/stations\.rs: self\.first_to_leave\(new, place, 3\)  =>  .* 4\)", LAST),
    (r".*/stations\.rs: let second = .*  =>  .* % \((1 << 33|2 << 32)\)\);", HALF),
    (r".*/received\.rs: if buffer\.len\(\) < 4 \{  =>  .* (<= 4|< 5) \{", "four bytes hold no frame"),
    (r".*/bridge\.rs: .*address % 16\).*  =>  .*address % 17\).*", RESERVED),
    (r".*/bridge_kind\.rs: .*\(address % 16, .*  =>  .*\(address % 17, .*", RESERVED),
    (r".*/retagging\.rs: ether_type: EtherType\(0\),  =>  .*", "a tag gets the ether type of the frame"),
    (r".*/compat/.*\.rs: .*EtherType\(0\).*  =>  .*EtherType\(1\).*", "neither announces a header"),
    (r".*/compat/.*\.rs: let mut bytes = \[0; (\w|::)+\];  =>  .*\[1; .*", "each byte that is used was written before"),
    (r".*/compat/packet_builder\.rs: const MOST_.*", "there is room enough"),
]


def places(path, text):
    """Each fault of a file: where it begins and ends, and what is there then."""
    masked = SKIPPED.sub(lambda m: re.sub(r"[^\n]", "\0", m[0]), text)
    for pattern, change in CHANGES:
        for m in re.finditer(pattern, masked):
            new = change(m) if callable(change) else change
            if "\0" not in m[0]:
                yield path, m.start(), m.end(), new


def all_places():
    for folder, _, names in sorted(os.walk(os.path.join(building.CRATE, "src"))):
        for name in sorted(names):
            path = os.path.relpath(os.path.join(folder, name), building.CRATE)
            with open(os.path.join(folder, name), encoding="utf-8") as file:
                yield from places(path, file.read())


def planted(fault, folder):
    """Writes a copy of the crate with the fault, and returns the line as it was and as it is then."""
    path, begin, end, new = fault
    for part in ("src", "tests", "examples"):
        shutil.copytree(os.path.join(building.CRATE, part), os.path.join(folder, "etherpeel", part), dirs_exist_ok=True)
    for name in ("Cargo.toml", "README.md"):
        shutil.copy(os.path.join(building.CRATE, name), os.path.join(folder, "etherpeel"))
    shutil.copytree(os.path.join(drawn.FOLDER, "src"), os.path.join(folder, "drawn", "src"), dirs_exist_ok=True)
    shutil.copy(os.path.join(drawn.FOLDER, "Cargo.toml"), os.path.join(folder, "drawn"))
    with open(os.path.join(building.CRATE, path), encoding="utf-8") as file:
        text = file.read()
    changed = text[:begin] + new + text[end:]
    with open(os.path.join(folder, "etherpeel", path), "w", encoding="utf-8") as file:
        file.write(changed)
    at = text.rfind("\n", 0, begin + 1) + 1 if not new else text.rfind("\n", 0, begin) + 1
    return text[at:].split("\n", 1)[0].strip(), changed[at:].split("\n", 1)[0].strip()


def outcome(folder):
    """What becomes of a copy: it does not compile, is caught, or is not."""
    crate = os.path.join(folder, "etherpeel")
    if building.cargo("build", "--tests", "--all-features", folder=crate)[1]:
        return "does not compile"
    if building.cargo("test", "--all-features", "--no-fail-fast", folder=crate, seconds=SECONDS, RUST_TEST_THREADS="2")[1]:
        return "caught by the tests"
    if building.cargo("build", "--release", folder=os.path.join(folder, "drawn"))[1]:
        return "does not compile"
    release, own = (os.path.join(it, "target", "release") for it in (os.path.join(folder, "drawn"), drawn.FOLDER))
    if any(drawn.failures(FRAMES, os.path.join(release, "drawn"))):
        return "caught by drawn frames"
    programs = [os.path.join(it, calls.NAME) for it in (own, release)]
    return "caught by drawn calls" if any(calls.differences(programs, INPUTS)) else "not caught"


def work(faults, folder, wanted):
    """Plants one fault after the other until as many as wanted compile."""
    found = []
    for fault in faults:
        before, after = planted(fault, folder)
        told = outcome(folder)
        if told != "does not compile":
            found.append((fault[0], before, after, told))
            print(f"{fault[0]}: {before}  =>  {after}: {told}", flush=True)
        with open(os.path.join(building.CRATE, fault[0]), encoding="utf-8") as file:
            text = file.read()
        with open(os.path.join(folder, "etherpeel", fault[0]), "w", encoding="utf-8") as file:
            file.write(text)
        if len(found) == wanted:
            break
    return found


def main():
    words = argparse.ArgumentParser(description=__doc__, formatter_class=argparse.RawDescriptionHelpFormatter)
    words.add_argument("count", metavar="COUNT", nargs="?", type=int, default=COUNT)
    count = words.parse_args().count
    calls.built("--release")
    faults = list(all_places())
    random.Random(1).shuffle(faults)
    with tempfile.TemporaryDirectory() as folder, concurrent.futures.ThreadPoolExecutor(WORKERS) as pool:
        folders = [os.path.join(folder, str(i)) for i in range(WORKERS)]
        for it in folders:
            os.makedirs(os.path.join(it, "etherpeel"))
            os.makedirs(os.path.join(it, "drawn"))
        parts = [pool.submit(work, faults[i::WORKERS], folders[i], count // WORKERS) for i in range(WORKERS)]
        found = [it for part in parts for it in part.result()]
    survivors = [f"{path}: {before}  =>  {after}" for path, before, after, told in found if told == "not caught"]
    missed = [it for it in survivors if not any(re.fullmatch(pattern, it) for pattern, _ in SAME)]
    same = len(survivors) - len(missed)
    for it in missed:
        print(f"not caught: {it}")
    print(f"{len(faults)} places; of {len(found)} faults {same} change nothing")
    print(f"{len(found) - len(missed)} passed, {len(missed)} failed")
    return 1 if missed else 0


if __name__ == "__main__":
    sys.exit(main())
