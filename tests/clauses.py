"""Finds public functions without a clause, and public constants whose value no contract pins.

    python3 tests/clauses.py

A function is `pub fn` of a crate that a program or a library has, or a method of a public trait. A clause is an `ensures`: without one any body is
proved. The methods of an impl of a trait have the trait's. A constant is pinned if a definition cites it, or a function with a clause uses
it: then another value breaks a proof. What has no clause for a reason is in WITHOUT. Prints each of the others, and the last line is
'N passed, M failed'.
"""
import argparse
import glob
import os
import re
import sys

TOP = os.path.dirname(os.path.dirname(os.path.abspath(__file__)))
CELL = "it sets a cell, and the logic does not say what a cell holds"
SYSTEM = "no contract can say what the files and streams of the system are"
MODEL = "the invariant of its type says what it holds"
# By crate, file and name: why a function has no clause.
WITHOUT = {
    ("ether_capture", "captures", "show"): CELL,
    ("ether_capture", "captures", "end_line"): CELL,
    ("ether_capture", "progress_line", "show"): CELL,
    ("ether_capture", "progress_line", "end_line"): CELL,
    ("ether_files", "closed", "hold"): SYSTEM,
    ("ether_files", "copy_files", "has_frames"): SYSTEM,
    **{("ether_files", "own_output", name): SYSTEM for name in ("new", "is", "is_named", "is_input")},
    ("ether_stream", "edit_buffer", "new"): MODEL,
}
ITEM = re.compile(r"(\s*)(pub )?(?:pub\(\w+\) )?(?:const )?(?:unsafe )?(?:extern \"C\" )?fn (\w+)")
CONSTANT = re.compile(r"\s*pub const (\w+)\s*:")
BLOCK = re.compile(r"(pub )?(?:unsafe )?(impl|trait)\b(.*)")
CITED = re.compile(r"\.TheConstants(?:\.(\w+))?\.\{([^}]*)\}")


def sources():
    """The files of all crates: the name of the crate, the path below its sources, and the lines."""
    for path in sorted(glob.glob(f"{TOP}/crates/*/src/**/*.rt", recursive=True)):
        crate, _, name = os.path.relpath(path, f"{TOP}/crates").partition("/src/")
        with open(path, encoding="utf-8") as file:
            yield crate, name.removesuffix(".rt"), file.read().splitlines()


def item_end(lines, at):
    """The line of a function where its body begins, or where it ends if it has none, and whether it has a clause on what it ensures."""
    has_clause = False
    for place in range(at, len(lines)):
        text = lines[place].strip()
        is_clause = text.startswith(("ensures", "requires"))
        has_clause |= text.startswith("ensures")
        if not is_clause and text.endswith(("{", "{}")) or text.endswith(";") and (not is_clause or text.endswith("};")):
            return place, has_clause
    return len(lines) - 1, has_clause


def subject(header):
    """The type of an impl, or the name of a trait, by what follows that word, and whether the impl is one of a trait."""
    while (shorter := re.sub(r"<[^<>]*>", "", header)) != header:
        header = shorter
    *of_trait, header = header.split(" for ")
    return re.match(r"\s*(?:&|\[)?(\w+)", header)[1], bool(of_trait)


def functions_and_constants(lines):
    """The functions of a file, as (line, name, is public, has a clause, text), and its public constants, as (line, name, type or None)."""
    functions, constants, block = [], [], (False, "", None, False)
    for at, line in enumerate(lines):
        if told := BLOCK.match(line):
            block = bool(told[1]), told[2], *subject(told[3])
        elif line == "}":
            block = False, "", None, False
        if told := ITEM.match(line):
            end, has_clause = item_end(lines, at)
            last = next((n for n in range(end, len(lines)) if lines[n].startswith(f"{told[1]}}}")), end)
            is_public = bool(told[2]) or block[:2] == (True, "trait")
            functions.append((at + 1, told[3], is_public, has_clause or block[3], block[2], "\n".join(lines[at:last + 1])))
        elif told := CONSTANT.match(line):
            constants.append((at + 1, told[1], block[2]))
    return functions, constants


def main():
    argparse.ArgumentParser(description=__doc__, formatter_class=argparse.RawDescriptionHelpFormatter).parse_args()
    read = [(crate, name, *functions_and_constants(lines)) for crate, name, lines in sources()]
    pinning = [(of, text) for _, _, functions, _ in read for _, _, _, has_clause, of, text in functions if has_clause]
    by_name = {}
    for path in (*glob.glob(f"{TOP}/crates/*/specs/**/*.antt", recursive=True), *glob.glob(f"{TOP}/crates/*/src/**/*.rt", recursive=True)):
        with open(path, encoding="utf-8") as file:
            for of, names in CITED.findall(file.read()):
                for name in names.split(", "):
                    by_name.setdefault(name.split(" as ")[0], set()).add(of or None)
    for of, text in pinning:
        for told in re.finditer(r"(?:(\w+)::)?\b([A-Z][A-Z0-9_]*)\b", text):
            by_name.setdefault(told[2], set()).add(of if told[1] == "Self" else told[1])
    passed, wrong, used = 0, [], set()
    for crate, name, functions, constants in read:
        if crate.endswith("_tests") or crate.startswith("example_"):
            continue
        for line, function, is_public, has_clause, _, _ in functions:
            allowed = WITHOUT.get((crate, name, function))
            used |= {(crate, name, function)} if allowed and not has_clause else set()
            if is_public:
                passed += has_clause or bool(allowed)
                if not has_clause and not allowed:
                    wrong.append(f"crates/{crate}/src/{name}.rt:{line}: no clause says what `{function}` returns or does")
        for line, constant, of in constants:
            is_pinned = of in by_name.get(constant, ()) if of else constant in by_name
            passed += is_pinned
            if not is_pinned:
                wrong.append(f"crates/{crate}/src/{name}.rt:{line}: no contract pins {of + '::' if of else ''}{constant}")
    wrong += [f"tests/clauses.py: {it} has a clause, or is gone" for it in WITHOUT.keys() - used]
    print(*wrong, f"{passed} passed, {len(wrong)} failed", sep="\n")
    return bool(wrong)


if __name__ == "__main__":
    sys.exit(main())
